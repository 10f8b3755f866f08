// A request put to the function that it names. Made by tools/boundary/make.
#[path = "../../rust/caplattice/src/raw.rs"]
#[allow(dead_code)]
mod raw;

pub use raw::Answer;

pub fn call(
    name: &str,
    [a, b, c]: [u64; 3],
    source: &[u8],
    target: &mut [u8],
    trellis: &mut [u16],
    answer: &mut Answer,
) -> u8 {
    match name {
        "crc16_itut_bits" => raw::crc16_itut_bits(a as u16, source, b as usize, answer),
        "crc16_itut_bytes" => raw::crc16_itut_bytes(a as u16, source, b as usize, answer),
        "crc16_ccitt_bits" => raw::crc16_ccitt_bits(source, a as usize, answer),
        "tetra_scramb_get_bits" => raw::tetra_scramb_get_bits(a as u32, target),
        "tetra_scramb_bits" => raw::tetra_scramb_bits(a as u32, target),
        "tetra_descramb_bits" => raw::tetra_descramb_bits(a as u32, target),
        "tetra_scramb_get_init" => raw::tetra_scramb_get_init(a as u16, b as u16, c as u8, answer),
        "block_interleave" => raw::block_interleave(a as usize, b as usize, source, target),
        "block_deinterleave" => raw::block_deinterleave(a as usize, b as usize, source, target),
        "matrix_interleave" => raw::matrix_interleave(a as usize, b as usize, source, target),
        "matrix_deinterleave" => raw::matrix_deinterleave(a as usize, b as usize, source, target),
        "tetra_rm3014_compute" => raw::tetra_rm3014_compute(a as u16, answer),
        "tetra_rm3014_decode_naive" => raw::tetra_rm3014_decode_naive(a as u32, answer),
        "compute_syndrome" => raw::compute_syndrome(a as u32, answer),
        "tetra_rm3014_decode_limited_ecc" => raw::tetra_rm3014_decode_limited_ecc(a as u32, answer),
        "codec_to_channel" => raw::codec_to_channel(source, target),
        "channel_to_codec" => raw::channel_to_codec(source, target),
        "encode" => raw::encode(a as u32, source, target, answer),
        "encode_rate1_3" => raw::encode_rate1_3(a as u32, source, target, answer),
        "encode_speech" => raw::encode_speech(a as u32, source, target, answer),
        "get_punctured_rate" => raw::get_punctured_rate(a as u8, source, b as usize, target),
        "tetra_rcpc_depunct" => raw::tetra_rcpc_depunct(a as u8, source, b as usize, target),
        "mother_memcmp" => {
            let (first, second) = source.split_at(a as usize);
            raw::mother_memcmp(first, second, answer)
        }
        "dec_sb1" => raw::dec_sb1(source, target, a as usize, trellis, answer),
        "dec_speech" => raw::dec_speech(source, target, a as usize, trellis, answer),
        "speech_crc" => raw::speech_crc(source, target),
        "encode_cp" => raw::encode_cp(a as u8, b as u32, source, target),
        "decode_cp" => raw::decode_cp(a as u8, b as u32, source, target, trellis, answer),
        "encode_tp" => raw::encode_tp(a as u32, source, target),
        "encode_tp_half" => raw::encode_tp_half(a as u32, source, target),
        "decode_tp" => raw::decode_tp(a as u32, source, target, trellis, answer),
        "decode_tp_half" => raw::decode_tp_half(a as u32, source, target, trellis, answer),
        "encode_aach" => raw::encode_aach(a as u32, source, target),
        "decode_aach" => raw::decode_aach(a as u32, source, answer),
        _ => unreachable!(),
    }
}
