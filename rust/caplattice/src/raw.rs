// The static library's functions as include/caplattice.h declares them, and each as a safe function: a slice goes in as its
// pointer and its length. The library accepts every length and every value, and holds nothing after it returns; Rust's
// borrows keep the slices of one call apart. That is all that the header asks, so no call here can go wrong.
// Made by tools/boundary/make.

/// What a call says when it returns 0. A refusal, which it returns as its number, leaves it as it was.
#[repr(C)]
#[derive(Clone, Copy, Debug, Default, PartialEq, Eq)]
pub struct Answer {
    pub verdict: u64,
    pub value: u64,
    pub disagreements: u64,
    pub place: u64,
    pub erasures: u64,
    pub bits: u64,
}

#[link(name = "caplattice", kind = "static")]
extern "C" {
    fn caplattice_version() -> u32;
    fn caplattice_crc16_itut_bits(crc: u16, source: *const u8, source_len: usize, n: usize, answer: *mut Answer) -> u8;
    fn caplattice_crc16_itut_bytes(crc: u16, source: *const u8, source_len: usize, n: usize, answer: *mut Answer) -> u8;
    fn caplattice_crc16_ccitt_bits(source: *const u8, source_len: usize, n: usize, answer: *mut Answer) -> u8;
    fn caplattice_tetra_scramb_get_bits(start: u32, target: *mut u8, target_len: usize) -> u8;
    fn caplattice_tetra_scramb_bits(start: u32, target: *mut u8, target_len: usize) -> u8;
    fn caplattice_tetra_descramb_bits(start: u32, target: *mut u8, target_len: usize) -> u8;
    fn caplattice_tetra_scramb_get_init(mcc: u16, mnc: u16, colour: u8, answer: *mut Answer) -> u8;
    fn caplattice_block_interleave(
        k: usize,
        a: usize,
        source: *const u8,
        source_len: usize,
        target: *mut u8,
        target_len: usize,
    ) -> u8;
    fn caplattice_block_deinterleave(
        k: usize,
        a: usize,
        source: *const u8,
        source_len: usize,
        target: *mut u8,
        target_len: usize,
    ) -> u8;
    fn caplattice_matrix_interleave(
        lines: usize,
        columns: usize,
        source: *const u8,
        source_len: usize,
        target: *mut u8,
        target_len: usize,
    ) -> u8;
    fn caplattice_matrix_deinterleave(
        lines: usize,
        columns: usize,
        source: *const u8,
        source_len: usize,
        target: *mut u8,
        target_len: usize,
    ) -> u8;
    fn caplattice_tetra_rm3014_compute(input: u16, answer: *mut Answer) -> u8;
    fn caplattice_tetra_rm3014_decode_naive(codeword: u32, answer: *mut Answer) -> u8;
    fn caplattice_compute_syndrome(codeword: u32, answer: *mut Answer) -> u8;
    fn caplattice_tetra_rm3014_decode_limited_ecc(codeword: u32, answer: *mut Answer) -> u8;
    fn caplattice_codec_to_channel(source: *const u8, source_len: usize, target: *mut u8, target_len: usize) -> u8;
    fn caplattice_channel_to_codec(source: *const u8, source_len: usize, target: *mut u8, target_len: usize) -> u8;
    fn caplattice_encode(
        delays: u32,
        source: *const u8,
        source_len: usize,
        target: *mut u8,
        target_len: usize,
        answer: *mut Answer,
    ) -> u8;
    fn caplattice_encode_rate1_3(
        delays: u32,
        source: *const u8,
        source_len: usize,
        target: *mut u8,
        target_len: usize,
        answer: *mut Answer,
    ) -> u8;
    fn caplattice_encode_speech(
        delays: u32,
        source: *const u8,
        source_len: usize,
        target: *mut u8,
        target_len: usize,
        answer: *mut Answer,
    ) -> u8;
    fn caplattice_get_punctured_rate(
        mode: u8,
        source: *const u8,
        source_len: usize,
        n: usize,
        target: *mut u8,
        target_len: usize,
    ) -> u8;
    fn caplattice_tetra_rcpc_depunct(
        mode: u8,
        source: *const u8,
        source_len: usize,
        n: usize,
        target: *mut u8,
        target_len: usize,
    ) -> u8;
    fn caplattice_mother_memcmp(
        mother: *const u8,
        mother_len: usize,
        depunct: *const u8,
        depunct_len: usize,
        answer: *mut Answer,
    ) -> u8;
    fn caplattice_dec_sb1(
        source: *const u8,
        source_len: usize,
        target: *mut u8,
        target_len: usize,
        n: usize,
        trellis: *mut u16,
        trellis_len: usize,
        answer: *mut Answer,
    ) -> u8;
    fn caplattice_dec_speech(
        source: *const u8,
        source_len: usize,
        target: *mut u8,
        target_len: usize,
        n: usize,
        trellis: *mut u16,
        trellis_len: usize,
        answer: *mut Answer,
    ) -> u8;
    fn caplattice_speech_crc(source: *const u8, source_len: usize, target: *mut u8, target_len: usize) -> u8;
    fn caplattice_encode_cp(kind: u8, start: u32, source: *const u8, source_len: usize, target: *mut u8, target_len: usize) -> u8;
    fn caplattice_decode_cp(
        kind: u8,
        start: u32,
        source: *const u8,
        source_len: usize,
        target: *mut u8,
        target_len: usize,
        trellis: *mut u16,
        trellis_len: usize,
        answer: *mut Answer,
    ) -> u8;
    fn caplattice_encode_tp(start: u32, source: *const u8, source_len: usize, target: *mut u8, target_len: usize) -> u8;
    fn caplattice_encode_tp_half(start: u32, source: *const u8, source_len: usize, target: *mut u8, target_len: usize) -> u8;
    fn caplattice_decode_tp(
        start: u32,
        source: *const u8,
        source_len: usize,
        target: *mut u8,
        target_len: usize,
        trellis: *mut u16,
        trellis_len: usize,
        answer: *mut Answer,
    ) -> u8;
    fn caplattice_decode_tp_half(
        start: u32,
        source: *const u8,
        source_len: usize,
        target: *mut u8,
        target_len: usize,
        trellis: *mut u16,
        trellis_len: usize,
        answer: *mut Answer,
    ) -> u8;
    fn caplattice_encode_aach(start: u32, source: *const u8, source_len: usize, target: *mut u8, target_len: usize) -> u8;
    fn caplattice_decode_aach(start: u32, source: *const u8, source_len: usize, answer: *mut Answer) -> u8;
}

pub fn version() -> u32 {
    unsafe { caplattice_version() }
}

pub fn crc16_itut_bits(crc: u16, source: &[u8], n: usize, answer: &mut Answer) -> u8 {
    unsafe { caplattice_crc16_itut_bits(crc, source.as_ptr(), source.len(), n, answer) }
}

pub fn crc16_itut_bytes(crc: u16, source: &[u8], n: usize, answer: &mut Answer) -> u8 {
    unsafe { caplattice_crc16_itut_bytes(crc, source.as_ptr(), source.len(), n, answer) }
}

pub fn crc16_ccitt_bits(source: &[u8], n: usize, answer: &mut Answer) -> u8 {
    unsafe { caplattice_crc16_ccitt_bits(source.as_ptr(), source.len(), n, answer) }
}

pub fn tetra_scramb_get_bits(start: u32, target: &mut [u8]) -> u8 {
    unsafe { caplattice_tetra_scramb_get_bits(start, target.as_mut_ptr(), target.len()) }
}

pub fn tetra_scramb_bits(start: u32, target: &mut [u8]) -> u8 {
    unsafe { caplattice_tetra_scramb_bits(start, target.as_mut_ptr(), target.len()) }
}

pub fn tetra_descramb_bits(start: u32, target: &mut [u8]) -> u8 {
    unsafe { caplattice_tetra_descramb_bits(start, target.as_mut_ptr(), target.len()) }
}

pub fn tetra_scramb_get_init(mcc: u16, mnc: u16, colour: u8, answer: &mut Answer) -> u8 {
    unsafe { caplattice_tetra_scramb_get_init(mcc, mnc, colour, answer) }
}

pub fn block_interleave(k: usize, a: usize, source: &[u8], target: &mut [u8]) -> u8 {
    unsafe { caplattice_block_interleave(k, a, source.as_ptr(), source.len(), target.as_mut_ptr(), target.len()) }
}

pub fn block_deinterleave(k: usize, a: usize, source: &[u8], target: &mut [u8]) -> u8 {
    unsafe { caplattice_block_deinterleave(k, a, source.as_ptr(), source.len(), target.as_mut_ptr(), target.len()) }
}

pub fn matrix_interleave(lines: usize, columns: usize, source: &[u8], target: &mut [u8]) -> u8 {
    unsafe { caplattice_matrix_interleave(lines, columns, source.as_ptr(), source.len(), target.as_mut_ptr(), target.len()) }
}

pub fn matrix_deinterleave(lines: usize, columns: usize, source: &[u8], target: &mut [u8]) -> u8 {
    unsafe { caplattice_matrix_deinterleave(lines, columns, source.as_ptr(), source.len(), target.as_mut_ptr(), target.len()) }
}

pub fn tetra_rm3014_compute(input: u16, answer: &mut Answer) -> u8 {
    unsafe { caplattice_tetra_rm3014_compute(input, answer) }
}

pub fn tetra_rm3014_decode_naive(codeword: u32, answer: &mut Answer) -> u8 {
    unsafe { caplattice_tetra_rm3014_decode_naive(codeword, answer) }
}

pub fn compute_syndrome(codeword: u32, answer: &mut Answer) -> u8 {
    unsafe { caplattice_compute_syndrome(codeword, answer) }
}

pub fn tetra_rm3014_decode_limited_ecc(codeword: u32, answer: &mut Answer) -> u8 {
    unsafe { caplattice_tetra_rm3014_decode_limited_ecc(codeword, answer) }
}

pub fn codec_to_channel(source: &[u8], target: &mut [u8]) -> u8 {
    unsafe { caplattice_codec_to_channel(source.as_ptr(), source.len(), target.as_mut_ptr(), target.len()) }
}

pub fn channel_to_codec(source: &[u8], target: &mut [u8]) -> u8 {
    unsafe { caplattice_channel_to_codec(source.as_ptr(), source.len(), target.as_mut_ptr(), target.len()) }
}

pub fn encode(delays: u32, source: &[u8], target: &mut [u8], answer: &mut Answer) -> u8 {
    unsafe { caplattice_encode(delays, source.as_ptr(), source.len(), target.as_mut_ptr(), target.len(), answer) }
}

pub fn encode_rate1_3(delays: u32, source: &[u8], target: &mut [u8], answer: &mut Answer) -> u8 {
    unsafe { caplattice_encode_rate1_3(delays, source.as_ptr(), source.len(), target.as_mut_ptr(), target.len(), answer) }
}

pub fn encode_speech(delays: u32, source: &[u8], target: &mut [u8], answer: &mut Answer) -> u8 {
    unsafe { caplattice_encode_speech(delays, source.as_ptr(), source.len(), target.as_mut_ptr(), target.len(), answer) }
}

pub fn get_punctured_rate(mode: u8, source: &[u8], n: usize, target: &mut [u8]) -> u8 {
    unsafe { caplattice_get_punctured_rate(mode, source.as_ptr(), source.len(), n, target.as_mut_ptr(), target.len()) }
}

pub fn tetra_rcpc_depunct(mode: u8, source: &[u8], n: usize, target: &mut [u8]) -> u8 {
    unsafe { caplattice_tetra_rcpc_depunct(mode, source.as_ptr(), source.len(), n, target.as_mut_ptr(), target.len()) }
}

pub fn mother_memcmp(mother: &[u8], depunct: &[u8], answer: &mut Answer) -> u8 {
    unsafe { caplattice_mother_memcmp(mother.as_ptr(), mother.len(), depunct.as_ptr(), depunct.len(), answer) }
}

pub fn dec_sb1(source: &[u8], target: &mut [u8], n: usize, trellis: &mut [u16], answer: &mut Answer) -> u8 {
    unsafe {
        caplattice_dec_sb1(
            source.as_ptr(),
            source.len(),
            target.as_mut_ptr(),
            target.len(),
            n,
            trellis.as_mut_ptr(),
            trellis.len(),
            answer,
        )
    }
}

pub fn dec_speech(source: &[u8], target: &mut [u8], n: usize, trellis: &mut [u16], answer: &mut Answer) -> u8 {
    unsafe {
        caplattice_dec_speech(
            source.as_ptr(),
            source.len(),
            target.as_mut_ptr(),
            target.len(),
            n,
            trellis.as_mut_ptr(),
            trellis.len(),
            answer,
        )
    }
}

pub fn speech_crc(source: &[u8], target: &mut [u8]) -> u8 {
    unsafe { caplattice_speech_crc(source.as_ptr(), source.len(), target.as_mut_ptr(), target.len()) }
}

pub fn encode_cp(kind: u8, start: u32, source: &[u8], target: &mut [u8]) -> u8 {
    unsafe { caplattice_encode_cp(kind, start, source.as_ptr(), source.len(), target.as_mut_ptr(), target.len()) }
}

pub fn decode_cp(kind: u8, start: u32, source: &[u8], target: &mut [u8], trellis: &mut [u16], answer: &mut Answer) -> u8 {
    unsafe {
        caplattice_decode_cp(
            kind,
            start,
            source.as_ptr(),
            source.len(),
            target.as_mut_ptr(),
            target.len(),
            trellis.as_mut_ptr(),
            trellis.len(),
            answer,
        )
    }
}

pub fn encode_tp(start: u32, source: &[u8], target: &mut [u8]) -> u8 {
    unsafe { caplattice_encode_tp(start, source.as_ptr(), source.len(), target.as_mut_ptr(), target.len()) }
}

pub fn encode_tp_half(start: u32, source: &[u8], target: &mut [u8]) -> u8 {
    unsafe { caplattice_encode_tp_half(start, source.as_ptr(), source.len(), target.as_mut_ptr(), target.len()) }
}

pub fn decode_tp(start: u32, source: &[u8], target: &mut [u8], trellis: &mut [u16], answer: &mut Answer) -> u8 {
    unsafe {
        caplattice_decode_tp(
            start,
            source.as_ptr(),
            source.len(),
            target.as_mut_ptr(),
            target.len(),
            trellis.as_mut_ptr(),
            trellis.len(),
            answer,
        )
    }
}

pub fn decode_tp_half(start: u32, source: &[u8], target: &mut [u8], trellis: &mut [u16], answer: &mut Answer) -> u8 {
    unsafe {
        caplattice_decode_tp_half(
            start,
            source.as_ptr(),
            source.len(),
            target.as_mut_ptr(),
            target.len(),
            trellis.as_mut_ptr(),
            trellis.len(),
            answer,
        )
    }
}

pub fn encode_aach(start: u32, source: &[u8], target: &mut [u8]) -> u8 {
    unsafe { caplattice_encode_aach(start, source.as_ptr(), source.len(), target.as_mut_ptr(), target.len()) }
}

pub fn decode_aach(start: u32, source: &[u8], answer: &mut Answer) -> u8 {
    unsafe { caplattice_decode_aach(start, source.as_ptr(), source.len(), answer) }
}
