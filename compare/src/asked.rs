// What the original answers to a request. Chains that need more than the original's own chains give (a whole word,
// disagreements, erasures, a second half) are its parts in its order, and agree with its chains wherever those speak.
use original::lmac::components::convenc::{self, RcpcPunctMode};
use original::lmac::components::{crc16, errorcontrol, interleaver, rm3014, scrambler, tch_reorder, viterbi};
use original::tmv::enums::logical_chans::LogicalChannel;
use original::tmv::TmvUnitdataReq;
use original::tp::TpUnitdataInd;
use original::{BitBuffer, PhyBlockType};
use record::*;

fn mode(number: u64) -> Option<RcpcPunctMode> {
    Some(match number {
        0 => RcpcPunctMode::Rate2_3,
        1 => RcpcPunctMode::Rate1_3,
        2 => RcpcPunctMode::Rate292_432,
        3 => RcpcPunctMode::Rate148_432,
        4 => RcpcPunctMode::Rate112_168,
        5 => RcpcPunctMode::Rate72_162,
        6 => RcpcPunctMode::Rate38_80,
        _ => return None,
    })
}

struct Kind {
    channel: LogicalChannel,
    word: usize,
    air: usize,
    a: usize,
}

fn kind(number: u64) -> Option<Kind> {
    let (channel, word, air, a) = match number {
        1 => (LogicalChannel::Bsch, 80, 120, 11),
        2 => (LogicalChannel::SchHu, 112, 168, 13),
        3 => (LogicalChannel::SchHd, 144, 216, 101),
        4 => (LogicalChannel::SchF, 288, 432, 103),
        _ => return None,
    };
    Some(Kind { channel, word, air, a })
}

fn bits(buffer: BitBuffer) -> Vec<u8> {
    buffer.into_bitvec()
}

// Scrambling over symbols: the original's outputs, added to bits; a symbol that is no bit becomes 0xff.
fn descrambled(start: u32, symbols: &[u8]) -> Vec<u8> {
    let mut outputs = vec![0; symbols.len()];
    scrambler::tetra_scramb_get_bits(start, &mut outputs);
    symbols.iter().zip(outputs).map(|(&s, o)| if s < 2 { s ^ o } else { 0xff }).collect()
}

// The unerased symbols that the original's encoder, fed the word, does not send.
fn disagreements(rate: usize, symbols: &[u8], word: &[u8]) -> u32 {
    let mut sent = vec![0; rate * word.len()];
    if rate == 4 {
        convenc::ConvEncState::new().encode(word, &mut sent);
    } else {
        convenc::SpeechConvEncState::new().encode(word, &mut sent);
    }
    sent.iter().zip(symbols).filter(|(&y, &s)| s < 2 && s != y).count() as u32
}

fn speech_word(symbols: &[u8]) -> Vec<u8> {
    let soft: Vec<i8> = symbols.iter().map(|&s| [-1, 1, 0][s.min(2) as usize]).collect();
    viterbi::TetraCodecViterbiDecoder::new().decode(&soft)
}

fn decode_control(k: &Kind, start: u32, air: &[u8]) -> (u64, Vec<u8>) {
    let mut type3 = vec![0; k.air];
    interleaver::block_deinterleave(k.air, k.a, &descrambled(start, air), &mut type3);
    let mut mother = vec![0xff; 4 * k.word];
    convenc::tetra_rcpc_depunct(RcpcPunctMode::Rate2_3, &type3, k.air, &mut mother);
    let mut word = vec![0; k.word];
    viterbi::dec_sb1(&mother, &mut word, k.word);
    let good = crc16::crc16_ccitt_bits(&word, k.word - 4) == crc16::TETRA_CRC_OK;
    (pack(if good { GOOD } else { BAD }, disagreements(4, &mother, &word), 0), word)
}

// The original's chain on bits, and its data and check held against the parts'.
fn whole_control(k: &Kind, start: u32, air: &[u8], answer: u64, word: &[u8]) {
    // An SB1 block is unscrambled from 3, whatever start is given.
    let sync = k.channel == LogicalChannel::Bsch && start == 3;
    let block_type = if sync { PhyBlockType::SB1 } else { PhyBlockType::Other };
    let prim = TpUnitdataInd { block: BitBuffer::from_bitarr(air), block_type };
    let (block, good) = errorcontrol::decode_cp(k.channel, prim, Some(start));
    let data = bits(block.expect("a block"));
    if word[..data.len()] != data || good != ((answer >> 32) as u8 == GOOD) {
        torn("decode_cp");
    }
}

// The original's parts do not do what its chain does: nothing that this program answers could then be relied on.
fn torn(chain: &str) -> ! {
    eprintln!("{chain} is not its parts");
    std::process::exit(2)
}

fn decode_speech(start: u32, air: &[u8]) -> (u64, Vec<u8>) {
    let mut slot = vec![0; 432];
    interleaver::matrix_deinterleave(24, 18, &descrambled(start, air), &mut slot);
    let mut mother = vec![0xff; 3 * 184];
    convenc::tetra_rcpc_depunct(RcpcPunctMode::Rate112_168, &slot[102..270], 168, &mut mother[..336]);
    convenc::tetra_rcpc_depunct(RcpcPunctMode::Rate72_162, &slot[270..], 162, &mut mother[336..]);
    let word = speech_word(&mother);
    let good = errorcontrol::speech_check(&word[112..172]) == word[172..180];
    let mut channel = [0; 274];
    for (entry, &symbol) in channel.iter_mut().zip(&slot[..102]) {
        *entry = if symbol == 1 { 1 } else { 0 };
    }
    channel[102..].copy_from_slice(&word[..172]);
    let codec = tch_reorder::channel_to_codec(&channel).to_vec();
    (pack(if good { GOOD } else { BAD }, disagreements(3, &mother, &word), 0), codec)
}

fn whole_speech(start: u32, air: &[u8], answer: u64, codec: &[u8]) {
    let (block, good) = errorcontrol::decode_tp(LogicalChannel::TchS, BitBuffer::from_bitarr(air), start);
    if bits(block.expect("a block")) != codec || good != ((answer >> 32) as u8 == GOOD) {
        torn("decode_tp");
    }
}

// The original's verdict has no name: it is read off the data, the syndrome and the columns' syndromes.
fn verdict(word: u32) -> u64 {
    let value = rm3014::tetra_rm3014_decode_limited_ecc(word) as u32;
    let syndrome = rm3014::compute_syndrome(word);
    if syndrome == 0 {
        return pack(CLEAN, value, 0);
    }
    match rm3014::COL_SYNDROMES.iter().position(|&column| column == syndrome) {
        Some(place) => pack(MENDED, value, place as u8 + 1),
        None => pack(BEYOND, value, 0),
    }
}

fn delays(number: u64) -> [u8; 4] {
    (number as u32).to_le_bytes()
}

// What the entry gives; `put` holds what it writes, `zero` how much of the trellis it uses.
struct Given {
    answer: u64,
    put: Vec<u8>,
    zero: usize,
}

fn given(answer: u64, put: Vec<u8>, zero: usize) -> Given {
    Given { answer, put, zero }
}

// None where the original has no such input: a mode or kind by number, a slice of another length than its array,
// a target or trellis of its caller's where it makes its own.
fn ask(r: &Request) -> Option<Given> {
    let [a, b, c] = r.numbers;
    let (first, second) = (a as usize, b as usize);
    let start = a as u32;
    let source = &r.source[..];
    let done = pack(DONE, 0, 0);
    let mut target = target_before(r.seed, r.target);
    let value = |v: u32| given(pack(DONE, v, 0), vec![], 0);
    let answer = match ENTRIES[r.entry as usize] {
        "crc16_itut_bits" => value(crc16::crc16_itut_bits(a as u16, source, second) as u32),
        "crc16_itut_bytes" => value(crc16::crc16_itut_bytes(a as u16, source, second) as u32),
        "crc16_ccitt_bits" => value(crc16::crc16_ccitt_bits(source, first) as u32),
        "tetra_scramb_get_bits" => {
            let mut out = source.to_vec();
            scrambler::tetra_scramb_get_bits(start, &mut out);
            given(done, out, 0)
        }
        "tetra_scramb_bits" | "tetra_descramb_bits" => {
            let mut buffer = BitBuffer::from_bitarr(source);
            scrambler::tetra_scramb_bits(start, &mut buffer);
            given(done, bits(buffer), 0)
        }
        "tetra_scramb_get_init" => value(scrambler::tetra_scramb_get_init(a as u16, b as u16, c as u8)),
        "block_interleave" => {
            interleaver::block_interleave(first, second, source, &mut target);
            given(done, target, 0)
        }
        "block_deinterleave" => {
            interleaver::block_deinterleave(first, second, source, &mut target);
            given(done, target, 0)
        }
        "matrix_interleave" => {
            interleaver::matrix_interleave(first, second, source, &mut target);
            given(done, target, 0)
        }
        "matrix_deinterleave" => {
            interleaver::matrix_deinterleave(first, second, source, &mut target);
            given(done, target, 0)
        }
        "tetra_rm3014_compute" => value(rm3014::tetra_rm3014_compute(a as u16)),
        "tetra_rm3014_decode_naive" => value(rm3014::tetra_rm3014_decode_naive(start) as u32),
        "compute_syndrome" => value(rm3014::compute_syndrome(start) as u32),
        "tetra_rm3014_decode_limited_ecc" => given(verdict(start), vec![], 0),
        "codec_to_channel" => given(done, tch_reorder::codec_to_channel(slot_of(source)?).to_vec(), 0),
        "channel_to_codec" => given(done, tch_reorder::channel_to_codec(slot_of(source)?).to_vec(), 0),
        "encode" => {
            let mut state = convenc::control_from(delays(a));
            state.encode(source, &mut target);
            given(pack(DONE, u32::from_le_bytes(convenc::control_delays(&state)), 0), target, 0)
        }
        "encode_rate1_3" => {
            let mut state = convenc::control_from(delays(a));
            state.encode_rate1_3(source, &mut target);
            given(pack(DONE, u32::from_le_bytes(convenc::control_delays(&state)), 0), target, 0)
        }
        "encode_speech" => {
            let mut state = convenc::speech_from(delays(a));
            state.encode(source, &mut target);
            given(pack(DONE, u32::from_le_bytes(convenc::speech_delays(&state)), 0), target, 0)
        }
        "get_punctured_rate" => {
            convenc::get_punctured_rate(mode(a)?, source, target.get_mut(..second)?);
            given(done, target, 0)
        }
        "tetra_rcpc_depunct" => {
            convenc::tetra_rcpc_depunct(mode(a)?, source, second, &mut target);
            given(done, target, 0)
        }
        "mother_memcmp" => match convenc::mother_memcmp(&source[..first], &source[first..]) {
            Ok(count) => given(pack(MATCHED, count as u32, 0), vec![], 0),
            Err(()) => given(pack(DIFFERS, 0, 0), vec![], 0),
        },
        "dec_sb1" => {
            viterbi::dec_sb1(source, &mut target, first);
            given(pack(DONE, disagreements(4, source, &target[..first]), 0), target, first)
        }
        // The count is the length of what it is given, over three; it has no other.
        "dec_speech" => {
            let word = speech_word(&source[..source.len().min(first.saturating_mul(3))]);
            given(pack(DONE, disagreements(3, source, &word), 0), word, first)
        }
        "speech_crc" => given(done, errorcontrol::speech_check(source).to_vec(), 0),
        "encode_cp" => {
            let logical_channel = kind(a)?.channel;
            let mac_block = BitBuffer::from_bitarr(source);
            let prim = TmvUnitdataReq { logical_channel, mac_block, scrambling_code: b as u32 };
            given(done, bits(errorcontrol::encode_cp(prim)), 0)
        }
        "decode_cp" => {
            let k = kind(a)?;
            let (answer, word) = decode_control(&k, b as u32, source);
            if source.iter().all(|&s| s < 2) {
                whole_control(&k, b as u32, source, answer, &word);
            }
            given(answer, word, k.word)
        }
        "encode_tp" | "encode_tp_half" => {
            let mac_block = BitBuffer::from_bitarr(source);
            let prim = TmvUnitdataReq { logical_channel: LogicalChannel::TchS, mac_block, scrambling_code: start };
            given(done, bits(errorcontrol::encode_tp(prim, if r.entry == 28 { 1 } else { 2 })), 0)
        }
        "decode_tp" => {
            let (answer, codec) = decode_speech(start, source);
            if source.iter().all(|&s| s < 2) {
                whole_speech(start, source, answer, &codec);
            }
            given(answer, codec, 184)
        }
        "decode_tp_half" => {
            let slot = [vec![0xff; 216], source.to_vec()].concat();
            let (answer, codec) = decode_speech(start, &slot);
            given(answer, codec, 184)
        }
        "encode_aach" => given(done, bits(errorcontrol::encode_aach(BitBuffer::from_bitarr(source), start)), 0),
        "decode_aach" => {
            let mut block = errorcontrol::decode_aach(BitBuffer::from_bitarr(source), start);
            let mut word = BitBuffer::from_bitarr(source);
            scrambler::tetra_scramb_bits(start, &mut word);
            let answer = verdict(word.read_bits(30).unwrap() as u32);
            if block.read_bits(14) != Some(answer & 0xffff_ffff) {
                torn("decode_aach");
            }
            given(answer, vec![], 0)
        }
        _ => unreachable!(),
    };
    Some(answer)
}

fn slot_of(source: &[u8]) -> Option<&[u8; 274]> {
    source.get(..274)?.try_into().ok()
}

fn only(case: u8) -> Reply {
    Reply { answer: pack(case, 0, 0), ..Reply::default() }
}

// A panic is answered as one; what was written before it is not told.
pub fn answered(r: &Request) -> Reply {
    let mut target = if is_lent(r.entry) { r.source.clone() } else { target_before(r.seed, r.target) };
    let mut trellis = trellis_before(r.seed, r.trellis);
    match std::panic::catch_unwind(|| ask(r)) {
        Err(_) => only(PANICKED),
        Ok(None) => only(UNASKED),
        Ok(Some(g)) if target.len() < g.put.len() || trellis.len() < g.zero => only(UNASKED),
        Ok(Some(g)) => {
            target[..g.put.len()].copy_from_slice(&g.put);
            trellis[..g.zero].fill(0);
            reply(r, g.answer, &target, &trellis)
        }
    }
}

// What the original answers to the part of a request that document 01 reads. Surplus entries are left out; the descrambler's symbols
// that are no bits go in as 0 and come out as 0xff.
pub fn read(r: &Request) -> Reply {
    match ENTRIES[r.entry as usize] {
        "tetra_descramb_bits" => {
            let bits: Vec<u8> = r.source.iter().map(|&s| if s < 2 { s } else { 0 }).collect();
            let Some(g) = ask(&Request { source: bits, ..r.clone() }) else { return only(UNASKED) };
            let target: Vec<u8> = r.source.iter().zip(g.put).map(|(&s, bit)| if s < 2 { bit } else { 0xff }).collect();
            reply(r, g.answer, &target, &[])
        }
        name @ ("encode_cp" | "encode_aach" | "decode_aach" | "encode_tp" | "encode_tp_half" | "speech_crc") => {
            let used = due::used(name, r.numbers, r.source.len()).min(r.source.len());
            answered(&Request { source: r.source[..used].to_vec(), ..r.clone() })
        }
        _ => answered(r),
    }
}
