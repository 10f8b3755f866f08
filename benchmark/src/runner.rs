// A runner built from the original's parts, for the benchmark alone: the records of standard input, a line for each. What the
// original does not give (disagreements, erasures, second halves, the verdict) is worked out with its parts. It takes whole,
// known records only, and keeps its buffers from record to record.
use original::lmac::components::convenc::{self, RcpcPunctMode};
use original::lmac::components::{crc16, errorcontrol, interleaver, rm3014, scrambler, tch_reorder, viterbi};
use std::io::{BufReader, BufWriter, Read, Write};

const AIR: [usize; 8] = [0, 120, 168, 216, 432, 30, 432, 216];
const WORD: [usize; 5] = [0, 80, 112, 144, 288];
const A: [usize; 5] = [0, 11, 13, 101, 103];

struct Buffers {
    outputs: [u8; 432],
    plain: [u8; 432],
    coded: [u8; 432],
    mother: [u8; 1152],
    sent: [u8; 1152],
    word: [u8; 288],
}

fn descramble(start: u32, air: &[u8], b: &mut Buffers) {
    let n = air.len();
    scrambler::tetra_scramb_get_bits(start, &mut b.outputs[..n]);
    for i in 0..n {
        b.plain[i] = if air[i] < 2 { air[i] ^ b.outputs[i] } else { 0xff };
    }
}

fn disagreements(sent: &[u8], received: &[u8]) -> usize {
    sent.iter().zip(received).filter(|(&y, &s)| s < 2 && s != y).count()
}

fn control(kind: usize, start: u32, air: &[u8], b: &mut Buffers) -> (bool, usize) {
    let (k, n) = (air.len(), WORD[kind]);
    descramble(start, air, b);
    interleaver::block_deinterleave(k, A[kind], &b.plain, &mut b.coded);
    b.mother[..4 * n].fill(0xff);
    convenc::tetra_rcpc_depunct(RcpcPunctMode::Rate2_3, &b.coded, k, &mut b.mother);
    viterbi::dec_sb1(&b.mother, &mut b.word, n);
    convenc::ConvEncState::new().encode(&b.word[..n], &mut b.sent);
    let good = crc16::crc16_ccitt_bits(&b.word, n - 4) == crc16::TETRA_CRC_OK;
    (good, disagreements(&b.sent[..4 * n], &b.mother[..4 * n]))
}

fn speech(start: u32, air: &[u8], b: &mut Buffers) -> (bool, usize) {
    descramble(start, air, b);
    interleaver::matrix_deinterleave(24, 18, &b.plain, &mut b.coded);
    b.mother[..552].fill(0xff);
    convenc::tetra_rcpc_depunct(RcpcPunctMode::Rate112_168, &b.coded[102..270], 168, &mut b.mother[..336]);
    convenc::tetra_rcpc_depunct(RcpcPunctMode::Rate72_162, &b.coded[270..], 162, &mut b.mother[336..552]);
    let soft: Vec<i8> = b.mother[..552].iter().map(|&s| [-1, 1, 0][s.min(2) as usize]).collect();
    let word = viterbi::TetraCodecViterbiDecoder::new().decode(&soft);
    convenc::SpeechConvEncState::new().encode(&word, &mut b.sent);
    let mut channel = [0; 274];
    for i in 0..102 {
        channel[i] = (b.coded[i] == 1) as u8;
    }
    channel[102..].copy_from_slice(&word[..172]);
    std::hint::black_box(tch_reorder::channel_to_codec(&channel));
    let good = errorcontrol::speech_check(&word[112..172]) == word[172..180];
    (good, disagreements(&b.sent[..552], &b.mother[..552]))
}

fn access(start: u32, air: &[u8], b: &mut Buffers) -> (&'static str, usize, u16) {
    descramble(start, air, b);
    let word = b.plain[..30].iter().fold(0, |sum, &bit| sum << 1 | bit as u32);
    let data = rm3014::tetra_rm3014_decode_limited_ecc(word);
    let syndrome = rm3014::compute_syndrome(word);
    if syndrome == 0 {
        return ("clean", 0, data);
    }
    match rm3014::COL_SYNDROMES.iter().position(|&column| column == syndrome) {
        Some(place) => ("mended", place + 1, data),
        None => ("beyond", 0, data),
    }
}

fn main() {
    let mut input = BufReader::with_capacity(65536, std::io::stdin().lock());
    let mut output = BufWriter::with_capacity(65536, std::io::stdout().lock());
    let mut b = Buffers { outputs: [0; 432], plain: [0; 432], coded: [0; 432], mother: [0; 1152], sent: [0; 1152], word: [0; 288] };
    let mut head = [0; 5];
    let mut number = 0;
    while input.read_exact(&mut head).is_ok() {
        let kind = head[0] as usize;
        let start = u32::from_be_bytes([head[1], head[2], head[3], head[4]]);
        // A second half stands behind 216 erasures.
        let mut slot = [0xff; 432];
        let count = AIR[kind];
        let air = if kind == 7 { &mut slot[216..] } else { &mut slot[..count] };
        input.read_exact(air).expect("a whole record");
        number += 1;
        let (good, wrong) = match kind {
            5 => {
                let (verdict, place, data) = access(start, air, &mut b);
                writeln!(output, "{number} 05 {verdict} {place} {data:04x}").unwrap();
                continue;
            }
            6 | 7 => speech(start, &slot, &mut b),
            _ => control(kind, start, air, &mut b),
        };
        writeln!(output, "{number} {kind:02x} {} {wrong}", if good { "good" } else { "bad" }).unwrap();
    }
    writeln!(output, "end {number}").unwrap();
}
