// What is measured: for each row the original and ours on the same inputs, and for the decoders the other two beside them.
use crate::inputs::{control_symbols, speech_symbols, Chance};
use crate::ours::{self, Answer};
use crate::timing::{contestant, Contestant, Lent, Shape};
use original::lmac::components::convenc::{self, RcpcPunctMode};
use original::lmac::components::{crc16, errorcontrol, interleaver, rm3014, scrambler, tch_reorder, viterbi};
use original::tmv::enums::logical_chans::LogicalChannel;
use original::tmv::TmvUnitdataReq;
use original::tp::TpUnitdataInd;
use original::{BitBuffer, PhyBlockType};
use std::rc::Rc;

extern "C" {
    pub fn yardstick_start();
    fn yardstick_control(symbols: *const u8, n: usize, word: *mut u8, trellis: *mut u16) -> u64;
    fn yardstick_speech(symbols: *const u8, n: usize, word: *mut u8, trellis: *mut u16) -> u64;
}

#[cfg(osmo)]
extern "C" {
    pub fn osmo_start();
    fn osmo_control(symbols: *const u8, word: *mut u8);
    fn osmo_speech(symbols: *const u8, word: *mut u8);
}

pub struct Row {
    pub name: String,
    // The most that ours may take of the original's time; 1.00 where no other limit was set.
    pub limit: f64,
    // The same of libosmocore's.
    pub limit_osmo: f64,
    pub inputs: usize,
    // Calls in a batch.
    pub calls: usize,
    // The original first, ours second.
    pub contestants: Vec<Contestant>,
}

fn row(name: impl Into<String>, limit: f64, shape: &Shape, inputs: usize, contestants: Vec<Contestant>) -> Row {
    Row { name: name.into(), limit, limit_osmo: 0.60, inputs, calls: shape.timed, contestants }
}

fn shape(timed: usize, room: usize, seen: usize) -> Shape {
    Shape { timed, room, seen, before: 0 }
}

fn many<I>(count: usize, make: impl FnMut(usize) -> I) -> Rc<Vec<I>> {
    Rc::new((0..count).map(make).collect())
}

// The unerased symbols that the original's encoder, fed the word, does not send.
fn disagreements(rate: usize, symbols: &[u8], word: &[u8]) -> u64 {
    let mut sent = vec![0; rate * word.len()];
    if rate == 4 {
        convenc::ConvEncState::new().encode(word, &mut sent);
    } else {
        convenc::SpeechConvEncState::new().encode(word, &mut sent);
    }
    sent.iter().zip(symbols).filter(|(&y, &s)| s < 2 && s != y).count() as u64
}

fn soft(symbols: &[u8]) -> Vec<i8> {
    // As the original's decode_tp does it.
    symbols
        .iter()
        .map(|&b| match b {
            0x00 => -1i8,
            0x01 => 1i8,
            _ => 0i8,
        })
        .collect()
}

// The trellis is clean after the call, and the answer is what is compared.
fn clean(lent: &Lent, n: usize, answer: u64) -> u64 {
    if lent.compared {
        assert!(lent.trellis[..n].iter().all(|&entry| entry == 0), "the trellis is left as it was used");
    }
    answer
}

pub fn control(n: usize, timed: usize) -> Row {
    let mut chance = Chance::new(1);
    let inputs = many(64, |_| control_symbols(&mut chance, n));
    let shape = shape(timed, 864, n);
    let contestants = vec![
        contestant("original", &inputs, &shape, move |i, lent| {
            viterbi::dec_sb1(i, &mut lent.target, n);
            if lent.compared { disagreements(4, i, &lent.target[..n]) } else { 0 }
        }),
        contestant("ours", &inputs, &shape, move |i, lent| {
            let refusal = ours::dec_sb1(i, &mut lent.target, n, &mut lent.trellis, &mut lent.said);
            clean(lent, n, ours::said(refusal, lent.said.disagreements))
        }),
        contestant("C with SSE4.1", &inputs, &shape, move |i, lent| {
            let answer = unsafe { yardstick_control(i.as_ptr(), n, lent.target.as_mut_ptr(), lent.trellis.as_mut_ptr()) };
            clean(lent, n, answer)
        }),
        #[cfg(osmo)]
        contestant("libosmocore", &inputs, &shape, move |i, lent| {
            if n == 288 {
                unsafe { osmo_control(i.as_ptr(), lent.target.as_mut_ptr()) }
            }
            if lent.compared { disagreements(4, i, &lent.target[..n]) } else { 0 }
        }),
    ];
    row(format!("Viterbi, control, {n} steps"), 0.25, &shape, 64, contestants)
}

pub fn speech(n: usize, timed: usize) -> Row {
    let mut chance = Chance::new(2);
    let inputs = many(64, |_| speech_symbols(&mut chance, n));
    let shape = shape(timed, 864, n);
    let contestants = vec![
        contestant("original", &inputs, &shape, move |i, lent| {
            lent.made(&viterbi::TetraCodecViterbiDecoder::new().decode(&soft(i)));
            if lent.compared { disagreements(3, i, &lent.target[..n]) } else { 0 }
        }),
        contestant("ours", &inputs, &shape, move |i, lent| {
            let refusal = ours::dec_speech(i, &mut lent.target, n, &mut lent.trellis, &mut lent.said);
            clean(lent, n, ours::said(refusal, lent.said.disagreements))
        }),
        contestant("C with SSE4.1", &inputs, &shape, move |i, lent| {
            let answer = unsafe { yardstick_speech(i.as_ptr(), n, lent.target.as_mut_ptr(), lent.trellis.as_mut_ptr()) };
            clean(lent, n, answer)
        }),
        #[cfg(osmo)]
        contestant("libosmocore", &inputs, &shape, move |i, lent| {
            if n == 184 {
                unsafe { osmo_speech(i.as_ptr(), lent.target.as_mut_ptr()) }
            }
            if lent.compared { disagreements(3, i, &lent.target[..n]) } else { 0 }
        }),
    ];
    row(format!("Viterbi, speech, {n} steps"), 0.45, &shape, 64, contestants)
}

// The original's speech decoder takes soft values; here it finds them ready.
fn speech_ready() -> Row {
    let mut chance = Chance::new(2);
    let inputs = many(64, |_| {
        let symbols = speech_symbols(&mut chance, 184);
        let ready = soft(&symbols);
        (symbols, ready)
    });
    let shape = shape(4, 864, 184);
    let contestants = vec![
        contestant("original", &inputs, &shape, |i, lent| {
            lent.made(&viterbi::TetraCodecViterbiDecoder::new().decode(&i.1));
            if lent.compared { disagreements(3, &i.0, &lent.target[..184]) } else { 0 }
        }),
        contestant("ours", &inputs, &shape, |i, lent| {
            let refusal = ours::dec_speech(&i.0, &mut lent.target, 184, &mut lent.trellis, &mut lent.said);
            clean(lent, 184, ours::said(refusal, lent.said.disagreements))
        }),
    ];
    row("the same, soft values ready for the original", 0.45, &shape, 64, contestants)
}

struct Kind {
    number: u8,
    name: &'static str,
    channel: LogicalChannel,
    data: usize,
    word: usize,
    air: usize,
}

const KINDS: [Kind; 4] = [
    Kind { number: 1, name: "BSCH", channel: LogicalChannel::Bsch, data: 60, word: 80, air: 120 },
    Kind { number: 2, name: "SCH/HU", channel: LogicalChannel::SchHu, data: 92, word: 112, air: 168 },
    Kind { number: 3, name: "SCH/HD", channel: LogicalChannel::SchHd, data: 124, word: 144, air: 216 },
    Kind { number: 4, name: "SCH/F", channel: LogicalChannel::SchF, data: 268, word: 288, air: 432 },
];

fn sent_control(channel: LogicalChannel, data: &[u8], start: u32) -> Vec<u8> {
    let block = BitBuffer::from_bitarr(data);
    errorcontrol::encode_cp(TmvUnitdataReq { logical_channel: channel, mac_block: block, scrambling_code: start }).into_bitvec()
}

fn sent_speech(codec: &[u8], start: u32, which: u8) -> Vec<u8> {
    let block = BitBuffer::from_bitarr(codec);
    let request = TmvUnitdataReq { logical_channel: LogicalChannel::TchS, mac_block: block, scrambling_code: start };
    errorcontrol::encode_tp(request, which).into_bitvec()
}

fn receive(kind: &'static Kind, limit: f64) -> Row {
    let mut chance = Chance::new(3);
    // Every second block undamaged, so that both verdicts are met.
    let inputs = many(64, |i| {
        let start = chance.number();
        let data = chance.bits(kind.data);
        let air = sent_control(kind.channel, &data, start);
        (start, if i % 2 == 0 { air } else { chance.damaged(air) })
    });
    let shape = shape(2, 288, kind.data);
    let contestants = vec![
        contestant("original", &inputs, &shape, |i, lent| {
            let block = BitBuffer::from_bitarr(&i.1);
            let prim = TpUnitdataInd { block, block_type: PhyBlockType::Other };
            let (data, good) = errorcontrol::decode_cp(kind.channel, prim, Some(i.0));
            lent.made(&data.unwrap().into_bitvec());
            good as u64
        }),
        contestant("ours", &inputs, &shape, |i, lent| {
            let refusal = ours::decode_cp(kind.number, i.0, &i.1, &mut lent.target, &mut lent.trellis, &mut lent.said);
            clean(lent, kind.word, ours::said(refusal, (lent.said.verdict == ours::GOOD) as u64))
        }),
    ];
    row(format!("{} receive from bytes", kind.name), limit, &shape, 64, contestants)
}

fn send(kind: &'static Kind, limit: f64) -> Row {
    let mut chance = Chance::new(4);
    let inputs = many(64, |_| (chance.number(), chance.bits(kind.data)));
    let shape = shape(4, 432, kind.air);
    let contestants = vec![
        contestant("original", &inputs, &shape, |i, lent| {
            lent.made(&sent_control(kind.channel, &i.1, i.0));
            0
        }),
        contestant("ours", &inputs, &shape, |i, lent| ours::encode_cp(kind.number, i.0, &i.1, &mut lent.target) as u64),
    ];
    row(format!("{} send from bytes", kind.name), limit, &shape, 64, contestants)
}

fn slot_receive() -> Row {
    let mut chance = Chance::new(5);
    let inputs = many(64, |i| {
        let start = chance.number();
        let codec = chance.bits(274);
        let air = sent_speech(&codec, start, 1);
        (start, if i % 2 == 0 { air } else { chance.damaged(air) })
    });
    let shape = shape(2, 274, 274);
    let contestants = vec![
        contestant("original", &inputs, &shape, |i, lent| {
            let (codec, good) = errorcontrol::decode_tp(LogicalChannel::TchS, BitBuffer::from_bitarr(&i.1), i.0);
            lent.made(&codec.unwrap().into_bitvec());
            good as u64
        }),
        contestant("ours", &inputs, &shape, |i, lent| {
            let refusal = ours::decode_tp(i.0, &i.1, &mut lent.target, &mut lent.trellis, &mut lent.said);
            clean(lent, 184, ours::said(refusal, (lent.said.verdict == ours::GOOD) as u64))
        }),
    ];
    row("speech slot receive from bytes", 0.40, &shape, 64, contestants)
}

fn slot_send(half: bool, limit: f64) -> Row {
    let mut chance = Chance::new(6);
    let inputs = many(64, |_| (chance.number(), chance.bits(274)));
    let shape = shape(4, 432, if half { 216 } else { 432 });
    let contestants = vec![
        contestant("original", &inputs, &shape, move |i, lent| {
            lent.made(&sent_speech(&i.1, i.0, if half { 2 } else { 1 }));
            0
        }),
        contestant("ours", &inputs, &shape, move |i, lent| {
            let send = if half { ours::encode_tp_half } else { ours::encode_tp };
            send(i.0, &i.1, &mut lent.target) as u64
        }),
    ];
    row(if half { "speech second half send from bytes" } else { "speech slot send from bytes" }, limit, &shape, 64, contestants)
}

fn scrambler_outputs() -> Row {
    let mut chance = Chance::new(7);
    let inputs = many(64, |_| chance.number());
    let shape = shape(16, 432, 432);
    let contestants = vec![
        contestant("original", &inputs, &shape, |i, lent| {
            scrambler::tetra_scramb_get_bits(*i, &mut lent.target);
            0
        }),
        contestant("ours", &inputs, &shape, |i, lent| ours::tetra_scramb_get_bits(*i, &mut lent.target) as u64),
    ];
    row("scrambler over 432, outputs", 0.30, &shape, 64, contestants)
}

// In place: what one call leaves, the next one scrambles.
fn scrambler_block(name: &'static str, entry: fn(u32, &mut [u8]) -> u8) -> Row {
    let mut chance = Chance::new(8);
    let inputs = many(64, |_| (chance.number(), chance.bits(432)));
    let shape = shape(8, 432, 432);
    let mut block = BitBuffer::from_bitarr(&[0; 432]);
    let contestants = vec![
        contestant("original", &inputs, &shape, move |i, lent| {
            if lent.compared {
                block = BitBuffer::from_bitarr(&i.1);
            }
            scrambler::tetra_scramb_bits(i.0, &mut block);
            if lent.compared {
                let mut left = vec![0; 432];
                block.to_bitarr(&mut left);
                block.seek(0);
                lent.made(&left);
            }
            0
        }),
        contestant("ours", &inputs, &shape, move |i, lent| {
            if lent.compared {
                lent.target.copy_from_slice(&i.1);
            }
            entry(i.0, &mut lent.target) as u64
        }),
    ];
    row(name, 0.30, &shape, 64, contestants)
}

// Entries that move 432 bytes from a source to a target.
fn moved(
    name: &'static str,
    source: usize,
    seen: usize,
    theirs: impl Fn(&[u8], &mut [u8]) + 'static,
    entry: impl Fn(&[u8], &mut [u8]) -> u8 + 'static,
) -> Row {
    let mut chance = Chance::new(9);
    let inputs = many(64, |_| chance.bits(source));
    let shape = Shape { timed: 16, room: seen, seen, before: 0xff };
    let contestants = vec![
        contestant("original", &inputs, &shape, move |i, lent| {
            theirs(i, &mut lent.target);
            0
        }),
        contestant("ours", &inputs, &shape, move |i, lent| entry(i, &mut lent.target) as u64),
    ];
    row(name, 0.60, &shape, 64, contestants)
}

fn movers() -> Vec<Row> {
    vec![
        moved(
            "block interleaver over 432",
            432,
            432,
            |i, t| interleaver::block_interleave(432, 103, i, t),
            |i, t| ours::block_interleave(432, 103, i, t),
        ),
        moved(
            "block deinterleaver over 432",
            432,
            432,
            |i, t| interleaver::block_deinterleave(432, 103, i, t),
            |i, t| ours::block_deinterleave(432, 103, i, t),
        ),
        moved(
            "matrix interleaver over 432",
            432,
            432,
            |i, t| interleaver::matrix_interleave(24, 18, i, t),
            |i, t| ours::matrix_interleave(24, 18, i, t),
        ),
        moved(
            "matrix deinterleaver over 432",
            432,
            432,
            |i, t| interleaver::matrix_deinterleave(24, 18, i, t),
            |i, t| ours::matrix_deinterleave(24, 18, i, t),
        ),
        moved(
            "puncture to 432, mode 2_3",
            1152,
            432,
            |i, t| convenc::get_punctured_rate(RcpcPunctMode::Rate2_3, i, t),
            |i, t| ours::get_punctured_rate(0, i, 432, t),
        ),
        moved(
            "depuncture 432, mode 2_3",
            432,
            1152,
            |i, t| convenc::tetra_rcpc_depunct(RcpcPunctMode::Rate2_3, i, 432, t),
            |i, t| ours::tetra_rcpc_depunct(0, i, 432, t),
        ),
    ]
}

fn crc() -> Row {
    let mut chance = Chance::new(10);
    let inputs = many(64, |_| chance.bits(284));
    let shape = shape(16, 0, 0);
    let contestants = vec![
        contestant("original", &inputs, &shape, |i, _| crc16::crc16_ccitt_bits(i, 284) as u64),
        contestant("ours", &inputs, &shape, |i, lent| {
            let refusal = ours::crc16_ccitt_bits(i, 284, &mut lent.said);
            ours::said(refusal, lent.said.value)
        }),
    ];
    row("crc16 over 284", 1.0, &shape, 64, contestants)
}

fn encoder(name: &'static str, n: usize, rate: usize, theirs: fn(&[u8], &mut [u8]), entry: fn(u32, &[u8], &mut [u8], &mut Answer) -> u8) -> Row {
    let mut chance = Chance::new(11);
    let inputs = many(64, |_| chance.bits(n));
    let shape = shape(16, rate * n, rate * n);
    let contestants = vec![
        contestant("original", &inputs, &shape, move |i, lent| {
            theirs(i, &mut lent.target);
            0
        }),
        contestant("ours", &inputs, &shape, move |i, lent| {
            entry(0, i, &mut lent.target, &mut lent.said) as u64
        }),
    ];
    row(name, 1.0, &shape, 64, contestants)
}

fn rm_encode() -> Row {
    let mut chance = Chance::new(12);
    let inputs = many(256, |_| chance.below(1 << 14) as u16);
    let shape = shape(256, 0, 0);
    let contestants = vec![
        contestant("original", &inputs, &shape, |i, _| rm3014::tetra_rm3014_compute(*i) as u64),
        contestant("ours", &inputs, &shape, |i, lent| {
            let refusal = ours::tetra_rm3014_compute(*i, &mut lent.said);
            ours::said(refusal, lent.said.value)
        }),
    ];
    row("RM(30,14) encode", 1.0, &shape, 256, contestants)
}

// As many wrong bits in each word as `most` by turns from none.
fn rm_decode(name: &'static str, most: usize) -> Row {
    let mut chance = Chance::new(13);
    let inputs = many(252, |i| {
        let mut word = rm3014::tetra_rm3014_compute(chance.below(1 << 14) as u16);
        for _ in 0..i % (most + 1) {
            word ^= 1 << chance.below(30);
        }
        word
    });
    let shape = shape(84, 0, 0);
    let contestants = vec![
        contestant("original", &inputs, &shape, |i, _| rm3014::tetra_rm3014_decode_limited_ecc(*i) as u64),
        contestant("ours", &inputs, &shape, |i, lent| {
            let refusal = ours::tetra_rm3014_decode_limited_ecc(*i, &mut lent.said);
            ours::said(refusal, lent.said.value)
        }),
    ];
    row(name, 1.0, &shape, 252, contestants)
}

fn reorder(name: &'static str, theirs: fn(&[u8; 274]) -> [u8; 274], entry: fn(&[u8], &mut [u8]) -> u8) -> Row {
    let mut chance = Chance::new(14);
    let inputs: Rc<Vec<[u8; 274]>> = many(64, |_| chance.bits(274).try_into().unwrap());
    let shape = shape(16, 274, 274);
    let contestants = vec![
        contestant("original", &inputs, &shape, move |i, lent| {
            lent.made(&theirs(i));
            0
        }),
        contestant("ours", &inputs, &shape, move |i, lent| entry(i, &mut lent.target) as u64),
    ];
    row(name, 1.0, &shape, 64, contestants)
}

fn check_bits() -> Row {
    let mut chance = Chance::new(15);
    let inputs = many(64, |_| chance.bits(60));
    let shape = shape(64, 8, 8);
    let contestants = vec![
        contestant("original", &inputs, &shape, |i, lent| {
            lent.made(&errorcontrol::speech_check(i));
            0
        }),
        contestant("ours", &inputs, &shape, |i, lent| ours::speech_crc(i, &mut lent.target) as u64),
    ];
    row("speech check of 60", 1.0, &shape, 64, contestants)
}

fn comparison() -> Row {
    let mut chance = Chance::new(16);
    let inputs = many(64, |_| {
        let mother = chance.bits(1152);
        let mut depunctured = vec![0xff; 1152];
        let mut kept = vec![0; 432];
        convenc::get_punctured_rate(RcpcPunctMode::Rate2_3, &mother, &mut kept);
        convenc::tetra_rcpc_depunct(RcpcPunctMode::Rate2_3, &kept, 432, &mut depunctured);
        (mother, depunctured)
    });
    let shape = shape(16, 0, 0);
    let contestants = vec![
        contestant("original", &inputs, &shape, |i, _| {
            convenc::mother_memcmp(&i.0, &i.1).map_or(0, |count| ours::MATCHED << 32 | count as u64)
        }),
        contestant("ours", &inputs, &shape, |i, lent| {
            let refusal = ours::mother_memcmp(&i.0, &i.1, &mut lent.said);
            ours::said(refusal, lent.said.verdict << 32 | lent.said.value)
        }),
    ];
    row("mother_memcmp over 1152", 1.0, &shape, 64, contestants)
}

fn access() -> Vec<Row> {
    let mut chance = Chance::new(17);
    let sent = many(64, |_| (chance.number(), chance.bits(14)));
    let send_shape = shape(32, 30, 30);
    let send = vec![
        contestant("original", &sent, &send_shape, |i, lent| {
            lent.made(&errorcontrol::encode_aach(BitBuffer::from_bitarr(&i.1), i.0).into_bitvec());
            0
        }),
        contestant("ours", &sent, &send_shape, |i, lent| ours::encode_aach(i.0, &i.1, &mut lent.target) as u64),
    ];
    let heard = many(64, |n| {
        let (start, data) = &sent[n];
        let mut air = errorcontrol::encode_aach(BitBuffer::from_bitarr(data), *start).into_bitvec();
        for _ in 0..n % 3 {
            air[chance.below(30) as usize] ^= 1;
        }
        (*start, air)
    });
    let heard_shape = shape(32, 14, 14);
    let hear = vec![
        contestant("original", &heard, &heard_shape, |i, lent| {
            lent.made(&errorcontrol::decode_aach(BitBuffer::from_bitarr(&i.1), i.0).into_bitvec()[..14]);
            0
        }),
        contestant("ours", &heard, &heard_shape, |i, lent| {
            let refusal = ours::decode_aach(i.0, &i.1, &mut lent.said);
            let data = ours::said(refusal, lent.said.value);
            if lent.compared {
                for place in 0..14 {
                    lent.target[place] = (data >> (13 - place) & 1) as u8;
                }
            }
            0
        }),
    ];
    vec![row("AACH receive from bytes", 1.0, &heard_shape, 64, hear), row("AACH send from bytes", 1.0, &send_shape, 64, send)]
}

pub fn decoders() -> Vec<Row> {
    vec![control(288, 4), speech(184, 4)]
}

// Rows with a limit of their own.
pub fn limited() -> Vec<Row> {
    let mut rows = vec![
        speech_ready(),
        receive(&KINDS[3], 0.25),
        slot_receive(),
        send(&KINDS[3], 0.60),
        slot_send(false, 0.60),
        scrambler_outputs(),
        scrambler_block("scrambler over 432, sending", ours::tetra_scramb_bits),
        scrambler_block("scrambler over 432, receiving", ours::tetra_descramb_bits),
    ];
    rows.extend(movers());
    rows.push(crc());
    rows.push(encoder("encoder, control 1/4, 288", 288, 4, |i, t| convenc::ConvEncState::new().encode(i, t), ours::encode));
    rows.push(encoder("encoder, control 1/3, 288", 288, 3, |i, t| convenc::ConvEncState::new().encode_rate1_3(i, t), ours::encode_rate1_3));
    rows.push(encoder("encoder, speech, 184", 184, 3, |i, t| convenc::SpeechConvEncState::new().encode(i, t), ours::encode_speech));
    rows.push(rm_encode());
    rows.push(rm_decode("RM(30,14) decode, clean", 0));
    rows.push(rm_decode("RM(30,14) decode, 0 to 2 wrong", 2));
    rows.push(reorder("reorder, codec to channel", tch_reorder::codec_to_channel, ours::codec_to_channel));
    rows.push(reorder("reorder, channel to codec", tch_reorder::channel_to_codec, ours::channel_to_codec));
    rows
}

// Rows for which no limit was set: they are to be no slower than the original.
pub fn further() -> Vec<Row> {
    let mut rows = vec![check_bits(), comparison()];
    rows.extend(access());
    for kind in &KINDS[..3] {
        rows.push(receive(kind, 1.0));
        rows.push(send(kind, 1.0));
    }
    rows.push(slot_send(true, 1.0));
    rows
}
