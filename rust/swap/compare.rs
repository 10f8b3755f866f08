// The original's errorcontrol over its own components, and a copy of it over ours, asked the same: `compare ROUNDS`. Then the
// original's errorcontrol and the crate's own, `caplattice::original::errorcontrol`. Ends with 1 at the first difference.
extern crate original as tetra_core;
extern crate original as tetra_saps;
extern crate original as tracing;

#[path = "scrambler.rs"]
pub mod scrambler;

#[allow(dead_code, unused_imports)]
mod swapped {
    include!(env!("CAPLATTICE_SWAPPED"));
}

use caplattice::errorcontrol::ControlKind;
use caplattice::original::errorcontrol as ours;
use original::lmac::components::errorcontrol as old;
use original::tmv::enums::logical_chans::LogicalChannel;
use original::tmv::TmvUnitdataReq;
use original::tp::TpUnitdataInd;
use original::{BitBuffer, PhyBlockType};
use std::fmt::Debug;
use std::panic::{catch_unwind, AssertUnwindSafe};

// Chance that is the same at each run.
struct Chance(u64);

impl Chance {
    fn next(&mut self) -> u64 {
        self.0 ^= self.0 << 13;
        self.0 ^= self.0 >> 7;
        self.0 ^= self.0 << 17;
        self.0 >> 16
    }

    fn bits(&mut self, n: usize) -> Vec<u8> {
        (0..n).map(|_| (self.next() & 1) as u8).collect()
    }

    // Up to `most` bits turned over.
    fn damaged(&mut self, mut bits: Vec<u8>, most: u64) -> Vec<u8> {
        for _ in 0..self.next() % (most + 1) {
            let place = self.next() as usize % bits.len();
            bits[place] ^= 1;
        }
        bits
    }
}

// Equal also when both panic.
fn same<T: Debug + PartialEq>(what: &str, count: &mut usize, first: impl FnOnce() -> T, second: impl FnOnce() -> T) -> Option<T> {
    let first = catch_unwind(AssertUnwindSafe(first)).ok();
    let second = catch_unwind(AssertUnwindSafe(second)).ok();
    if first != second {
        println!("{what} differs:\n  over its own components: {first:?}\n  over ours: {second:?}");
        std::process::exit(1);
    }
    *count += 1;
    first
}

fn request(logical_channel: LogicalChannel, data: &[u8], scrambling_code: u32) -> TmvUnitdataReq {
    TmvUnitdataReq {
        logical_channel,
        mac_block: BitBuffer::from_bitarr(data),
        scrambling_code,
    }
}

fn indication(air: &[u8], block_type: PhyBlockType) -> TpUnitdataInd {
    TpUnitdataInd {
        block: BitBuffer::from_bitarr(air),
        block_type,
    }
}

fn heard((block, good): (Option<BitBuffer>, bool)) -> (Option<Vec<u8>>, bool) {
    (block.map(BitBuffer::into_bitvec), good)
}

// The crate's own chains take what the old ones take, also when it is one bit too short or some too long.
fn own_chains(chance: &mut Chance, count: &mut usize) {
    use LogicalChannel::*;
    let start = chance.next() as u32;
    let beyond = [0, 0, 0, 1, 9][chance.next() as usize % 5];
    let short = usize::from(chance.next() % 20 == 0);
    let length = |n: usize| n + beyond - short;
    for (kind, channel) in [
        (ControlKind::Bsch, Bsch),
        (ControlKind::SchHu, SchHu),
        (ControlKind::SchHd, SchHd),
        (ControlKind::SchF, SchF),
    ] {
        let data = chance.bits(length(kind.data_bits()));
        same(
            "encode_cp",
            count,
            || old::encode_cp(request(channel, &data, start)).into_bitvec(),
            || ours::encode_cp(kind, &data, start),
        );
        let air = chance.bits(length(kind.air_bits()));
        for (block_type, code) in [
            (PhyBlockType::SB1, None),
            (PhyBlockType::Other, Some(start)),
            (PhyBlockType::Other, None),
        ] {
            same(
                "decode_cp",
                count,
                || heard(old::decode_cp(channel, indication(&air, block_type), code)),
                || ours::decode_cp(kind, &air, block_type == PhyBlockType::SB1, code),
            );
        }
    }
    // The old sender fills a short speech block up, and ours refuses it.
    let codec = chance.bits(274 + beyond);
    for block in [1, 2] {
        same(
            "encode_tp",
            count,
            || old::encode_tp(request(TchS, &codec, start), block).into_bitvec(),
            || ours::encode_tp(&codec, start, block),
        );
    }
    let air = chance.bits(length(432));
    same(
        "decode_tp",
        count,
        || heard(old::decode_tp(TchS, BitBuffer::from_bitarr(&air), start)),
        || ours::decode_tp(&air, start),
    );
    let (field, air) = (chance.bits(length(14)), chance.bits(length(30)));
    same(
        "encode_aach",
        count,
        || old::encode_aach(BitBuffer::from_bitarr(&field), start).into_bitvec(),
        || ours::encode_aach(&field, start),
    );
    same(
        "decode_aach",
        count,
        || old::decode_aach(BitBuffer::from_bitarr(&air), start).into_bitvec(),
        || ours::decode_aach(&air, start),
    );
}

fn main() {
    std::panic::set_hook(Box::new(|_| {}));
    let rounds: usize = std::env::args().nth(1).and_then(|word| word.parse().ok()).unwrap_or(1000);
    let mut chance = Chance(0x9e3779b97f4a7c15);
    let mut count = 0;
    use LogicalChannel::*;
    for round in 0..rounds {
        let start = if round % 4 == 0 { 3 } else { chance.next() as u32 };
        for (channel, data) in [(Bsch, 60), (SchHu, 92), (SchHd, 124), (SchF, 268)] {
            // Now and then a block that is too long, which both must stop at.
            let data = chance.bits(data + (round % 50 == 49) as usize);
            let sent = same(
                "encode_cp",
                &mut count,
                || old::encode_cp(request(channel, &data, start)).into_bitvec(),
                || swapped::encode_cp(request(channel, &data, start)).into_bitvec(),
            );
            let Some(air) = sent else { continue };
            let air = chance.damaged(air, 40);
            for (block_type, code) in [
                (PhyBlockType::SB1, None),
                (PhyBlockType::Other, Some(start)),
                (PhyBlockType::Other, None),
            ] {
                same(
                    "decode_cp",
                    &mut count,
                    || heard(old::decode_cp(channel, indication(&air, block_type), code)),
                    || heard(swapped::decode_cp(channel, indication(&air, block_type), code)),
                );
            }
        }
        let codec = chance.bits(if round % 50 == 49 { 100 } else { 274 });
        for block in [2, 1] {
            let sent = same(
                "encode_tp",
                &mut count,
                || old::encode_tp(request(TchS, &codec, start), block).into_bitvec(),
                || swapped::encode_tp(request(TchS, &codec, start), block).into_bitvec(),
            );
            // A second half is no slot: both stop at it.
            let air = chance.damaged(sent.unwrap_or_default(), 60);
            same(
                "decode_tp",
                &mut count,
                || heard(old::decode_tp(TchS, BitBuffer::from_bitarr(&air), start)),
                || heard(swapped::decode_tp(TchS, BitBuffer::from_bitarr(&air), start)),
            );
        }
        let field = chance.bits(if round % 50 == 49 { 15 } else { 14 });
        let sent = same(
            "encode_aach",
            &mut count,
            || old::encode_aach(BitBuffer::from_bitarr(&field), start).into_bitvec(),
            || swapped::encode_aach(BitBuffer::from_bitarr(&field), start).into_bitvec(),
        );
        let air = chance.damaged(sent.unwrap_or_else(|| vec![0; 31]), 3);
        same(
            "decode_aach",
            &mut count,
            || old::decode_aach(BitBuffer::from_bitarr(&air), start).into_bitvec(),
            || swapped::decode_aach(BitBuffer::from_bitarr(&air), start).into_bitvec(),
        );
    }
    println!("{count} blocks: the original's errorcontrol answers the same over its own components and over ours");
    count = 0;
    for _ in 0..rounds {
        own_chains(&mut chance, &mut count);
    }
    println!("{count} blocks: caplattice::original::errorcontrol answers the same as the original's");
}
