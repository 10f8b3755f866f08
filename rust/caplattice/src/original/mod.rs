//! The same functions with the signatures of the components that they replace, so that a swap is a change of `use` lines.
//! Where those assert, these panic; where the library refuses what they took, these panic with the refusal
//! (docs/DIFFERENCES.md lists each such input).
//!
//! ```text
//! use crate::lmac::components::convenc::{self, ConvEncState};    // before
//! use caplattice::original::convenc::{self, ConvEncState};       // after
//! ```
//!
//! The signatures of [`convenc`], [`crc16`], [`interleaver`], [`rm3014`], [`tch_reorder`] and [`viterbi`] are the old ones. Two
//! modules had types in theirs that stay their owner's, and differ:
//!
//! - [`scrambler::tetra_scramb_bits`] takes the bits, one per byte, where the old one took `&mut BitBuffer`. A caller writes a
//!   few lines that lift the bits out of the buffer and put them back (rust/swap/scrambler.rs has them).
//! - [`errorcontrol`] takes and gives bits, one per byte, in place of `BitBuffer`. A [`crate::errorcontrol::ControlKind`] stands
//!   for the `LogicalChannel`, `sb1` for `PhyBlockType::SB1`, and what `TmvUnitdataReq` and `TpUnitdataInd` carried are
//!   parameters. `decode_tp` has no channel parameter: there is one channel.
//!
//! Whoever keeps the old `errorcontrol.rs` needs only the first.
pub mod convenc;
pub mod crc16;
pub mod errorcontrol;
pub mod interleaver;
pub mod rm3014;
pub mod scrambler;
pub mod tch_reorder;
pub mod viterbi;

use crate::Refusal;

// What an entry gives, or a panic at the caller's line that prints the refusal.
#[track_caller]
fn given<T>(answer: Result<T, Refusal>) -> T {
    match answer {
        Ok(value) => value,
        Err(refusal) => panic!("{refusal}"),
    }
}
