//! TETRA channel coding with proofs, for Rust.
//!
//! Every function that codes, decodes or checks calls one entry of a static library that is proved equal to a definition
//! written from EN 300 392-2 and EN 300 395-2. What stands around those calls is plain Rust and not proved: it hands slices
//! over, takes answers apart, and makes and names encoders, kinds and refusals. In [`original`] four functions call no entry:
//! [`original::crc16::get_nth_bit`], [`original::interleaver::block_interl_func`], [`original::rm3014::compute_col_syndromes`]
//! and [`original::viterbi::num_states`]; nor do the tables of [`original::rm3014`]. The crate's tests hold the tables against
//! the library.
//!
//! The modules and functions have the names of the components that they replace:
//!
//! | module | what |
//! |---|---|
//! | [`crc16`] | the 16-bit check register |
//! | [`scrambler`] | scrambling, and its start value |
//! | [`interleaver`] | block and matrix interleaving |
//! | [`rm3014`] | the Reed-Muller code of the access field |
//! | [`tch_reorder`] | speech bits between codec and channel order |
//! | [`convenc`] | convolutional encoders and puncturing |
//! | [`viterbi`] | decoders that give the nearest word |
//! | [`errorcontrol`] | whole chains: control blocks, speech slots, access field |
//! | [`original`] | the same with the replaced components' signatures, for a swap by `use` lines; its page says where they differ |
//!
//! Bits are one per byte, the first bit first. A received symbol is 0, 1, or any other byte for "not received".
//!
//! No function asks anything of its caller. What it cannot do it refuses: it answers a [`Refusal`] and changes nothing.
//! A target may be longer than what is written; the rest of it stays. Surplus source entries are unused.
//!
//! ```
//! use caplattice::errorcontrol::{self, ControlKind, Received};
//!
//! let kind = ControlKind::SchF;
//! let data = vec![1; kind.data_bits()];
//! let mut air = vec![0; kind.air_bits()];
//! errorcontrol::encode_cp(kind, 3, &data, &mut air)?;
//!
//! air[7] = 0xff; // not received
//! air[9] ^= 1; // received wrong
//! let mut word = vec![0; kind.word_bits()];
//! let mut trellis = vec![0; kind.word_bits()];
//! let answer = errorcontrol::decode_cp(kind, 3, &air, &mut word, &mut trellis)?;
//! assert_eq!(answer, Received::Good { disagreements: 1 });
//! assert_eq!(word[..kind.data_bits()], data);
//! # Ok::<(), caplattice::Refusal>(())
//! ```
#![warn(missing_docs)]

mod answer;
#[rustfmt::skip]
mod raw;
mod refusal;

pub mod convenc;
pub mod crc16;
pub mod errorcontrol;
pub mod interleaver;
pub mod original;
pub mod rm3014;
pub mod scrambler;
pub mod tch_reorder;
pub mod viterbi;

pub use refusal::Refusal;

/// The version of the library that was linked: 1,000,000 times the major, 1,000 times the minor, and the patch number.
pub fn version() -> u32 {
    raw::version()
}
