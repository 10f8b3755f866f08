//! Scrambling. Panics for bytes that are no bits and for fields that are too large.
use super::given;
pub use crate::scrambler::{tetra_scramb_get_bits, SCRAMB_INIT};

/// Scrambles or unscrambles bits, one per byte, in place of a bit buffer from its position to its end.
#[track_caller]
pub fn tetra_scramb_bits(lfsr_init: u32, bits: &mut [u8]) {
    given(crate::scrambler::tetra_scramb_bits(lfsr_init, bits))
}

/// The start value of a cell.
#[track_caller]
pub fn tetra_scramb_get_init(mcc: u16, mnc: u16, colour: u8) -> u32 {
    given(crate::scrambler::tetra_scramb_get_init(mcc, mnc, colour))
}
