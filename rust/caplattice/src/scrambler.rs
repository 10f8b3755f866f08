//! Scrambling: the outputs of a 32-bit register, added to bits.
use crate::answer::{done, said};
use crate::{raw, Refusal};

/// The start value of the synchronisation channel.
pub const SCRAMB_INIT: u32 = 3;

/// Writes the register's outputs over the whole of `out`.
pub fn tetra_scramb_get_bits(lfsr_init: u32, out: &mut [u8]) {
    raw::tetra_scramb_get_bits(lfsr_init, out);
}

/// For sending: adds the outputs to the bits of the whole slice.
///
/// Refuses BIT when an entry exceeds 1.
pub fn tetra_scramb_bits(lfsr_init: u32, bits: &mut [u8]) -> Result<(), Refusal> {
    done(raw::tetra_scramb_bits(lfsr_init, bits))
}

/// For receiving: takes the outputs off the symbols 0 and 1 and turns every other byte to 0xff.
pub fn tetra_descramb_bits(lfsr_init: u32, symbols: &mut [u8]) {
    raw::tetra_descramb_bits(lfsr_init, symbols);
}

/// The start value of a cell; colour 0 gives 0.
///
/// Refuses FIELD when `mcc` is over 1,023, `mnc` over 16,383 or `colour` over 63.
pub fn tetra_scramb_get_init(mcc: u16, mnc: u16, colour: u8) -> Result<u32, Refusal> {
    let answer = said(|answer| raw::tetra_scramb_get_init(mcc, mnc, colour, answer))?;
    Ok(answer.value as u32)
}
