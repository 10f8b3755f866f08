//! The 16-bit check register of ITU-T, over one bit per byte and over packed bytes.
use crate::answer::{always_said, said};
use crate::{raw, Refusal};

/// The generator without its top term.
pub const GEN_POLY: u16 = 0x1021;

/// What data followed by its check leaves in a register that began at 0xffff.
pub const TETRA_CRC_OK: u16 = 0x1d0f;

/// The register after the lowest bits of the first `number_bits` entries, or of all where there are fewer.
pub fn crc16_itut_bits(crc: u16, input: &[u8], number_bits: usize) -> u16 {
    always_said(|answer| raw::crc16_itut_bits(crc, input, number_bits, answer)).value as u16
}

/// The register after the first `number_bits` bits of packed bytes, the most significant of each first.
///
/// Refuses SHORT when there are fewer bits.
pub fn crc16_itut_bytes(crc: u16, input: &[u8], number_bits: usize) -> Result<u16, Refusal> {
    let answer = said(|answer| raw::crc16_itut_bytes(crc, input, number_bits, answer))?;
    Ok(answer.value as u16)
}

/// [`crc16_itut_bits`] from 0xffff, as TETRA uses it.
pub fn crc16_ccitt_bits(input: &[u8], len: usize) -> u16 {
    always_said(|answer| raw::crc16_ccitt_bits(input, len, answer)).value as u16
}
