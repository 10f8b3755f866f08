//! The check register. Panics where there are fewer bits than asked for.
use super::given;
pub use crate::crc16::{crc16_ccitt_bits, crc16_itut_bits, GEN_POLY, TETRA_CRC_OK};

/// Bit number `bit` of packed bytes, the most significant of each first.
pub fn get_nth_bit(input: &[u8], bit: usize) -> u16 {
    u16::from(input[bit / 8] << (bit % 8) >> 7)
}

/// The register after the first `number_bits` bits of packed bytes.
#[track_caller]
pub fn crc16_itut_bytes(crc: u16, input: &[u8], number_bits: usize) -> u16 {
    given(crate::crc16::crc16_itut_bytes(crc, input, number_bits))
}
