//! The Reed-Muller code. Panics for data of more than 14 bits and for words of more than 30.
use super::given;
use crate::rm3014 as proved;

// The parity part of the generator (EN 300 392-2, 8.2.3.2), a row to a number, the first column its top bit.
const PARITY: [u16; 14] = [
    0x9b60, 0x2de0, 0xfc20, 0xe03c, 0x983a, 0x5436, 0x2c2e, 0xffdf, 0x8339, 0x42b5, 0x21ad, 0x1273, 0x096b, 0x04e7,
];

const fn table() -> [[u8; 16]; 14] {
    let mut table = [[0; 16]; 14];
    let mut at = 0;
    while at < 14 * 16 {
        table[at / 16][at % 16] = (PARITY[at / 16] >> (15 - at % 16) & 1) as u8;
        at += 1;
    }
    table
}

const fn rows() -> [u32; 14] {
    let mut rows = [0; 14];
    let mut row = 0;
    while row < 14 {
        rows[row] = 1 << (29 - row) | PARITY[row] as u32;
        row += 1;
    }
    rows
}

/// The parity part of the generator matrix.
pub const RM_30_14_GEN: [[u8; 16]; 14] = table();

/// The word of each single data bit, the first bit's first.
pub static RM_30_14_ROWS_PRECOMPUTED: [u32; 14] = rows();

/// The syndrome of each single wrong bit, from the left.
pub const COL_SYNDROMES: [u16; 30] = compute_col_syndromes();

/// [`COL_SYNDROMES`], worked out. A syndrome has the first parity bit lowest.
pub const fn compute_col_syndromes() -> [u16; 30] {
    let mut columns = [0; 30];
    let mut column = 0;
    while column < 30 {
        columns[column] = if column < 14 {
            PARITY[column].reverse_bits()
        } else {
            1 << (column - 14)
        };
        column += 1;
    }
    columns
}

/// The word of 14 data bits.
#[track_caller]
pub fn tetra_rm3014_compute(input: u16) -> u32 {
    given(proved::tetra_rm3014_compute(input))
}

/// The upper 14 bits of a word, uncorrected.
#[track_caller]
pub fn tetra_rm3014_decode_naive(codeword: u32) -> u16 {
    given(proved::tetra_rm3014_decode_naive(codeword))
}

/// The syndrome of a word.
#[track_caller]
pub fn compute_syndrome(codeword: u32) -> u16 {
    given(proved::compute_syndrome(codeword))
}

/// The 14 data bits, mended where one bit is wrong. It does not say whether they can be relied on;
/// [`crate::rm3014::tetra_rm3014_decode_limited_ecc`] does.
#[track_caller]
pub fn tetra_rm3014_decode_limited_ecc(codeword: u32) -> u16 {
    given(proved::tetra_rm3014_decode_limited_ecc(codeword)).data()
}
