//! The shortened Reed-Muller code of 14 data bits in 30 (EN 300 392-2, 8.2.3.2).
use crate::answer::said;
use crate::{raw, Refusal};

/// What a received word is.
#[derive(Clone, Copy, Debug, PartialEq, Eq, Hash)]
pub enum Verdict {
    /// A code word.
    Clean {
        /// Its 14 data bits.
        data: u16,
    },
    /// One bit from a code word.
    Mended {
        /// The 14 data bits of that code word.
        data: u16,
        /// The place of the wrong bit, 1 to 30 from the left.
        place: u8,
    },
    /// Further from every code word. A code word with two wrong bits is always this.
    Beyond {
        /// The upper 14 bits as they were received: not to be relied on.
        data: u16,
    },
}

impl Verdict {
    /// The 14 bits, whatever the verdict on them.
    pub const fn data(self) -> u16 {
        match self {
            Verdict::Clean { data } | Verdict::Mended { data, .. } | Verdict::Beyond { data } => data,
        }
    }
}

/// The word of 14 data bits.
///
/// Refuses WORD from 16,384 on.
pub fn tetra_rm3014_compute(input: u16) -> Result<u32, Refusal> {
    Ok(said(|answer| raw::tetra_rm3014_compute(input, answer))?.value as u32)
}

/// The upper 14 bits of a word, uncorrected.
///
/// Refuses WORD from 2^30 on.
pub fn tetra_rm3014_decode_naive(codeword: u32) -> Result<u16, Refusal> {
    Ok(said(|answer| raw::tetra_rm3014_decode_naive(codeword, answer))?.value as u16)
}

/// The syndrome of a word: 0 for a code word.
///
/// Refuses WORD from 2^30 on.
pub fn compute_syndrome(codeword: u32) -> Result<u16, Refusal> {
    Ok(said(|answer| raw::compute_syndrome(codeword, answer))?.value as u16)
}

/// The verdict on a word.
///
/// Refuses WORD from 2^30 on.
pub fn tetra_rm3014_decode_limited_ecc(codeword: u32) -> Result<Verdict, Refusal> {
    Ok(said(|answer| raw::tetra_rm3014_decode_limited_ecc(codeword, answer))?.found())
}
