//! Decoders of the two mother codes. What is written is the nearest word that could have been sent: no word whose last four
//! bits are 0 disagrees with fewer of the symbols that were received.
//!
//! Both refuse LIMIT over [`MAX_STEPS`], SHORT, and ROOM for the target or the trellis, which lends the decoder one entry for
//! each step. Used trellis entries are 0 afterwards.
use crate::answer::said;
use crate::{raw, Refusal};

/// The most steps that a decoder takes.
pub const MAX_STEPS: usize = 864;

/// Decodes `sym_count` steps of four control symbols: 0 and 1 are bits, every other byte an erasure. Gives how many
/// received symbols disagree with the word.
pub fn dec_sb1(in_buf: &[u8], out_buf: &mut [u8], sym_count: usize, trellis: &mut [u16]) -> Result<usize, Refusal> {
    let answer = said(|answer| raw::dec_sb1(in_buf, out_buf, sym_count, trellis, answer))?;
    Ok(answer.disagreements as usize)
}

/// The same for steps of three speech symbols.
pub fn dec_speech(in_buf: &[u8], out_buf: &mut [u8], sym_count: usize, trellis: &mut [u16]) -> Result<usize, Refusal> {
    let answer = said(|answer| raw::dec_speech(in_buf, out_buf, sym_count, trellis, answer))?;
    Ok(answer.disagreements as usize)
}
