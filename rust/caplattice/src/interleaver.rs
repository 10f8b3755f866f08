//! Block and matrix interleaving of bytes of any value.
//!
//! The block forms refuse LIMIT when `k` is over 4,096 or `a` over 65,535, and SHUFFLE when a whole number above 1 divides
//! both. The matrix forms refuse LIMIT when `lines`, `columns` or their product is over 4,096. All refuse SHORT for the
//! input and ROOM for the output.
use crate::answer::done;
use crate::{raw, Refusal};

/// Place i of 1 to `k` goes to 1 + (`a` i mod `k`).
pub fn block_interleave(k: usize, a: usize, input: &[u8], output: &mut [u8]) -> Result<(), Refusal> {
    done(raw::block_interleave(k, a, input, output))
}

/// The inverse of [`block_interleave`].
pub fn block_deinterleave(k: usize, a: usize, input: &[u8], output: &mut [u8]) -> Result<(), Refusal> {
    done(raw::block_deinterleave(k, a, input, output))
}

/// Written by lines and read by columns: entry j `columns` + i goes to i `lines` + j, counted from 0.
pub fn matrix_interleave(lines: usize, columns: usize, input: &[u8], output: &mut [u8]) -> Result<(), Refusal> {
    done(raw::matrix_interleave(lines, columns, input, output))
}

/// The inverse of [`matrix_interleave`].
pub fn matrix_deinterleave(lines: usize, columns: usize, input: &[u8], output: &mut [u8]) -> Result<(), Refusal> {
    done(raw::matrix_deinterleave(lines, columns, input, output))
}
