//! Interleaving. Panics for slices that are too short, for more than 4,096 entries, and for an `a` that is no shuffle.
use super::given;
use crate::interleaver as proved;

/// Where place `i` goes, both counted from 1. Panics for `k` 0.
pub const fn block_interl_func(k: u32, a: u32, i: u32) -> u32 {
    a.wrapping_mul(i) % k + 1
}

/// Place i goes to 1 + (`a` i mod `k`).
#[track_caller]
pub fn block_interleave(k: usize, a: usize, input: &[u8], output: &mut [u8]) {
    given(proved::block_interleave(k, a, input, output))
}

/// The inverse of [`block_interleave`].
#[track_caller]
pub fn block_deinterleave(k: usize, a: usize, input: &[u8], output: &mut [u8]) {
    given(proved::block_deinterleave(k, a, input, output))
}

/// Written by lines and read by columns.
#[track_caller]
pub fn matrix_interleave(lines: usize, columns: usize, input: &[u8], output: &mut [u8]) {
    given(proved::matrix_interleave(lines, columns, input, output))
}

/// The inverse of [`matrix_interleave`].
#[track_caller]
pub fn matrix_deinterleave(lines: usize, columns: usize, input: &[u8], output: &mut [u8]) {
    given(proved::matrix_deinterleave(lines, columns, input, output))
}
