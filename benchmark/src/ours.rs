// The proved entries, as include/caplattice.h declares them.
#[path = "../../rust/caplattice/src/raw.rs"]
#[allow(dead_code)]
mod raw;

pub use raw::*;

pub const GOOD: u64 = 1;
pub const MATCHED: u64 = 6;

// A value that was said, or a number that no contestant answers where the call was refused.
pub fn said(refusal: u8, value: u64) -> u64 {
    if refusal == 0 { value } else { u64::MAX }
}
