// The one adapter that a swap needs: it lifts the bits out of the owner's buffer and puts them back.
use tetra_core::BitBuffer;

pub use caplattice::original::scrambler::{tetra_scramb_get_bits, tetra_scramb_get_init, SCRAMB_INIT};

/// Scrambles or unscrambles a buffer from its position to its end; the position stays.
pub fn tetra_scramb_bits(lfsr_init: u32, buf: &mut BitBuffer) {
    let mut bits = vec![0; buf.get_len_remaining()];
    let back = -(bits.len() as isize);
    buf.to_bitarr(&mut bits);
    buf.seek_rel(back);
    caplattice::original::scrambler::tetra_scramb_bits(lfsr_init, &mut bits);
    buf.copy_bits_from_bitarr(&bits);
    buf.seek_rel(back);
}
