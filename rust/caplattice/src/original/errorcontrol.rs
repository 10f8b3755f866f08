//! The chains, on bits one per byte in place of the messages that carry a bit buffer. They take the lengths that the old ones
//! take: [`encode_cp`], [`encode_aach`] and [`decode_aach`] exactly the channel's, the others also more, of which the surplus is
//! unused. They panic for other lengths and for bytes that are no bits. Only a speech block of fewer than 274 bits, which the old
//! code fills up, is not taken.
use super::given;
use crate::errorcontrol::{self as proved, ControlKind, AACH_AIR_BITS, AACH_BITS, SPEECH_AIR_BITS, SPEECH_BITS};
use crate::scrambler::SCRAMB_INIT;

#[track_caller]
fn bits_only(bits: &[u8]) {
    assert!(bits.iter().all(|&bit| bit < 2), "a block holds bits only");
}

#[track_caller]
fn exactly(length: usize, bits: &[u8]) {
    assert_eq!(bits.len(), length, "a block of {length} bits is needed");
    bits_only(bits);
}

#[track_caller]
fn at_least(length: usize, bits: &[u8]) {
    assert!(bits.len() >= length, "a block of at least {length} bits is needed");
    bits_only(bits);
}

/// The air bits of a control block.
#[track_caller]
pub fn encode_cp(kind: ControlKind, mac_block: &[u8], scrambling_code: u32) -> Vec<u8> {
    exactly(kind.data_bits(), mac_block);
    let mut air = vec![0; kind.air_bits()];
    given(proved::encode_cp(kind, scrambling_code, mac_block, &mut air));
    air
}

/// The data of a control block, and whether its check fits. A synchronisation block (`sb1`) is unscrambled from 3; another
/// gives nothing while no scrambling code is known.
#[track_caller]
pub fn decode_cp(kind: ControlKind, block: &[u8], sb1: bool, default_scramb_code: Option<u32>) -> (Option<Vec<u8>>, bool) {
    let Some(start) = (if sb1 { Some(SCRAMB_INIT) } else { default_scramb_code }) else {
        return (None, false);
    };
    at_least(kind.air_bits(), block);
    let (mut word, mut trellis) = (vec![0; kind.word_bits()], vec![0; kind.word_bits()]);
    let answer = given(proved::decode_cp(kind, start, block, &mut word, &mut trellis));
    word.truncate(kind.data_bits());
    (Some(word), answer.is_good())
}

/// The air bits of 274 codec bits: the whole slot for `blk_num` 1, its second half otherwise.
#[track_caller]
pub fn encode_tp(mac_block: &[u8], scrambling_code: u32, blk_num: u8) -> Vec<u8> {
    at_least(SPEECH_BITS, mac_block);
    let mut air = vec![0; SPEECH_AIR_BITS];
    given(proved::encode_tp(scrambling_code, mac_block, &mut air));
    if blk_num == 1 {
        air
    } else {
        air.split_off(SPEECH_AIR_BITS / 2)
    }
}

/// The 274 codec bits of a slot, and whether its check fits.
#[track_caller]
pub fn decode_tp(type5_block: &[u8], scrambling_code: u32) -> (Option<Vec<u8>>, bool) {
    at_least(SPEECH_AIR_BITS, type5_block);
    let (mut codec, mut trellis) = (vec![0; SPEECH_BITS], vec![0; proved::SPEECH_STEPS]);
    let answer = given(proved::decode_tp(scrambling_code, type5_block, &mut codec, &mut trellis));
    (Some(codec), answer.is_good())
}

/// The 30 air bits of the access field.
#[track_caller]
pub fn encode_aach(bits: &[u8], scrambling_code: u32) -> Vec<u8> {
    exactly(AACH_BITS, bits);
    let mut air = vec![0; AACH_AIR_BITS];
    given(proved::encode_aach(scrambling_code, bits, &mut air));
    air
}

/// The 14 bits of the access field, mended where one bit is wrong. It does not say whether they can be relied on;
/// [`crate::errorcontrol::decode_aach`] does.
#[track_caller]
pub fn decode_aach(bits: &[u8], scrambling_code: u32) -> Vec<u8> {
    exactly(AACH_AIR_BITS, bits);
    let data = given(proved::decode_aach(scrambling_code, bits)).data();
    (0..AACH_BITS)
        .map(|place| (data >> (AACH_BITS - 1 - place) & 1) as u8)
        .collect()
}
