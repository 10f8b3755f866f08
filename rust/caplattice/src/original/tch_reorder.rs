//! Speech bits between codec and channel order.
use super::given;

/// 274 codec entries in channel order.
pub fn codec_to_channel(codec_bits: &[u8; 274]) -> [u8; 274] {
    let mut channel_bits = [0; 274];
    given(crate::tch_reorder::codec_to_channel(codec_bits, &mut channel_bits));
    channel_bits
}

/// The inverse of [`codec_to_channel`].
pub fn channel_to_codec(channel_bits: &[u8; 274]) -> [u8; 274] {
    let mut codec_bits = [0; 274];
    given(crate::tch_reorder::channel_to_codec(channel_bits, &mut codec_bits));
    codec_bits
}
