//! The 274 speech bits of a slot between the codec's order and the channel's; entries are bytes of any value.
use crate::answer::done;
use crate::{raw, Refusal};

/// Writes 274 codec entries in channel order.
///
/// Refuses SHORT and ROOM below 274.
pub fn codec_to_channel(codec_bits: &[u8], channel_bits: &mut [u8]) -> Result<(), Refusal> {
    done(raw::codec_to_channel(codec_bits, channel_bits))
}

/// The inverse of [`codec_to_channel`].
pub fn channel_to_codec(channel_bits: &[u8], codec_bits: &mut [u8]) -> Result<(), Refusal> {
    done(raw::channel_to_codec(channel_bits, codec_bits))
}
