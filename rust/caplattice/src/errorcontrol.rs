//! Whole chains between data and the air: control blocks, speech slots, the access field.
//!
//! Sending refuses SHORT, ROOM, and BIT for data that are no bits. Receiving control and speech refuses SHORT and ROOM
//! alone: a symbol that is neither 0 nor 1 was not received. The trellis is lent room, one entry for each decoded bit.
use crate::answer::{done, said};
use crate::rm3014::Verdict;
use crate::{raw, Refusal};

/// Codec bits in a speech slot.
pub const SPEECH_BITS: usize = 274;
/// Air bits in a speech slot.
pub const SPEECH_AIR_BITS: usize = 432;
/// Air bits in the second half of a speech slot.
pub const SPEECH_HALF_AIR_BITS: usize = 216;
/// Trellis entries that receiving speech needs.
pub const SPEECH_STEPS: usize = 184;
/// Data bits of the access field.
pub const AACH_BITS: usize = 14;
/// Air bits of the access field.
pub const AACH_AIR_BITS: usize = 30;

/// A kind of control block (EN 300 392-2, 8.3.1), by its number from 1 to 4.
#[repr(u8)]
#[derive(Clone, Copy, Debug, PartialEq, Eq, Hash)]
pub enum ControlKind {
    /// BSCH.
    Bsch = 1,
    /// SCH/HU.
    SchHu = 2,
    /// SCH/HD, BNCH and STCH.
    SchHd = 3,
    /// SCH/F.
    SchF = 4,
}

impl ControlKind {
    /// Data bits in a block.
    pub const fn data_bits(self) -> usize {
        self.word_bits() - 20
    }

    /// Bits of the decoded word: data, 16 check bits and 4 zeros.
    pub const fn word_bits(self) -> usize {
        match self {
            ControlKind::Bsch => 80,
            ControlKind::SchHu => 112,
            ControlKind::SchHd => 144,
            ControlKind::SchF => 288,
        }
    }

    /// Air bits in a block.
    pub const fn air_bits(self) -> usize {
        self.word_bits() / 2 * 3
    }
}

/// The kind of a number; refuses KIND unless it is 1 to 4.
impl TryFrom<u8> for ControlKind {
    type Error = Refusal;

    fn try_from(number: u8) -> Result<Self, Refusal> {
        Ok(match number {
            1 => ControlKind::Bsch,
            2 => ControlKind::SchHu,
            3 => ControlKind::SchHd,
            4 => ControlKind::SchF,
            _ => return Err(Refusal::Kind),
        })
    }
}

/// What a receive chain answers. The target is written in both cases.
#[derive(Clone, Copy, Debug, PartialEq, Eq, Hash)]
pub enum Received {
    /// The check fits.
    Good {
        /// How many received symbols the decoded word disagrees with.
        disagreements: usize,
    },
    /// The check does not fit.
    Bad {
        /// How many received symbols the decoded word disagrees with.
        disagreements: usize,
    },
}

impl Received {
    /// Whether the check fits.
    pub const fn is_good(self) -> bool {
        matches!(self, Received::Good { .. })
    }

    /// How many received symbols the decoded word disagrees with.
    pub const fn disagreements(self) -> usize {
        match self {
            Received::Good { disagreements } | Received::Bad { disagreements } => disagreements,
        }
    }
}

/// Writes the air bits of a control block.
pub fn encode_cp(kind: ControlKind, scrambling_code: u32, data: &[u8], air: &mut [u8]) -> Result<(), Refusal> {
    done(raw::encode_cp(kind as u8, scrambling_code, data, air))
}

/// Writes the whole decoded word of a control block, its data first.
pub fn decode_cp(
    kind: ControlKind,
    scrambling_code: u32,
    air: &[u8],
    word: &mut [u8],
    trellis: &mut [u16],
) -> Result<Received, Refusal> {
    Ok(said(|answer| raw::decode_cp(kind as u8, scrambling_code, air, word, trellis, answer))?.received())
}

/// Writes the 432 air bits of 274 codec bits.
pub fn encode_tp(scrambling_code: u32, codec: &[u8], air: &mut [u8]) -> Result<(), Refusal> {
    done(raw::encode_tp(scrambling_code, codec, air))
}

/// Writes the second 216 of those 432.
pub fn encode_tp_half(scrambling_code: u32, codec: &[u8], air: &mut [u8]) -> Result<(), Refusal> {
    done(raw::encode_tp_half(scrambling_code, codec, air))
}

/// Writes the 274 codec bits of a slot of 432 symbols. An erased uncoded bit reads 0.
pub fn decode_tp(scrambling_code: u32, air: &[u8], codec: &mut [u8], trellis: &mut [u16]) -> Result<Received, Refusal> {
    Ok(said(|answer| raw::decode_tp(scrambling_code, air, codec, trellis, answer))?.received())
}

/// The same from the second half of a slot alone, 216 symbols. Half a slot does not determine all codec bits, so Good
/// says that the check fits and no more.
pub fn decode_tp_half(scrambling_code: u32, air: &[u8], codec: &mut [u8], trellis: &mut [u16]) -> Result<Received, Refusal> {
    Ok(said(|answer| raw::decode_tp_half(scrambling_code, air, codec, trellis, answer))?.received())
}

/// Writes the 30 air bits of the access field's 14.
pub fn encode_aach(scrambling_code: u32, data: &[u8], air: &mut [u8]) -> Result<(), Refusal> {
    done(raw::encode_aach(scrambling_code, data, air))
}

/// The verdict on 30 received bits of the access field; refuses BIT for a symbol that is no bit.
pub fn decode_aach(scrambling_code: u32, air: &[u8]) -> Result<Verdict, Refusal> {
    Ok(said(|answer| raw::decode_aach(scrambling_code, air, answer))?.found())
}

/// Writes the 8 check bits of the 60 most sensitive speech bits, from the lowest bits of the first 60 entries.
///
/// Refuses SHORT below 60 and ROOM below 8.
pub fn speech_crc(class2_bits: &[u8], check: &mut [u8]) -> Result<(), Refusal> {
    done(raw::speech_crc(class2_bits, check))
}
