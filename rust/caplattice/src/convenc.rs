//! The convolutional encoders of control and speech, and puncturing.
use crate::answer::{always_said, done, said};
use crate::{raw, Refusal};

/// A puncturing mode, by its number from 0 to 6.
#[repr(usize)]
#[derive(Clone, Copy, Debug, PartialEq, Eq, Hash)]
pub enum RcpcPunctMode {
    /// Control channels: 3 of 8.
    Rate2_3 = 0,
    /// 6 of 8.
    Rate1_3 = 1,
    /// 3 of 8, one skipped after every 65.
    Rate292_432 = 2,
    /// 6 of 8, one skipped after every 35.
    Rate148_432 = 3,
    /// Speech, class 1: 3 of 6.
    Rate112_168 = 4,
    /// Speech, class 2: 9 of 12.
    Rate72_162 = 5,
    /// 17 of 24.
    Rate38_80 = 6,
}

/// The mode of a number; refuses KIND over 6.
impl TryFrom<u8> for RcpcPunctMode {
    type Error = Refusal;

    fn try_from(number: u8) -> Result<Self, Refusal> {
        Ok(match number {
            0 => RcpcPunctMode::Rate2_3,
            1 => RcpcPunctMode::Rate1_3,
            2 => RcpcPunctMode::Rate292_432,
            3 => RcpcPunctMode::Rate148_432,
            4 => RcpcPunctMode::Rate112_168,
            5 => RcpcPunctMode::Rate72_162,
            6 => RcpcPunctMode::Rate38_80,
            _ => return Err(Refusal::Kind),
        })
    }
}

/// What [`mother_memcmp`] finds.
#[derive(Clone, Copy, Debug, PartialEq, Eq, Hash)]
pub enum Compared {
    /// All places that are not erased are equal; so many there were.
    Matched(usize),
    /// Some place differs.
    Differs,
}

/// The control encoder: the last four bits that it took, the newest first. It goes on from one call to the next.
#[derive(Clone, Copy, Debug, Default, PartialEq, Eq)]
pub struct ConvEncState {
    delayed: [u8; 4],
}

impl ConvEncState {
    /// An encoder that has taken nothing.
    pub fn new() -> Self {
        Self::default()
    }

    /// An encoder that last took these bits, the newest first. One that holds more than bits refuses to encode.
    pub fn from_delayed(delayed: [u8; 4]) -> Self {
        Self { delayed }
    }

    /// The last four bits that it took, the newest first.
    pub fn delayed(&self) -> [u8; 4] {
        self.delayed
    }

    /// Forgets what it took.
    pub fn reset(&mut self) {
        *self = Self::new();
    }

    /// The rate 1/4 mother code of the input: four entries for each bit.
    ///
    /// Refuses LIMIT over 4,096 bits, ROOM, and BIT for an input or a delayed bit over 1; the encoder then stays as it was.
    pub fn encode(&mut self, input: &[u8], output: &mut [u8]) -> Result<(), Refusal> {
        let delays = u32::from_le_bytes(self.delayed);
        let answer = said(|answer| raw::encode(delays, input, output, answer))?;
        self.delayed = (answer.value as u32).to_le_bytes();
        Ok(())
    }

    /// The first three of the four generators: three entries for each bit. Refuses as [`ConvEncState::encode`] does.
    pub fn encode_rate1_3(&mut self, input: &[u8], output: &mut [u8]) -> Result<(), Refusal> {
        let delays = u32::from_le_bytes(self.delayed);
        let answer = said(|answer| raw::encode_rate1_3(delays, input, output, answer))?;
        self.delayed = (answer.value as u32).to_le_bytes();
        Ok(())
    }
}

/// The speech encoder, with generators of its own. It goes on from one call to the next.
#[derive(Clone, Copy, Debug, Default, PartialEq, Eq)]
pub struct SpeechConvEncState {
    delayed: [u8; 4],
}

impl SpeechConvEncState {
    /// An encoder that has taken nothing.
    pub fn new() -> Self {
        Self::default()
    }

    /// An encoder that last took these bits, the newest first. One that holds more than bits refuses to encode.
    pub fn from_delayed(delayed: [u8; 4]) -> Self {
        Self { delayed }
    }

    /// The last four bits that it took, the newest first.
    pub fn delayed(&self) -> [u8; 4] {
        self.delayed
    }

    /// The rate 1/3 mother code of the input: three entries for each bit. Refuses as [`ConvEncState::encode`] does.
    pub fn encode(&mut self, input: &[u8], output: &mut [u8]) -> Result<(), Refusal> {
        let delays = u32::from_le_bytes(self.delayed);
        let answer = said(|answer| raw::encode_speech(delays, input, output, answer))?;
        self.delayed = (answer.value as u32).to_le_bytes();
        Ok(())
    }
}

/// Keeps `n` entries of a mother word, as the mode says; entries are bytes of any value.
///
/// Refuses LIMIT when `n` is over 4,096, SHORT when the mother word ends before the last kept place, and ROOM.
pub fn get_punctured_rate(mode: RcpcPunctMode, input: &[u8], n: usize, output: &mut [u8]) -> Result<(), Refusal> {
    done(raw::get_punctured_rate(mode as u8, input, n, output))
}

/// Puts `len` entries back to their places in a mother word; the other places stay.
///
/// Refuses LIMIT when `len` is over 4,096, SHORT, and ROOM when the output ends before the last kept place.
pub fn tetra_rcpc_depunct(mode: RcpcPunctMode, input: &[u8], len: usize, output: &mut [u8]) -> Result<(), Refusal> {
    done(raw::tetra_rcpc_depunct(mode as u8, input, len, output))
}

/// Holds a mother word against a depunctured one, up to the shorter; 0xff in `depunct` is skipped.
pub fn mother_memcmp(mother: &[u8], depunct: &[u8]) -> Compared {
    always_said(|answer| raw::mother_memcmp(mother, depunct, answer)).compared()
}
