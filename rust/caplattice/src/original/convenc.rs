//! Encoders and puncturing. Panics for slices that are too short, for more than 4,096 entries, and for an encoder's input
//! that is no bits.
use super::given;
use crate::convenc as proved;
pub use crate::convenc::RcpcPunctMode;

/// The control encoder. It goes on from one call to the next.
#[derive(Clone, Copy, Debug)]
pub struct ConvEncState(proved::ConvEncState);

impl ConvEncState {
    /// An encoder that has taken nothing.
    #[allow(clippy::new_without_default)]
    pub fn new() -> Self {
        Self(proved::ConvEncState::new())
    }

    /// Forgets what it took.
    pub fn reset(&mut self) {
        self.0.reset()
    }

    /// Four entries for each bit.
    #[track_caller]
    pub fn encode(&mut self, input: &[u8], output: &mut [u8]) {
        given(self.0.encode(input, output))
    }

    /// Three entries for each bit, without the fourth generator.
    #[track_caller]
    pub fn encode_rate1_3(&mut self, input: &[u8], output: &mut [u8]) {
        given(self.0.encode_rate1_3(input, output))
    }
}

/// The speech encoder. It goes on from one call to the next.
#[derive(Clone, Copy, Debug)]
pub struct SpeechConvEncState(proved::SpeechConvEncState);

impl SpeechConvEncState {
    /// An encoder that has taken nothing.
    #[allow(clippy::new_without_default)]
    pub fn new() -> Self {
        Self(proved::SpeechConvEncState::new())
    }

    /// Three entries for each bit.
    #[track_caller]
    pub fn encode(&mut self, input: &[u8], output: &mut [u8]) {
        given(self.0.encode(input, output))
    }
}

/// Fills the output with the kept entries of a mother word.
#[track_caller]
pub fn get_punctured_rate(pu: RcpcPunctMode, input: &[u8], output: &mut [u8]) {
    given(proved::get_punctured_rate(pu, input, output.len(), output))
}

/// Puts `len` entries back to their places in a mother word.
#[track_caller]
pub fn tetra_rcpc_depunct(pu: RcpcPunctMode, input: &[u8], len: usize, output: &mut [u8]) {
    given(proved::tetra_rcpc_depunct(pu, input, len, output))
}

/// How many places of a mother word and a depunctured one are equal, or that some place differs; 0xff in `depunct` is skipped.
#[allow(clippy::result_unit_err)]
pub fn mother_memcmp(mother: &[u8], depunct: &[u8]) -> Result<usize, ()> {
    match proved::mother_memcmp(mother, depunct) {
        proved::Compared::Matched(count) => Ok(count),
        proved::Compared::Differs => Err(()),
    }
}
