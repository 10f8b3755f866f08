//! Decoders. They take hard symbols: -1 for 0, 1 for 1 and 0 for "not received". Panics for other soft values, for more
//! than 864 steps, and for polynomials that are neither the control code's nor the speech code's.
use super::given;
use crate::viterbi as proved;

/// A received symbol: -1 for 0, 1 for 1 and 0 for "not received".
pub type SoftBit = i8;

const K: usize = 5;

const CONTROL: [[bool; K]; 4] = [
    [true, true, false, false, true],
    [true, false, true, true, true],
    [true, true, true, false, true],
    [true, true, false, true, true],
];

const SPEECH: [[bool; K]; 3] = [
    [true, true, true, true, true],
    [true, true, false, true, true],
    [true, false, true, false, true],
];

/// Number of encoder states for a constraint length of at least 1.
pub const fn num_states(k: usize) -> usize {
    2usize.pow(k as u32 - 1)
}

/// A decoder of the control code (`N` 4) or the speech code (`N` 3).
pub struct ViterbiDecoder<const N: usize>(());

/// The decoder of the control mother code.
pub type TetraViterbiDecoder = ViterbiDecoder<4>;

/// The decoder of the speech mother code.
pub type TetraCodecViterbiDecoder = ViterbiDecoder<3>;

impl<const N: usize> ViterbiDecoder<N> {
    /// The decoder of the code with these generators.
    #[track_caller]
    pub fn new_with_polynomials(generator_polynomials: &[[bool; K]; N]) -> Self {
        let known = generator_polynomials[..] == CONTROL[..] || generator_polynomials[..] == SPEECH[..];
        assert!(
            known,
            "only the control code's and the speech code's polynomials have a proved decoder"
        );
        Self(())
    }

    /// The nearest word, a bit for each `N` symbols; symbols left over are unused.
    #[track_caller]
    pub fn decode(&self, received_bits: &[SoftBit]) -> Vec<u8> {
        let symbol = |soft: &SoftBit| match soft {
            -1 => 0,
            0 => 0xff,
            1 => 1,
            _ => panic!("soft value {soft}: only -1, 0 and 1 are taken"),
        };
        let symbols: Vec<u8> = received_bits.iter().map(symbol).collect();
        let steps = symbols.len() / N;
        let (mut word, mut trellis) = (vec![0; steps], vec![0; steps]);
        let decoder = if N == CONTROL.len() {
            proved::dec_sb1
        } else {
            proved::dec_speech
        };
        given(decoder(&symbols, &mut word, steps, &mut trellis));
        word
    }
}

impl TetraViterbiDecoder {
    /// The decoder of the control mother code.
    #[allow(clippy::new_without_default)]
    pub fn new() -> Self {
        Self(())
    }
}

impl TetraCodecViterbiDecoder {
    /// The decoder of the speech mother code.
    #[allow(clippy::new_without_default)]
    pub fn new() -> Self {
        Self(())
    }
}

/// Decodes `sym_count` steps of four control symbols: 0 and 1 are bits, every other byte an erasure.
#[track_caller]
pub fn dec_sb1(in_buf: &[u8], out_buf: &mut [u8], sym_count: usize) {
    let mut trellis = [0; proved::MAX_STEPS];
    given(proved::dec_sb1(in_buf, out_buf, sym_count, &mut trellis));
}
