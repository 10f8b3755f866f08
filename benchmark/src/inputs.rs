// Inputs by chance from a fixed seed: blocks as they are sent, with some symbols wrong.
use original::lmac::components::convenc::{self, RcpcPunctMode};

pub struct Chance(u64);

impl Chance {
    pub fn new(seed: u64) -> Self {
        Chance(seed)
    }

    // A linear congruence of 64 bits; its upper half is used.
    pub fn number(&mut self) -> u32 {
        self.0 = self.0.wrapping_mul(0x5851_f42d_4c95_7f2d).wrapping_add(0x1405_7b7e_f767_814f);
        (self.0 >> 32) as u32
    }

    pub fn below(&mut self, n: u32) -> u32 {
        (self.number() as u64 * n as u64 >> 32) as u32
    }

    pub fn bits(&mut self, n: usize) -> Vec<u8> {
        (0..n).map(|_| (self.number() >> 31) as u8).collect()
    }

    // One entry in 25 turned.
    pub fn damaged(&mut self, mut bits: Vec<u8>) -> Vec<u8> {
        for bit in &mut bits {
            if self.below(25) == 0 {
                *bit ^= 1;
            }
        }
        bits
    }
}

// n steps as the decoder of the control code gets them: punctured by mode 2_3, damaged, unkept places erased.
pub fn control_symbols(chance: &mut Chance, n: usize) -> Vec<u8> {
    let mut word = chance.bits(n);
    word[n - 4..].fill(0);
    let mut sent = vec![0; 4 * n];
    convenc::ConvEncState::new().encode(&word, &mut sent);
    kept(chance, RcpcPunctMode::Rate2_3, &sent, n / 2 * 3)
}

// The same for the speech code, by mode 112_168.
pub fn speech_symbols(chance: &mut Chance, n: usize) -> Vec<u8> {
    let mut word = chance.bits(n);
    word[n - 4..].fill(0);
    let mut sent = vec![0; 3 * n];
    convenc::SpeechConvEncState::new().encode(&word, &mut sent);
    kept(chance, RcpcPunctMode::Rate112_168, &sent, n / 2 * 3)
}

fn kept(chance: &mut Chance, mode: RcpcPunctMode, sent: &[u8], count: usize) -> Vec<u8> {
    let mut air = vec![0; count];
    convenc::get_punctured_rate(mode, sent, &mut air);
    let air = chance.damaged(air);
    let mut symbols = vec![0xff; sent.len()];
    convenc::tetra_rcpc_depunct(mode, &air, count, &mut symbols);
    symbols
}
