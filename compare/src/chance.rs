// Chance that is the same at each run: splitmix64 from a given seed.
pub struct Chance(pub u64);

impl Chance {
    pub fn next(&mut self) -> u64 {
        self.0 = self.0.wrapping_add(0x9e37_79b9_7f4a_7c15);
        let mut z = self.0;
        z = (z ^ (z >> 30)).wrapping_mul(0xbf58_476d_1ce4_e5b9);
        z = (z ^ (z >> 27)).wrapping_mul(0x94d0_49bb_1331_11eb);
        z ^ (z >> 31)
    }

    // A number below n.
    pub fn below(&mut self, n: usize) -> usize {
        (self.next() % n as u64) as usize
    }

    // True once in n times.
    pub fn once_in(&mut self, n: usize) -> bool {
        self.below(n) == 0
    }

    pub fn one_of<T: Copy>(&mut self, choices: &[T]) -> T {
        choices[self.below(choices.len())]
    }

    pub fn byte(&mut self) -> u8 {
        self.next() as u8
    }

    pub fn bits(&mut self, n: usize) -> Vec<u8> {
        (0..n).map(|_| self.byte() & 1).collect()
    }

    pub fn bytes(&mut self, n: usize) -> Vec<u8> {
        (0..n).map(|_| self.byte()).collect()
    }

    // A length that is mostly n, and now and then one less, one more, far less or far more.
    pub fn length_near(&mut self, n: usize) -> usize {
        match self.below(8) {
            0 => n.saturating_sub(1),
            1 => n + 1,
            2 => n + self.below(20),
            3 if self.once_in(3) => self.below(n + 1),
            _ => n,
        }
    }

    // Received symbols of many flavours.
    pub fn symbols(&mut self, n: usize) -> Vec<u8> {
        let flavour: &[u8] = match self.below(9) {
            0 => &[0, 1],
            1 => &[0, 1, 0xff],
            2 => &[0, 1, 0xff, 0xff, 0xff, 0xff, 0xff, 0xff, 0xff, 0xff],
            3 => &[0, 1, 2, 3, 0x7f, 0x80, 0xfe, 0xff],
            4 => &[0, 0, 0, 0, 0, 0, 0, 1],
            5 => &[1, 0xff],
            6 => &[0xff],
            7 => &[0, 0, 0, 0, 0, 0, 0, 0, 0, 0, 0, 0xff, 1],
            _ => &[1],
        };
        (0..n).map(|_| self.one_of(flavour)).collect()
    }

    // Some entries turned over and some erased.
    pub fn damaged(&mut self, air: &[u8]) -> Vec<u8> {
        let mut damaged = air.to_vec();
        if damaged.is_empty() {
            return damaged;
        }
        let most = self.one_of(&[0, 1, 2, 4, 8, 16, 32, 64]);
        for _ in 0..self.below(most + 1) {
            let place = self.below(damaged.len());
            damaged[place] ^= 1;
        }
        let most = self.one_of(&[0, 0, 1, 5, 30, 100, 250]);
        for _ in 0..self.below(most + 1) {
            let place = self.below(damaged.len());
            damaged[place] = self.one_of(&[0xff, 0xff, 0xff, 2, 0xfe, 0x80]);
        }
        damaged
    }
}
