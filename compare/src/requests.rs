// Writes requests on standard output: `requests all` every short input and the boundaries, `requests chance SEED COUNT` that
// many of each entry by chance, most of them near a boundary.
#[allow(dead_code)]
mod asked;
mod chance;

use chance::Chance;
use record::{Request, ENTRIES};
use std::io::{self, BufWriter, Write};

const KINDS: [(u64, usize, usize, usize); 4] = [(1, 60, 80, 120), (2, 92, 112, 168), (3, 124, 144, 216), (4, 268, 288, 432)];
const STARTS: [u64; 4] = [0, 3, 0xffff_ffff, 0x0040_0107];
const MULTIPLIERS: [usize; 12] = [0, 1, 2, 5, 11, 13, 101, 103, 4095, 65534, 65535, 65536];

fn number(name: &str) -> u8 {
    ENTRIES.iter().position(|&entry| entry == name).expect("an entry") as u8
}

struct Maker {
    chance: Chance,
    made: Vec<Request>,
}

impl Maker {
    fn put(&mut self, name: &str, numbers: [u64; 3], source: Vec<u8>, target: usize, trellis: usize) {
        let seed = self.chance.byte();
        self.made.push(Request { entry: number(name), numbers, source, target, seed, trellis });
    }

    fn numbers(&mut self, name: &str, a: u64, b: u64, c: u64) {
        self.put(name, [a, b, c], vec![], 0, 0);
    }

    fn start(&mut self) -> u64 {
        if self.chance.once_in(2) { self.chance.one_of(&STARTS) } else { self.chance.next() & 0xffff_ffff }
    }

    // Bits, and now and then one entry that is none.
    fn nearly_bits(&mut self, n: usize) -> Vec<u8> {
        let mut bits = self.chance.bits(n);
        if n > 0 && self.chance.once_in(5) {
            let place = self.chance.below(n);
            bits[place] = self.chance.one_of(&[2, 3, 0x80, 0xfe, 0xff]);
        }
        bits
    }

    // ---- by chance
    fn crc(&mut self, name: &str) {
        let n = self.chance.below(40);
        let source = self.chance.bytes(n);
        let most = if name == "crc16_itut_bytes" { 8 * n } else { n };
        let count = match self.chance.below(6) {
            0 => most as u64 + 1,
            1 => self.chance.one_of(&[u64::MAX, 1 << 32, 1 << 63, (1 << 61) + 1]),
            2 => most as u64,
            _ => self.chance.below(most + 1) as u64,
        };
        let register = self.chance.next() & 0xffff;
        let numbers = if name == "crc16_ccitt_bits" { [count, 0, 0] } else { [register, count, 0] };
        self.put(name, numbers, source, 0, 0);
    }

    fn scrambling(&mut self, name: &str) {
        let n = self.chance.below(70);
        let start = self.start();
        let lent = match name {
            "tetra_scramb_bits" => self.nearly_bits(n),
            "tetra_descramb_bits" => self.chance.symbols(n),
            _ => self.chance.bytes(n),
        };
        self.put(name, [start, 0, 0], lent, 0, 0);
    }

    fn init(&mut self) {
        let mcc = self.chance.one_of(&[0, 1, 204, 1022, 1023, 1024, 2047, 65535]);
        let mnc = self.chance.one_of(&[0, 1, 1337, 16382, 16383, 16384, 65535]);
        let colour = self.chance.one_of(&[0, 1, 2, 62, 63, 64, 128, 255]);
        if self.chance.once_in(2) {
            self.numbers("tetra_scramb_get_init", mcc, mnc, colour);
        } else {
            let (mcc, mnc) = (self.chance.next() & 0x7ff, self.chance.next() & 0x7fff);
            let colour = self.chance.next() & 0x7f;
            self.numbers("tetra_scramb_get_init", mcc, mnc, colour);
        }
    }

    fn block(&mut self, name: &str) {
        let k = match self.chance.below(8) {
            0 => self.chance.below(4),
            1 => self.chance.one_of(&[120, 168, 216, 432]),
            2 if self.chance.once_in(4) => self.chance.one_of(&[4095, 4096, 4097]),
            _ => self.chance.below(60),
        };
        let a = if self.chance.once_in(3) { self.chance.one_of(&MULTIPLIERS) } else { self.chance.below(120) };
        let (source, target) = (self.chance.length_near(k), self.chance.length_near(k));
        let source = self.chance.bytes(source);
        self.put(name, [k as u64, a as u64, 0], source, target, 0);
    }

    fn matrix(&mut self, name: &str) {
        let (lines, columns) = match self.chance.below(8) {
            0 => (24, 18),
            1 => (self.chance.below(3), self.chance.below(4200)),
            2 => (self.chance.below(4200), self.chance.below(3)),
            3 if self.chance.once_in(3) => (64, self.chance.one_of(&[63, 64, 65])),
            _ => (self.chance.below(12), self.chance.below(12)),
        };
        let total = lines * columns;
        let room = if total > 5000 { 100 } else { total };
        let (source, target) = (self.chance.length_near(room), self.chance.length_near(room));
        let source = self.chance.bytes(source);
        self.put(name, [lines as u64, columns as u64, 0], source, target, 0);
    }

    fn reed_muller(&mut self, name: &str) {
        if name == "tetra_rm3014_compute" {
            let data = self.chance.next() & if self.chance.once_in(5) { 0xffff } else { 0x3fff };
            return self.numbers(name, data, 0, 0);
        }
        let data = (self.chance.next() & 0x3fff) as u16;
        let mut word = original::lmac::components::rm3014::tetra_rm3014_compute(data) as u64;
        for _ in 0..self.chance.below(4) {
            let places = if self.chance.once_in(8) { 32 } else { 30 };
            word ^= 1 << self.chance.below(places);
        }
        self.numbers(name, word, 0, 0);
    }

    fn reorder(&mut self, name: &str) {
        let (source, target) = (self.chance.length_near(274), self.chance.length_near(274));
        let source = self.chance.bytes(source);
        self.put(name, [0; 3], source, target, 0);
    }

    fn encoder(&mut self, name: &str) {
        let rate = if name == "encode" { 4 } else { 3 };
        let n = match self.chance.below(12) {
            0 => 0,
            1 if self.chance.once_in(6) => self.chance.one_of(&[4095, 4096, 4097]),
            _ => self.chance.below(50),
        };
        let target = self.chance.length_near(rate * n);
        let mut delays = self.chance.next() & 0x0101_0101;
        if self.chance.once_in(7) {
            delays = self.chance.next() & 0xffff_ffff;
        }
        let source = self.nearly_bits(n);
        self.put(name, [delays, 0, 0], source, target, 0);
    }

    fn puncturing(&mut self, name: &str) {
        let mode = self.chance.below(9) as u64;
        let n = match self.chance.below(12) {
            0 => self.chance.one_of(&[0, 1]),
            1 => self.chance.one_of(&[292, 432, 148, 168, 162, 80, 216, 120]),
            2 if self.chance.once_in(6) => self.chance.one_of(&[4095, 4096, 4097]),
            _ => self.chance.below(150),
        };
        let needed = needed(mode, n);
        let (source, target) = if name == "get_punctured_rate" { (needed, n) } else { (n, needed) };
        let (source, target) = (self.chance.length_near(source), self.chance.length_near(target));
        let source = self.chance.bytes(source);
        self.put(name, [mode, n as u64, 0], source, target, 0);
    }

    fn compared(&mut self) {
        let n = self.chance.below(30);
        let mother = self.chance.bits(n);
        let mut other = mother.clone();
        for entry in other.iter_mut() {
            if self.chance.once_in(3) {
                *entry = 0xff;
            }
        }
        if n > 0 && self.chance.once_in(2) {
            let place = self.chance.below(n);
            other[place] = self.chance.byte();
        }
        other.truncate(self.chance.length_near(n));
        if self.chance.once_in(4) {
            let more = self.chance.below(5);
            other.extend(self.chance.bytes(more));
        }
        self.put("mother_memcmp", [n as u64, 0, 0], [mother, other].concat(), 0, 0);
    }

    fn decoder(&mut self, name: &str) {
        let rate = if name == "dec_sb1" { 4 } else { 3 };
        let n = match self.chance.below(20) {
            0 if self.chance.once_in(4) => self.chance.one_of(&[863, 864, 865]),
            1 => self.chance.one_of(&[80, 112, 144, 184, 288]),
            2 | 3 => self.chance.below(200),
            _ => self.chance.below(24),
        };
        self.decode(name, rate, n);
    }

    fn decode(&mut self, name: &str, rate: usize, n: usize) {
        let length = self.chance.length_near(rate * n);
        let mut source = self.chance.symbols(length);
        if self.chance.once_in(2) {
            let mut word = self.chance.bits(n);
            for bit in word.iter_mut().rev().take(4) {
                *bit = 0;
            }
            let encoder = if rate == 4 { "encode" } else { "encode_speech" };
            let sent = sent(encoder, [0; 3], word, rate * n);
            let damaged = self.chance.damaged(&sent);
            for (entry, symbol) in source.iter_mut().zip(damaged) {
                *entry = symbol;
            }
        }
        let (target, trellis) = (self.chance.length_near(n), self.chance.length_near(n));
        self.put(name, [n as u64, 0, 0], source, target, trellis);
    }

    fn speech_check(&mut self) {
        let (source, target) = (self.chance.length_near(60), self.chance.length_near(8));
        let source = if self.chance.once_in(3) { self.chance.bytes(source) } else { self.chance.bits(source) };
        self.put("speech_crc", [0; 3], source, target, 0);
    }

    fn send_control(&mut self) {
        let (kind, data, _, air) = self.chance.one_of(&KINDS);
        let kind = if self.chance.once_in(12) { self.chance.one_of(&[0, 5, 6, 255]) } else { kind };
        let (source, target) = (self.chance.length_near(data), self.chance.length_near(air));
        let (source, start) = (self.nearly_bits(source), self.start());
        self.put("encode_cp", [kind, start, 0], source, target, 0);
    }

    fn receive_control(&mut self) {
        let (kind, data, word, air) = self.chance.one_of(&KINDS);
        let start = self.start();
        let data = self.chance.bits(data);
        let sent = sent("encode_cp", [kind, start, 0], data, air);
        let kind = if self.chance.once_in(20) { self.chance.one_of(&[0, 5, 6, 255]) } else { kind };
        let source = self.received(sent);
        let (target, trellis) = (self.chance.length_near(word), self.chance.length_near(word));
        self.put("decode_cp", [kind, start, 0], source, target, trellis);
    }

    // What was sent, damaged or not, or something else of about its length.
    fn received(&mut self, sent: Vec<u8>) -> Vec<u8> {
        let mut air = match self.chance.below(6) {
            0 => self.chance.symbols(sent.len()),
            1 => sent,
            _ => self.chance.damaged(&sent),
        };
        let length = self.chance.length_near(air.len());
        air.resize(length, 1);
        air
    }

    fn send_speech(&mut self, name: &str) {
        let room = if name == "encode_tp" { 432 } else { 216 };
        let (source, target) = (self.chance.length_near(274), self.chance.length_near(room));
        let (source, start) = (self.nearly_bits(source), self.start());
        self.put(name, [start, 0, 0], source, target, 0);
    }

    fn receive_speech(&mut self, name: &str) {
        let start = self.start();
        let codec = self.chance.bits(274);
        let (sender, air) = if name == "decode_tp" { ("encode_tp", 432) } else { ("encode_tp_half", 216) };
        let sent = sent(sender, [start, 0, 0], codec, air);
        let source = self.received(sent);
        let (target, trellis) = (self.chance.length_near(274), self.chance.length_near(184));
        self.put(name, [start, 0, 0], source, target, trellis);
    }

    fn send_access(&mut self) {
        let (source, target) = (self.chance.length_near(14), self.chance.length_near(30));
        let (source, start) = (self.nearly_bits(source), self.start());
        self.put("encode_aach", [start, 0, 0], source, target, 0);
    }

    fn receive_access(&mut self) {
        let start = self.start();
        let data = self.chance.bits(14);
        let mut air = sent("encode_aach", [start, 0, 0], data, 30);
        for _ in 0..self.chance.below(4) {
            let place = self.chance.below(30);
            air[place] ^= 1;
        }
        if self.chance.once_in(8) {
            let place = self.chance.below(30);
            air[place] = self.chance.one_of(&[2, 0xff]);
        }
        let length = self.chance.length_near(30);
        air.resize(length, 0);
        self.put("decode_aach", [start, 0, 0], air, 0, 0);
    }

    fn by_chance(&mut self, name: &str) {
        match name {
            "crc16_itut_bits" | "crc16_itut_bytes" | "crc16_ccitt_bits" => self.crc(name),
            "tetra_scramb_get_bits" | "tetra_scramb_bits" | "tetra_descramb_bits" => self.scrambling(name),
            "tetra_scramb_get_init" => self.init(),
            "block_interleave" | "block_deinterleave" => self.block(name),
            "matrix_interleave" | "matrix_deinterleave" => self.matrix(name),
            "codec_to_channel" | "channel_to_codec" => self.reorder(name),
            "encode" | "encode_rate1_3" | "encode_speech" => self.encoder(name),
            "get_punctured_rate" | "tetra_rcpc_depunct" => self.puncturing(name),
            "mother_memcmp" => self.compared(),
            "dec_sb1" | "dec_speech" => self.decoder(name),
            "speech_crc" => self.speech_check(),
            "encode_cp" => self.send_control(),
            "decode_cp" => self.receive_control(),
            "encode_tp" | "encode_tp_half" => self.send_speech(name),
            "decode_tp" | "decode_tp_half" => self.receive_speech(name),
            "encode_aach" => self.send_access(),
            "decode_aach" => self.receive_access(),
            _ => self.reed_muller(name),
        }
    }

    // ---- every short input, and the boundaries
    fn all(&mut self) {
        self.all_registers();
        self.all_scrambling();
        self.all_interleaving();
        self.all_words();
        self.all_encoding();
        self.all_puncturing();
        self.all_comparing();
        self.all_decoding();
        self.all_chains();
        self.all_limits();
    }

    fn all_registers(&mut self) {
        for register in [0, 1, 0x8000, 0x1d0f, 0xffff] {
            for n in 0..=8 {
                for source in tuples(&[0, 1], n) {
                    for count in 0..=n as u64 + 1 {
                        self.put("crc16_itut_bits", [register, count, 0], source.clone(), 0, 0);
                    }
                }
            }
        }
        for byte in 0..=255 {
            for count in 0..=9 {
                self.put("crc16_itut_bytes", [0xffff, count, 0], vec![byte], 0, 0);
            }
            self.put("crc16_itut_bits", [0xffff, 1, 0], vec![byte], 0, 0);
            self.put("crc16_ccitt_bits", [1, 0, 0], vec![byte], 0, 0);
        }
        for place in 0..60 {
            self.put("speech_crc", [0; 3], one_at(place, 60), 8, 0);
        }
        for length in 58..=63 {
            for room in 6..=10 {
                let source = self.chance.bytes(length);
                self.put("speech_crc", [0; 3], source, room, 0);
            }
        }
    }

    fn all_scrambling(&mut self) {
        for bit in 0..32 {
            for name in ["tetra_scramb_get_bits", "tetra_scramb_bits", "tetra_descramb_bits"] {
                self.put(name, [1 << bit, 0, 0], vec![1; 100], 0, 0);
            }
        }
        for byte in 0..=255 {
            for start in [0, 0x8000_0000] {
                self.put("tetra_descramb_bits", [start, 0, 0], vec![byte], 0, 0);
                self.put("tetra_scramb_bits", [start, 0, 0], vec![byte], 0, 0);
                self.put("tetra_scramb_bits", [start, 0, 0], vec![1, 0, byte], 0, 0);
            }
        }
        for start in STARTS {
            for n in [0, 1, 7, 8, 9, 63, 64, 65, 432, 4096, 5000] {
                let lent = self.chance.bits(n);
                for name in ["tetra_scramb_get_bits", "tetra_scramb_bits", "tetra_descramb_bits"] {
                    self.put(name, [start, 0, 0], lent.clone(), 0, 0);
                }
            }
        }
        for mcc in [0, 1, 1023, 1024, 65535] {
            for mnc in [0, 1, 16383, 16384, 65535] {
                for colour in 0..256 {
                    self.numbers("tetra_scramb_get_init", mcc, mnc, colour);
                }
            }
        }
    }

    fn all_interleaving(&mut self) {
        for name in ["block_interleave", "block_deinterleave"] {
            for k in 0..=40 {
                for a in 0..=45 {
                    let source = self.chance.bytes(k);
                    self.put(name, [k as u64, a, 0], source, k + 1, 0);
                }
            }
            for k in [4094, 4095, 4096, 4097] {
                for a in [0, 1, 2, 3, 5, 4093, 65533, 65534, 65535, 65536, 1 << 32, u64::MAX] {
                    let source = self.chance.bytes(4097);
                    self.put(name, [k, a, 0], source, 4097, 0);
                }
            }
            for (k, a) in [(0, 65535), (0, 65536), (1 << 32, 1), (u64::MAX, 1), (u64::MAX, u64::MAX), (1, 65536)] {
                self.put(name, [k, a, 0], vec![7], 1, 0);
            }
            for a in [65536, 1 << 31, (1 << 32) + 1] {
                self.put(name, [3, a, 0], vec![7, 8, 9], 3, 0);
            }
            for (source, target) in [(5, 6), (6, 5), (5, 5), (0, 0), (6, 6)] {
                for a in [0, 1, 4, 5, 65536] {
                    let source = self.chance.bytes(source);
                    self.put(name, [6, a, 0], source, target, 0);
                }
            }
        }
        for name in ["matrix_interleave", "matrix_deinterleave"] {
            for lines in 0..=9 {
                for columns in 0..=9 {
                    let total: usize = lines * columns;
                    for (less, room) in [(0, 0), (0, 1), (1, 0), (1, 1)] {
                        let source = self.chance.bytes((total + 1).saturating_sub(2 * less));
                        self.put(name, [lines as u64, columns as u64, 0], source, (total + 1).saturating_sub(2 * room), 0);
                    }
                }
            }
            for (lines, columns) in [(24, 18), (18, 24), (1, 4096), (4096, 1), (64, 64), (4097, 1), (1, 4097), (64, 65)] {
                let source = self.chance.bytes(4200);
                self.put(name, [lines, columns, 0], source, 4200, 0);
            }
            for (lines, columns) in [(0, 4096), (0, 4097), (4096, 0), (4097, 0), (4096, 4096), (1 << 32, 1 << 32), (u64::MAX, 2)] {
                self.put(name, [lines, columns, 0], vec![7], 1, 0);
            }
        }
    }

    fn all_words(&mut self) {
        for data in 0..1 << 16 {
            self.numbers("tetra_rm3014_compute", data, 0, 0);
        }
        for data in [0, 1, 0x2000, 0x3fff, 0x1555, 0x2aaa] {
            let word = original::lmac::components::rm3014::tetra_rm3014_compute(data) as u64;
            for name in ["tetra_rm3014_decode_naive", "compute_syndrome", "tetra_rm3014_decode_limited_ecc"] {
                self.numbers(name, word, 0, 0);
                for p in 0..32 {
                    self.numbers(name, word ^ 1 << p, 0, 0);
                    for q in 0..p {
                        self.numbers(name, word ^ 1 << p ^ 1 << q, 0, 0);
                    }
                }
            }
        }
        for name in ["codec_to_channel", "channel_to_codec"] {
            for place in 0..274 {
                self.put(name, [0; 3], one_at(place, 274), 274, 0);
            }
            for length in [0, 1, 273, 274, 275, 300] {
                for room in [0, 273, 274, 275, 300] {
                    let source = self.chance.bytes(length);
                    self.put(name, [0; 3], source, room, 0);
                }
            }
        }
    }

    fn all_encoding(&mut self) {
        for (name, rate) in [("encode", 4), ("encode_rate1_3", 3), ("encode_speech", 3)] {
            for delays in tuples(&[0, 1], 4) {
                let delays = delays.iter().fold(0, |n, &d| n << 8 | d as u64);
                for n in 0..=7 {
                    for source in tuples(&[0, 1], n) {
                        self.put(name, [delays, 0, 0], source, rate * n, 0);
                    }
                }
            }
            for entry in 2..=255 {
                for place in 0..4 {
                    self.put(name, [entry << (8 * place), 0, 0], vec![0, 1], 2 * rate, 0);
                    self.put(name, [entry << (8 * place), 0, 0], vec![], 0, 0);
                }
                self.put(name, [0; 3], vec![0, entry as u8], 2 * rate, 0);
                self.put(name, [0x0200, 0, 0], vec![0, entry as u8], 2 * rate - 1, 0);
            }
            for n in [1, 2, 4095, 4096, 4097] {
                for room in [rate * n - 1, rate * n, rate * n + 1] {
                    let source = self.chance.bits(n);
                    self.put(name, [0x0100_0101, 0, 0], source, room, 0);
                }
            }
        }
    }

    fn all_puncturing(&mut self) {
        for name in ["get_punctured_rate", "tetra_rcpc_depunct"] {
            for mode in 0..=8 {
                for n in (0..=150).chain(285..=300).chain(425..=440).chain(4094..=4098) {
                    let needed = needed(mode, n);
                    let (source, target) = if name == "get_punctured_rate" { (needed, n) } else { (n, needed) };
                    for (more, room) in [(0, 0), (3, 5)] {
                        let source = self.chance.bytes(source + more);
                        self.put(name, [mode, n as u64, 0], source, target + room, 0);
                    }
                    if n > 0 && (n < 70 || n > 4000) {
                        let short = self.chance.bytes(source - 1);
                        let enough = self.chance.bytes(source);
                        self.put(name, [mode, n as u64, 0], short.clone(), target, 0);
                        self.put(name, [mode, n as u64, 0], enough, target - 1, 0);
                        self.put(name, [mode, n as u64, 0], short, target - 1, 0);
                    }
                }
                for n in [1 << 32, (1 << 32) + 1, u64::MAX] {
                    self.put(name, [mode, n, 0], vec![7], 1, 0);
                }
            }
        }
    }

    fn all_comparing(&mut self) {
        for n in 0..=3 {
            for m in 0..=3 {
                for mother in tuples(&[0, 1, 0xff, 2], n) {
                    for other in tuples(&[0, 1, 0xff, 2], m) {
                        self.put("mother_memcmp", [n as u64, 0, 0], [mother.clone(), other].concat(), 0, 0);
                    }
                }
            }
        }
    }

    fn all_decoding(&mut self) {
        for (name, rate) in [("dec_sb1", 4), ("dec_speech", 3)] {
            for n in 0..=1 {
                for source in tuples(&[0, 1, 0xff], rate * n) {
                    self.put(name, [n as u64, 0, 0], source, n, n);
                }
            }
            // Six steps with few known symbols: many words tie.
            for p in 0..6 * rate {
                for q in 0..=p {
                    for (x, y) in [(0, 0), (0, 1), (1, 0), (1, 1)] {
                        let mut source = vec![0xff; 6 * rate];
                        source[p] = x;
                        source[q] = y;
                        self.put(name, [6, 0, 0], source, 6, 6);
                    }
                }
            }
            for byte in 0..=255 {
                let mut source = vec![1; 5 * rate];
                source[2] = byte;
                self.put(name, [5, 0, 0], source, 5, 5);
            }
            for n in (0..=40).chain([863, 864, 865]) {
                for flavour in 0..if n < 41 { 12 } else { 4 } {
                    let source = if flavour == 0 { vec![0xff; rate * n] } else { self.chance.symbols(rate * n) };
                    self.put(name, [n as u64, 0, 0], source, n, n);
                }
                for (less, room, trellis) in [(1, 0, 0), (0, 1, 0), (0, 0, 1), (1, 1, 1)] {
                    if n > 0 {
                        let source = self.chance.symbols(rate * n - less);
                        self.put(name, [n as u64, 0, 0], source, n - room, n - trellis);
                    }
                }
            }
            for n in [1 << 32, 1 << 62, 1 << 63, u64::MAX] {
                self.put(name, [n, 0, 0], vec![0; 8], 2, 2);
            }
        }
    }

    fn all_chains(&mut self) {
        for (kind, data, word, air) in KINDS {
            for place in 0..data {
                self.put("encode_cp", [kind, 3, 0], one_at(place, data), air, 0);
            }
            for start in STARTS {
                let block = self.chance.bits(data);
                let sent = sent("encode_cp", [kind, start, 0], block.clone(), air);
                self.put("encode_cp", [kind, start, 0], block, air + 2, 0);
                for place in 0..air {
                    let mut one = sent.clone();
                    one[place] ^= if start == 3 { 1 } else { 0xfe };
                    if start == 0 || start == 3 {
                        self.put("decode_cp", [kind, start, 0], one, word, word);
                    }
                }
                self.put("decode_cp", [kind, start, 0], vec![0xff; air], word, word);
                self.put("decode_cp", [kind, start, 0], vec![0; air], word, word + 3);
                self.put("decode_cp", [kind, start, 0], vec![1; air + 3], word + 3, word);
            }
        }
        for kind in [0, 5, 6, 7, 255] {
            self.put("encode_cp", [kind, 3, 0], vec![2; 10], 0, 0);
            self.put("decode_cp", [kind, 3, 0], vec![2; 10], 0, 0);
        }
        for place in 0..274 {
            self.put("encode_tp", [0; 3], one_at(place, 274), 432, 0);
            self.put("encode_tp_half", [0; 3], one_at(place, 274), 216, 0);
        }
        for start in STARTS {
            let codec = self.chance.bits(274);
            for (sender, receiver, air) in [("encode_tp", "decode_tp", 432), ("encode_tp_half", "decode_tp_half", 216)] {
                let sent = sent(sender, [start, 0, 0], codec.clone(), air);
                for place in (0..air).step_by(if start == 3 { 1 } else { 7 }) {
                    let mut one = sent.clone();
                    one[place] ^= if place % 2 == 0 { 1 } else { 0xfe };
                    self.put(receiver, [start, 0, 0], one, 274, 184);
                }
                self.put(receiver, [start, 0, 0], vec![0xff; air], 274, 184);
                self.put(receiver, [start, 0, 0], vec![1; air + 3], 280, 190);
                for (less, room, trellis) in [(1, 0, 0), (0, 1, 0), (0, 0, 1), (1, 1, 1)] {
                    self.put(receiver, [start, 0, 0], sent[less..].to_vec(), 274 - room, 184 - trellis);
                }
            }
        }
        for data in [0, 1, 0x2000, 0x3fff, 0x1234] {
            let bits: Vec<u8> = (0..14).map(|i| (data >> (13 - i) & 1) as u8).collect();
            for start in STARTS {
                let air = sent("encode_aach", [start, 0, 0], bits.clone(), 30);
                self.put("encode_aach", [start, 0, 0], bits.clone(), 30, 0);
                for p in 0..30 {
                    for q in 0..=p {
                        let mut two = air.clone();
                        two[p] ^= 1;
                        two[q] ^= if q == p { 0 } else { 1 };
                        self.put("decode_aach", [start, 0, 0], two, 0, 0);
                    }
                }
            }
        }
        for byte in 0..=255 {
            let (mut data, mut air) = (vec![0; 14], vec![0; 30]);
            (data[3], air[7]) = (byte, byte);
            self.put("encode_aach", [3, 0, 0], data, 30, 0);
            self.put("decode_aach", [3, 0, 0], air, 0, 0);
        }
        for length in [0, 13, 14, 15, 29, 30, 31] {
            for room in [0, 29, 30, 31] {
                let source = self.chance.bits(length);
                self.put("encode_aach", [3, 0, 0], source.clone(), room, 0);
                self.put("decode_aach", [3, 0, 0], source, 0, 0);
            }
        }
    }

    // One over each limit, with little else, so that the number alone decides; and the largest multiplier.
    fn all_limits(&mut self) {
        for name in ["block_interleave", "block_deinterleave"] {
            self.put(name, [4097, 1, 0], vec![7], 1, 0);
            self.put(name, [7, 65536, 0], vec![7; 7], 7, 0);
            let source = self.chance.bytes(7);
            self.put(name, [7, 65535, 0], source, 7, 0);
        }
        for name in ["matrix_interleave", "matrix_deinterleave"] {
            for (lines, columns) in [(1, 4097), (4097, 1), (17, 241)] {
                self.put(name, [lines, columns, 0], vec![7], 1, 0);
            }
        }
        for name in ["get_punctured_rate", "tetra_rcpc_depunct"] {
            for mode in 0..=6 {
                self.put(name, [mode, 4097, 0], vec![7], 1, 0);
            }
        }
        for name in ["dec_sb1", "dec_speech"] {
            self.put(name, [865, 0, 0], vec![0; 8], 2, 2);
        }
    }
}

// k(n), by the original's own depuncturing: the place of the last entry that it writes.
fn needed(mode: u64, n: usize) -> usize {
    if mode > 6 {
        return n;
    }
    let source = (0..n).map(|j| if j + 1 == n { 1 } else { 0 }).collect();
    let request = Request { entry: number("tetra_rcpc_depunct"), numbers: [mode, n as u64, 0], source, target: 3 * n + 50, seed: 0, trellis: 0 };
    asked::answered(&request).written.len()
}

fn sent(name: &str, numbers: [u64; 3], source: Vec<u8>, air: usize) -> Vec<u8> {
    let request = Request { entry: number(name), numbers, source, target: air, seed: 0, trellis: 0 };
    let mut sent = asked::answered(&request).written;
    sent.resize(air, 0);
    sent
}

fn one_at(place: usize, n: usize) -> Vec<u8> {
    (0..n).map(|i| if i == place { 1 } else { 0 }).collect()
}

// All lists of n of the entries.
fn tuples(entries: &[u8], n: usize) -> Vec<Vec<u8>> {
    let mut lists = vec![vec![]];
    for _ in 0..n {
        lists = lists.iter().flat_map(|list| entries.iter().map(move |&e| [&list[..], &[e]].concat())).collect();
    }
    lists
}

fn main() -> io::Result<()> {
    std::panic::set_hook(Box::new(|_| {}));
    let arguments: Vec<String> = std::env::args().collect();
    let mut maker = Maker { chance: Chance(1), made: vec![] };
    let mut out = BufWriter::new(io::stdout().lock());
    match arguments.get(1).map(String::as_str) {
        Some("all") => maker.all(),
        Some("chance") => {
            maker.chance = Chance(arguments[2].parse().expect("a seed"));
            for _ in 0..arguments[3].parse().expect("a count") {
                for name in ENTRIES {
                    maker.by_chance(name);
                }
            }
        }
        _ => panic!("requests all, or requests chance SEED COUNT"),
    }
    for request in &maker.made {
        record::write(&mut out, request, &record::Reply::default())?;
    }
    // What is left in the buffer is written here, where a failure is still seen.
    out.flush()
}
