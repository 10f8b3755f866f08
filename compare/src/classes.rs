// The classes of answers that the stored list must hold. A proof ties code to definitions; a number that stands in one table
// alone (a kind's a, the 24 by 18 of a speech slot, what a second half lacks, a mode's P, the scrambler's taps) is tied down by
// answers of the original that depend on it.
use record::*;

pub struct Class {
    pub entry: &'static str,
    pub name: String,
    holds: Box<dyn Fn(&Request, &Reply) -> bool>,
}

impl Class {
    pub fn holds(&self, request: &Request, reply: &Reply) -> bool {
        ENTRIES[request.entry as usize] == self.entry && (self.holds)(request, reply)
    }
}

fn both_bits(entries: &[u8]) -> bool {
    entries.contains(&0) && entries.contains(&1)
}

fn only_bits(entries: &[u8]) -> bool {
    entries.iter().all(|&entry| entry < 2)
}

#[derive(Default)]
struct Required(Vec<Class>);

impl Required {
    fn add(&mut self, entry: &'static str, name: &str, holds: impl Fn(&Request, &Reply) -> bool + 'static) {
        self.0.push(Class { entry, name: name.to_string(), holds: Box::new(holds) });
    }

    fn refusals(&mut self) {
        for entry in ENTRIES {
            for &number in due::possible(entry) {
                let holds = move |_: &Request, reply: &Reply| reply.case() == REFUSED && reply.number() == number;
                self.add(entry, &format!("refusal {number} {}", due::name(number)), holds);
            }
        }
    }

    // An accepted send of both bits with a scrambling that does something.
    fn sending(&mut self, entry: &'static str, of: &str, asked: impl Fn(&Request) -> Option<u64> + 'static) {
        let holds = move |r: &Request, reply: &Reply| {
            asked(r).is_some_and(|start| start != 0) && reply.case() == DONE && both_bits(&r.source)
        };
        self.add(entry, &format!("{of}sent"), holds);
    }

    // Received whole, with errors, with erasures, and beyond mending.
    fn receiving(&mut self, entry: &'static str, of: &str, asked: impl Fn(&Request) -> Option<u64> + Copy + 'static) {
        let telling = move |r: &Request, reply: &Reply, case: u8| {
            asked(r).is_some_and(|start| start != 0) && reply.case() == case && both_bits(&reply.written)
        };
        self.add(entry, &format!("{of}Good, nothing wrong"), move |r, reply| {
            telling(r, reply, GOOD) && reply.value() == 0 && only_bits(&r.source) && both_bits(&r.source)
        });
        self.add(entry, &format!("{of}Good, with disagreements"), move |r, reply| telling(r, reply, GOOD) && reply.value() > 0);
        self.add(entry, &format!("{of}Good, with erasures"), move |r, reply| {
            telling(r, reply, GOOD) && !only_bits(&r.source) && both_bits(&r.source)
        });
        self.add(entry, &format!("{of}Bad"), move |r, reply| telling(r, reply, BAD));
    }

    fn chains(&mut self) {
        for kind in 1..=4 {
            let start = move |r: &Request| (r.numbers[0] == kind).then_some(r.numbers[1]);
            self.sending("encode_cp", &format!("kind {kind} "), start);
            self.receiving("decode_cp", &format!("kind {kind} "), start);
        }
        let start = |r: &Request| Some(r.numbers[0]);
        for entry in ["encode_tp", "encode_tp_half", "encode_aach"] {
            self.sending(entry, "", start);
        }
        for entry in ["decode_tp", "decode_tp_half"] {
            self.receiving(entry, "", start);
        }
        for case in [CLEAN, MENDED, BEYOND] {
            self.add("decode_aach", CASES[case as usize], move |r, reply| r.numbers[0] != 0 && reply.case() == case);
            self.add("tetra_rm3014_decode_limited_ecc", CASES[case as usize], move |_, reply| reply.case() == case);
        }
    }

    // Enough entries for two periods and more, and for two skips where a mode skips, or the lack of one where it does not.
    fn modes(&mut self) {
        for (mode, enough) in [66, 66, 131, 71, 66, 66, 66].into_iter().enumerate() {
            for entry in ["get_punctured_rate", "tetra_rcpc_depunct"] {
                let holds = move |r: &Request, reply: &Reply| {
                    reply.case() == DONE && r.numbers[0] == mode as u64 && r.numbers[1] >= enough
                };
                self.add(entry, &format!("mode {mode}, {enough} entries or more"), holds);
            }
        }
    }

    // One over each limit, and the largest multiplier.
    fn limits(&mut self) {
        let limit = |reply: &Reply| reply.case() == REFUSED && reply.number() == due::LIMIT;
        for entry in ["block_interleave", "block_deinterleave"] {
            self.add(entry, "k 4,097", move |r, reply| limit(reply) && r.numbers[0] == 4097 && r.numbers[1] < 65536);
            self.add(entry, "a 65,536", move |r, reply| limit(reply) && r.numbers[0] < 4097 && r.numbers[1] == 65536);
            self.add(entry, "a 65,535", |r, reply| reply.case() == DONE && r.numbers[0] > 1 && r.numbers[1] == 65535);
        }
        for entry in ["matrix_interleave", "matrix_deinterleave"] {
            self.add(entry, "4,097 entries", move |r, reply| limit(reply) && r.numbers[0].checked_mul(r.numbers[1]) == Some(4097));
        }
        for entry in ["get_punctured_rate", "tetra_rcpc_depunct"] {
            self.add(entry, "4,097 entries", move |r, reply| limit(reply) && r.numbers[1] == 4097);
        }
        for entry in ["encode", "encode_rate1_3", "encode_speech"] {
            self.add(entry, "4,097 entries", move |r, reply| limit(reply) && r.source.len() == 4097);
        }
        for entry in ["dec_sb1", "dec_speech"] {
            self.add(entry, "865 steps", move |r, reply| limit(reply) && r.numbers[0] == 865);
        }
    }

    fn parts(&mut self) {
        // 64 outputs depend on every tap.
        for entry in ["tetra_scramb_get_bits", "tetra_scramb_bits", "tetra_descramb_bits"] {
            self.add(entry, "64 entries or more", |r, reply| reply.case() == DONE && r.numbers[0] != 0 && r.source.len() >= 64);
        }
        self.add("tetra_scramb_get_init", "three fields", |r, reply| {
            reply.case() == DONE && r.numbers.iter().all(|&field| field > 0)
        });
        self.add("tetra_scramb_get_init", "colour 0", |r, reply| reply.case() == DONE && r.numbers[0] > 0 && r.numbers[2] == 0);
        for entry in ["block_interleave", "block_deinterleave"] {
            self.add(entry, "moved", |r, reply| reply.case() == DONE && r.numbers[0] > 4 && r.numbers[1] > 1);
        }
        for entry in ["matrix_interleave", "matrix_deinterleave"] {
            self.add(entry, "turned", |r, reply| reply.case() == DONE && r.numbers[0] > 1 && r.numbers[1] > r.numbers[0]);
        }
        for bit in 0..14 {
            self.add("tetra_rm3014_compute", &format!("data bit {bit}"), move |r, _| r.numbers[0] == 1 << bit);
        }
        for entry in ["tetra_rm3014_decode_naive", "compute_syndrome"] {
            self.add(entry, "a word", |r, reply| reply.case() == DONE && r.numbers[0] > 0xffff);
        }
        for entry in ["codec_to_channel", "channel_to_codec", "speech_crc"] {
            self.add(entry, "done", |_, reply| reply.case() == DONE);
        }
        for entry in ["encode", "encode_rate1_3", "encode_speech"] {
            self.add(entry, "from delays", |r, reply| {
                reply.case() == DONE && r.numbers[0] > 0 && r.source.len() > 4 && both_bits(&r.source)
            });
        }
        for case in [MATCHED, DIFFERS] {
            self.add("mother_memcmp", CASES[case as usize], move |r, reply| reply.case() == case && r.numbers[0] > 0);
        }
        for entry in ["dec_sb1", "dec_speech"] {
            self.add(entry, "864 steps", |r, reply| reply.case() == DONE && r.numbers[0] == 864);
        }
        for entry in ["crc16_itut_bits", "crc16_itut_bytes"] {
            self.add(entry, "17 bits or more", |r, reply| reply.case() == DONE && r.numbers[1] > 16 && r.source.len() > 16);
        }
        self.add("crc16_ccitt_bits", "17 bits or more", |r, reply| {
            reply.case() == DONE && r.numbers[0] > 16 && r.source.len() > 16
        });
    }
}

pub fn required() -> Vec<Class> {
    let mut required = Required::default();
    required.parts();
    required.limits();
    required.modes();
    required.chains();
    required.refusals();
    required.0
}
