// How an answer stands to the original's and to the refusals of document 01.
use due::KINDS;
use record::{pack, Reply, Request, ENTRIES, PANICKED, REFUSED, UNASKED};

pub const DIFFERENT: &str = "DIFFERENT";

// What the original answers to a request, and what it answers to the part of it that document 01 reads.
pub struct Original {
    pub asked: Reply,
    pub read: Reply,
}

fn how(original: &Reply) -> &'static str {
    match original.case() {
        PANICKED => "the original panics",
        UNASKED => "the original has no such input",
        _ => "the original answers",
    }
}

fn due_to(r: &Request) -> u8 {
    due::due(ENTRIES[r.entry as usize], r.numbers, &r.source, r.target, r.trellis)
}

// A refusal says its number and nothing else; an encoder hands its delays back.
fn refusal(r: &Request, number: u8) -> Reply {
    let delays = if (17..=19).contains(&r.entry) { r.numbers[0] as u32 } else { 0 };
    Reply { answer: pack(REFUSED, delays, number), ..Reply::default() }
}

// Where document 01 accepts what the original does not take, or reads it otherwise.
fn intended(r: &Request, original: &Reply) -> Option<&'static str> {
    let panics = original.case() == PANICKED;
    let surplus = |n: usize| r.source.len() > n;
    match ENTRIES[r.entry as usize] {
        "tetra_descramb_bits" if panics && r.source.iter().any(|&s| s > 1) => Some("a symbol that is no bit: the original panics"),
        "encode_cp" if panics && surplus(KINDS[r.numbers[0] as usize - 1].0) => Some("surplus entries: the original panics"),
        "encode_aach" if panics && surplus(14) => Some("surplus entries: the original panics"),
        "decode_aach" if panics && surplus(30) => Some("surplus entries: the original panics"),
        "encode_tp" | "encode_tp_half" if panics && r.source[274..].iter().any(|&s| s > 1) => {
            Some("surplus entries that are no bits: the original panics")
        }
        "speech_crc" if surplus(60) => Some("surplus entries: the original's parity counts them"),
        _ => None,
    }
}

// DIFFERENT and how, or the name under which the answer is as it should be.
pub fn verdict(r: &Request, original: &Original, other: &Reply) -> String {
    let due = due_to(r);
    let given = if other.case() == REFUSED { other.number() } else { 0 };
    if given != due {
        let told = |number: u8| if number == 0 { "none".to_string() } else { format!("{number} {}", due::name(number)) };
        return format!("{DIFFERENT}: refusal due {}, given {}", told(due), told(given));
    }
    if due != 0 {
        if *other != refusal(r, due) {
            return format!("{DIFFERENT}: a refusal that says or writes more than its number");
        }
        return format!("{}: {}", due::name(due), how(&original.asked));
    }
    if *other != original.read {
        return DIFFERENT.to_string();
    }
    if *other == original.asked {
        return "equal".to_string();
    }
    intended(r, &original.asked).unwrap_or(DIFFERENT).to_string()
}
