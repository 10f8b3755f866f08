// What the proved entries answer to a request, through the static library.
use calls::{call, Answer};
use record::*;

#[path = "calls.rs"]
mod calls;

// A call's number and answer in the form of compare/FORMAT.md. Of value and disagreements one is always 0.
fn packed(number: u8, said: Answer, delays: u32) -> u64 {
    if number != 0 {
        return pack(REFUSED, delays, number);
    }
    pack(said.verdict as u8, (said.value + said.disagreements) as u32, said.place as u8)
}

// The delays of a refused encoder stay; no other entry has any.
fn delays(name: &str, first: u64) -> u32 {
    if matches!(name, "encode" | "encode_rate1_3" | "encode_speech") {
        return first as u32;
    }
    0
}

pub fn answered(r: &Request) -> Reply {
    let name = ENTRIES[r.entry as usize];
    let mut target = if is_lent(r.entry) { r.source.clone() } else { target_before(r.seed, r.target) };
    let mut trellis = trellis_before(r.seed, r.trellis);
    let mut said = Answer::default();
    let number = call(name, r.numbers, &r.source, &mut target, &mut trellis, &mut said);
    reply(r, packed(number, said, delays(name, r.numbers[0])), &target, &trellis)
}
