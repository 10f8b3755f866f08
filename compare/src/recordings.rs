// `recordings SEED COUNT` writes a recording of that many records by chance, damaged or not, that ends whole, in an unknown
// kind or in a cut body.
#[allow(dead_code)]
mod asked;
#[allow(dead_code)]
mod chance;

use chance::Chance;
use record::{Request, ENTRIES};
use std::io::{self, Write};

// Kind, sender, bits that are sent, symbols on the air.
const KINDS: [(u8, &str, usize, usize); 7] = [
    (1, "encode_cp", 60, 120),
    (2, "encode_cp", 92, 168),
    (3, "encode_cp", 124, 216),
    (4, "encode_cp", 268, 432),
    (5, "encode_aach", 14, 30),
    (6, "encode_tp", 274, 432),
    (7, "encode_tp_half", 274, 216),
];

fn body(chance: &mut Chance, kind: (u8, &str, usize, usize)) -> Vec<u8> {
    let (number, sender, data, air) = kind;
    let start = if chance.once_in(2) { chance.one_of(&[0, 3, 0xffff_ffff]) } else { chance.next() as u32 };
    let entry = ENTRIES.iter().position(|&name| name == sender).expect("an entry") as u8;
    let numbers = if sender == "encode_cp" { [number as u64, start as u64, 0] } else { [start as u64, 0, 0] };
    let request = Request { entry, numbers, source: chance.bits(data), target: air, seed: 0, trellis: 0 };
    let mut sent = asked::answered(&request).written;
    sent.resize(air, 0);
    let symbols = match chance.below(6) {
        0 => chance.symbols(air),
        1 => sent,
        // An access field with an erasure is refused: most of them are turned over only.
        _ if number == 5 => sent.iter().map(|&bit| bit ^ chance.once_in(15) as u8).collect(),
        _ => chance.damaged(&sent),
    };
    [start.to_be_bytes().to_vec(), symbols].concat()
}

fn main() -> io::Result<()> {
    std::panic::set_hook(Box::new(|_| {}));
    let arguments: Vec<String> = std::env::args().collect();
    let mut chance = Chance(arguments[1].parse().expect("a seed"));
    let mut recording = vec![];
    for _ in 0..arguments[2].parse().expect("a count") {
        let kind = chance.one_of(&KINDS);
        recording.push(kind.0);
        recording.extend(body(&mut chance, kind));
    }
    match chance.below(4) {
        0 => recording.extend([chance.one_of(&[0, 8, 0x7f, 0xff]), 1, 2, 3]),
        1 => {
            let kept = recording.len() - chance.below(recording.len().min(200));
            recording.truncate(kept);
        }
        2 => recording.push(chance.one_of(&KINDS).0),
        _ => {}
    }
    io::stdout().write_all(&recording)
}
