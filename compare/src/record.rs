// One request and its answer, as FORMAT.md describes them.
use std::io::{self, Read, Write};

// The names of the entries, in the order of their numbers.
include!("entries.rs");

pub const DONE: u8 = 0;
pub const GOOD: u8 = 1;
pub const BAD: u8 = 2;
pub const CLEAN: u8 = 3;
pub const MENDED: u8 = 4;
pub const BEYOND: u8 = 5;
pub const MATCHED: u8 = 6;
pub const DIFFERS: u8 = 7;
pub const REFUSED: u8 = 8;
pub const PANICKED: u8 = 9;
pub const UNASKED: u8 = 10;

pub const CASES: [&str; 11] =
    ["done", "good", "bad", "clean", "mended", "beyond", "matched", "differs", "refused", "panicked", "unasked"];

#[derive(Clone, Debug, PartialEq, Eq)]
pub struct Request {
    pub entry: u8,
    pub numbers: [u64; 3],
    pub source: Vec<u8>,
    pub target: usize,
    pub seed: u8,
    pub trellis: usize,
}

#[derive(Clone, Debug, Default, PartialEq, Eq)]
pub struct Reply {
    pub answer: u64,
    pub written: Vec<u8>,
    pub zeroed: usize,
}

pub fn pack(case: u8, value: u32, number: u8) -> u64 {
    (number as u64) << 40 | (case as u64) << 32 | value as u64
}

impl Reply {
    pub fn case(&self) -> u8 {
        (self.answer >> 32) as u8
    }
    pub fn value(&self) -> u32 {
        self.answer as u32
    }
    pub fn number(&self) -> u8 {
        (self.answer >> 40) as u8
    }
}

pub fn target_before(seed: u8, n: usize) -> Vec<u8> {
    (0..n).map(|i| ((29 * i + seed as usize) % 251 + 2) as u8).collect()
}

pub fn trellis_before(seed: u8, n: usize) -> Vec<u16> {
    (0..n).map(|i| ((257 * i + seed as usize) % 65535 + 1) as u16).collect()
}

// The scrambler's source is its target too.
pub fn is_lent(entry: u8) -> bool {
    (3..=5).contains(&entry)
}

// The answer with target and trellis as they are after.
pub fn reply(request: &Request, answer: u64, target: &[u8], trellis: &[u16]) -> Reply {
    let before = if is_lent(request.entry) { request.source.clone() } else { target_before(request.seed, request.target) };
    let mut n = before.len();
    while n > 0 && before[n - 1] == target[n - 1] {
        n -= 1;
    }
    let trellis_was = trellis_before(request.seed, request.trellis);
    let mut m = trellis_was.len();
    while m > 0 && trellis_was[m - 1] == trellis[m - 1] {
        m -= 1;
    }
    assert!(trellis[..m].iter().all(|&t| t == 0), "a used trellis entry is not zero");
    Reply { answer, written: target[..n].to_vec(), zeroed: m }
}

pub fn write(out: &mut impl Write, request: &Request, reply: &Reply) -> io::Result<()> {
    let mut head = vec![request.entry];
    head.extend(request.numbers[0].to_be_bytes());
    head.extend(request.numbers[1].to_be_bytes());
    head.extend((request.numbers[2] as u16).to_be_bytes());
    head.extend((request.source.len() as u16).to_be_bytes());
    head.extend((request.target as u16).to_be_bytes());
    head.push(request.seed);
    head.extend((request.trellis as u16).to_be_bytes());
    head.extend(reply.answer.to_be_bytes());
    head.extend((reply.written.len() as u16).to_be_bytes());
    head.extend((reply.zeroed as u16).to_be_bytes());
    out.write_all(&head)?;
    out.write_all(&request.source)?;
    out.write_all(&reply.written)
}

fn number(bytes: &[u8]) -> u64 {
    bytes.iter().fold(0, |n, &b| n << 8 | b as u64)
}

// The next record, or None at the end of the input.
pub fn read(input: &mut impl Read) -> io::Result<Option<(Request, Reply)>> {
    let mut head = [0u8; 38];
    if input.read(&mut head[..1])? == 0 {
        return Ok(None);
    }
    input.read_exact(&mut head[1..])?;
    let mut source = vec![0; number(&head[19..21]) as usize];
    let mut written = vec![0; number(&head[34..36]) as usize];
    input.read_exact(&mut source)?;
    input.read_exact(&mut written)?;
    let request = Request {
        entry: head[0],
        numbers: [number(&head[1..9]), number(&head[9..17]), number(&head[17..19])],
        source,
        target: number(&head[21..23]) as usize,
        seed: head[23],
        trellis: number(&head[24..26]) as usize,
    };
    let reply = Reply { answer: number(&head[26..34]), written, zeroed: number(&head[36..38]) as usize };
    Ok(Some((request, reply)))
}

fn hex(bytes: &[u8]) -> String {
    if bytes.is_empty() {
        return "-".to_string();
    }
    bytes.iter().map(|b| format!("{:02x}", b)).collect()
}

pub fn show_request(r: &Request) -> String {
    format!(
        "{} {} {} {} source[{}] {} target {} seed {} trellis {}",
        ENTRIES[r.entry as usize],
        r.numbers[0],
        r.numbers[1],
        r.numbers[2],
        r.source.len(),
        hex(&r.source),
        r.target,
        r.seed,
        r.trellis
    )
}

pub fn show_reply(r: &Reply) -> String {
    format!(
        "{} {} {:#x} written[{}] {} zeroed {}",
        CASES[r.case() as usize],
        r.number(),
        r.value(),
        r.written.len(),
        hex(&r.written),
        r.zeroed
    )
}
