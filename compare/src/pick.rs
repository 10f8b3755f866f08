// `pick REQUESTS ORIGINAL READ INDEPENDENT LIST SAID` writes a list of answered requests from files that agree: one of every class
// that the list must hold (classes.rs), then a few of every way in which each entry can answer; and what `replay` says of it when
// all is equal. An answer is the original's wherever it has one that stands. `pick --check LIST` looks whether a list holds every
// class. Both end with 1 and name the class if one is missing.
#[allow(dead_code)]
mod chance;
mod classes;
mod verdict;

use chance::Chance;
use classes::{required, Class};
use record::{Reply, Request, ENTRIES, REFUSED};
use std::collections::BTreeMap;
use std::fs::File;
use std::io::{self, BufReader, BufWriter, Write};
use std::process::exit;
use verdict::{verdict, Original, DIFFERENT};

type Answered = (Request, Reply);
// How an entry answers: the verdict, the case, and for an accepted block or puncturing its kind or mode.
type Way = (String, u8, u64);

fn size((request, reply): &Answered) -> usize {
    38 + request.source.len() + reply.written.len()
}

// Bytes of the list that an entry may take, and of one of its records.
fn room(name: &str) -> (usize, usize) {
    match name {
        "dec_sb1" | "dec_speech" => (16000, 1000),
        "encode_cp" | "decode_cp" | "encode_tp" | "encode_tp_half" | "decode_tp" | "decode_tp_half" => (15000, 800),
        "codec_to_channel" | "channel_to_codec" => (8000, 600),
        "encode" | "encode_rate1_3" | "encode_speech" => (6000, 500),
        "get_punctured_rate" | "tetra_rcpc_depunct" => (9000, 500),
        _ => (5200, 500),
    }
}

// Refusals of one kind that are enough.
const REFUSALS: usize = 6;

// The program `replay` reads no more than this.
const MOST: usize = 393216;

fn fail(reason: String) -> ! {
    eprintln!("pick: {reason}");
    exit(1)
}

fn way(verdict: String, request: &Request, reply: &Reply) -> Way {
    let by_number = ["get_punctured_rate", "tetra_rcpc_depunct", "encode_cp", "decode_cp"].contains(&ENTRIES[request.entry as usize]);
    let number = if by_number && reply.case() != REFUSED { request.numbers[0] } else { 0 };
    (verdict, reply.case(), number)
}

// Every request with the independent program's answer, by entry and way.
fn gathered(files: &[String]) -> io::Result<BTreeMap<u8, BTreeMap<Way, Vec<Answered>>>> {
    let mut inputs = vec![];
    for file in files {
        inputs.push(BufReader::new(File::open(file)?));
    }
    let mut ways: BTreeMap<u8, BTreeMap<Way, Vec<Answered>>> = BTreeMap::new();
    while let Some((request, _)) = record::read(&mut inputs[0])? {
        let mut replies = vec![];
        for input in &mut inputs[1..] {
            match record::read(input)? {
                Some((same, reply)) if same == request => replies.push(reply),
                _ => fail("the files do not answer the same requests".to_string()),
            }
        }
        let Ok([asked, read, independent]) = <[Reply; 3]>::try_from(replies) else { fail("four files are needed".to_string()) };
        let verdict = verdict(&request, &Original { asked, read }, &independent);
        if verdict.starts_with(DIFFERENT) {
            fail(format!("the original and the independent program do not agree: {}", record::show_request(&request)));
        }
        let name = ENTRIES[request.entry as usize];
        if independent.case() == REFUSED && !due::possible(name).contains(&independent.number()) {
            fail(format!("due::possible does not name refusal {} of {name}", independent.number()));
        }
        let way = way(verdict, &request, &independent);
        ways.entry(request.entry).or_default().entry(way).or_default().push((request, independent));
    }
    Ok(ways)
}

// Takes one record of each class out of the ways: a short one where there is one, else the shortest.
fn of_classes(classes: &[Class], most: usize, ways: &mut BTreeMap<Way, Vec<Answered>>) -> Vec<Answered> {
    let mut picked: Vec<Answered> = vec![];
    for class in classes {
        if picked.iter().any(|(request, reply)| class.holds(request, reply)) {
            continue;
        }
        let fitting = ways.iter().flat_map(|(way, held)| held.iter().enumerate().map(move |(at, answered)| (way, at, answered)));
        let fitting = fitting.filter(|(_, _, (request, reply))| class.holds(request, reply));
        let first = fitting.min_by_key(|(_, _, answered)| if size(answered) > most { size(answered) } else { 0 });
        if let Some((way, at, _)) = first {
            let way = way.clone();
            picked.push(ways.get_mut(&way).expect("a way that was just seen").remove(at));
        }
    }
    picked
}

// A way that only long inputs show has its shortest one; a decoder also its longest.
fn of_lengths(most: usize, ways: &BTreeMap<Way, Vec<Answered>>) -> Vec<Answered> {
    let mut picked = vec![];
    for held in ways.values() {
        picked.extend(held.iter().min_by_key(|answered| size(answered)).filter(|a| size(a) > most && size(a) < 5000).cloned());
        picked.extend(held.iter().max_by_key(|(_, reply)| reply.zeroed).filter(|(_, reply)| reply.zeroed > 400).cloned());
    }
    picked
}

// Some of every way in turn, until the entry's room is full.
fn of_turns(mut left: usize, most: usize, ways: &BTreeMap<Way, Vec<Answered>>) -> Vec<Answered> {
    let mut picked = vec![];
    for turn in 0..ways.values().map(Vec::len).max().unwrap_or(0) {
        for answered in ways.values().filter_map(|held| held.get(turn)) {
            let enough = answered.1.case() == REFUSED && turn >= REFUSALS;
            if !enough && size(answered) <= left.min(most) {
                left -= size(answered);
                picked.push(answered.clone());
            }
        }
    }
    picked
}

fn write_list(files: &[String], list: &str, said: &str) -> io::Result<()> {
    let classes = required();
    let mut chance = Chance(7);
    let mut out = BufWriter::new(File::create(list)?);
    let mut records = 0;
    for (entry, mut ways) in gathered(files)? {
        let name = ENTRIES[entry as usize];
        let (left, most) = room(name);
        for held in ways.values_mut() {
            held.sort_by_cached_key(|_| chance.next());
            held.sort_by_key(|answered| size(answered) > most);
        }
        let mut picked = of_classes(&classes, most, &mut ways);
        let taken: usize = picked.iter().map(size).filter(|&bytes| bytes <= most).sum();
        picked.extend(of_lengths(most, &ways));
        picked.extend(of_turns(left.saturating_sub(taken), most, &ways));
        for (request, reply) in &picked {
            record::write(&mut out, request, reply)?;
        }
        records += picked.len();
    }
    writeln!(File::create(said)?, "{records} equal")?;
    out.flush()
}

// Whether the list holds every class and is no longer than the program reads.
fn check(list: &str) -> io::Result<()> {
    let mut classes = required();
    let all = classes.len();
    let mut input = BufReader::new(File::open(list)?);
    let (mut records, mut bytes) = (0, 0);
    while let Some(answered) = record::read(&mut input)? {
        classes.retain(|class| !class.holds(&answered.0, &answered.1));
        records += 1;
        bytes += size(&answered);
    }
    for class in &classes {
        eprintln!("pick: {list} holds no answer of the class: {} {}", class.entry, class.name);
    }
    if !classes.is_empty() {
        exit(1);
    }
    if bytes >= MOST {
        fail(format!("{list} has {bytes} bytes, and replay reads fewer than {MOST}"));
    }
    println!("{list}: {records} answers, {bytes} bytes, all {all} classes");
    Ok(())
}

fn main() -> io::Result<()> {
    let words: Vec<String> = std::env::args().skip(1).collect();
    match &words[..] {
        [word, list] if word == "--check" => check(list),
        [files @ .., list, said] if files.len() == 4 => {
            write_list(files, list, said)?;
            check(list)
        }
        _ => fail("pick REQUESTS ORIGINAL READ INDEPENDENT LIST SAID, or pick --check LIST".to_string()),
    }
}
