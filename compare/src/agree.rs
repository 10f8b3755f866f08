// Holds answers against the original's: `agree REQUESTS ORIGINAL READ OTHER [--examples]`. READ is what the original answers to
// the part of each request that document 01 reads. A refusal must be the one that document 01 gives (due.rs), and what document
// 01 accepts although the original does not is counted by name; nothing else may differ, and every request must be answered.
// With `--examples` the smallest input of each name is shown.
mod verdict;

use record::{show_reply, show_request, Reply, Request, ENTRIES};
use std::collections::BTreeMap;
use std::fs::File;
use std::io::{self, BufReader};
use std::process::exit;
use verdict::{verdict, Original, DIFFERENT};

fn fail(reason: &str) -> ! {
    println!("{reason}");
    exit(1)
}

// The next answer of a file, which must be to this request.
fn next(file: &mut BufReader<File>, name: &str, request: &Request) -> io::Result<Reply> {
    match record::read(file)? {
        None => fail(&format!("{name} has fewer answers than there are requests")),
        Some((same, _)) if same != *request => fail(&format!("{name} answers other requests")),
        Some((_, reply)) => Ok(reply),
    }
}

// How large an input is, for the smallest example.
fn size(r: &Request) -> u128 {
    let numbers: u128 = r.numbers.iter().map(|&n| n as u128).sum();
    ((r.source.len() + r.target + r.trellis) as u128) << 70 | numbers
}

fn main() -> io::Result<()> {
    let arguments: Vec<String> = std::env::args().skip(1).collect();
    let [requests, answers @ ..] = &arguments[..] else { fail("agree REQUESTS ORIGINAL READ OTHER [--examples]") };
    let mut requests = BufReader::new(File::open(requests)?);
    let mut files = vec![];
    for name in answers.iter().take(3) {
        files.push((name, BufReader::new(File::open(name)?)));
    }
    let examples = answers.iter().skip(3).any(|a| a == "--examples");
    let mut counts: BTreeMap<(u8, String), (usize, Request, Reply, Reply)> = BTreeMap::new();
    while let Some((request, _)) = record::read(&mut requests)? {
        let mut replies = vec![];
        for (name, file) in &mut files {
            replies.push(next(file, name, &request)?);
        }
        let Ok([asked, read, other]) = <[Reply; 3]>::try_from(replies) else { fail("three files of answers are needed") };
        let original = Original { asked, read };
        let verdict = verdict(&request, &original, &other);
        let held = counts.entry((request.entry, verdict)).or_insert((0, request.clone(), original.asked.clone(), other.clone()));
        held.0 += 1;
        if size(&request) < size(&held.1) {
            (held.1, held.2, held.3) = (request, original.asked, other);
        }
    }
    for (name, file) in &mut files {
        if record::read(file)?.is_some() {
            fail(&format!("{name} has more answers than there are requests"));
        }
    }
    let differs = |verdict: &str| verdict.starts_with(DIFFERENT);
    for ((entry, verdict), (count, request, original, other)) in &counts {
        println!("{:32} {:9} {}", ENTRIES[*entry as usize], count, verdict);
        if differs(verdict) || examples && verdict != "equal" {
            println!("    {}", show_request(request));
            println!("    original: {}", show_reply(original));
            println!("    other:    {}", show_reply(other));
        }
    }
    if let Some(entry) = (0..ENTRIES.len()).find(|&entry| !counts.keys().any(|key| key.0 as usize == entry)) {
        fail(&format!("{} was never asked", ENTRIES[entry]));
    }
    let sum = |of: &dyn Fn(&str) -> bool| counts.iter().filter(|((_, v), _)| of(v)).map(|(_, c)| c.0).sum::<usize>();
    let different = sum(&differs);
    println!("{} requests, {} equal, {} different", sum(&|_| true), sum(&|v| v == "equal"), different);
    exit(if different == 0 { 0 } else { 1 })
}
