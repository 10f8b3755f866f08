// Old and new side by side: reads a recording, asks the original and ours about each record, and prints a line only where they
// differ or a record is refused. help.txt says how it is called and how it ends.
mod feed;
mod old;
mod ours;
mod page;

use caplattice::Refusal;
use feed::Feed;
use std::collections::BTreeMap;
use std::fmt;
use std::fs::File;
use std::io::{self, IsTerminal, Read, Write};
use std::path::Path;
use std::process::exit;
use std::time::{Duration, Instant, SystemTime};

pub const KINDS: usize = 7;
pub const NAMES: [&str; KINDS + 1] = ["", "BSCH", "SCH/HU", "SCH/HD", "SCH/F", "AACH", "speech", "second half"];
const SYMBOLS: [usize; KINDS + 1] = [0, 120, 168, 216, 432, 30, 432, 216];

// Names of docs/DIFFERENCES.md.
const ACCESS_FIELD: &str = "The access field";
const SYNCHRONISATION: &str = "Control block received on the synchronisation burst";

// How many lines of a sort the page keeps, and how often it is written anew.
const KEPT_LINES: usize = 500;
const PAGE_EVERY: Duration = Duration::from_secs(30);
const COUNT_EVERY: Duration = Duration::from_millis(500);
// Goes back to the left of a terminal's line and empties it.
const WIPE: &[u8] = b"\r\x1b[K";

pub struct Record {
    pub kind: u8,
    pub start: u32,
    pub symbols: Vec<u8>,
}

#[derive(PartialEq, Eq)]
pub enum Answer {
    Block {
        good: bool,
        disagreements: usize,
        bits: Vec<u8>,
    },
    Field {
        verdict: &'static str,
        place: u8,
        data: u16,
    },
    Refused(Refusal),
}

fn hex(bits: &[u8]) -> String {
    bits.chunks(8)
        .map(|byte| {
            format!(
                "{:02x}",
                byte.iter().enumerate().fold(0, |all, (i, bit)| all | bit << (7 - i))
            )
        })
        .collect()
}

fn check(good: bool) -> &'static str {
    if good {
        "good"
    } else {
        "bad"
    }
}

impl fmt::Display for Answer {
    fn fmt(&self, f: &mut fmt::Formatter<'_>) -> fmt::Result {
        match self {
            Answer::Block {
                good,
                disagreements,
                bits,
            } => write!(f, "{} {disagreements} {}", check(*good), hex(bits)),
            Answer::Field { verdict, place, data } => write!(f, "{verdict} {place} {data:04x}"),
            Answer::Refused(refusal) => write!(f, "refused {} {}", refusal.number(), refusal.name()),
        }
    }
}

// What one of the two says of a record: as the line prints it, and for the page its data and what it says of them.
pub struct Told {
    pub line: String,
    pub data: String,
    pub says: String,
}

// What both say of a record.
pub struct Both {
    pub old: Told,
    pub ours: Told,
}

enum Finding {
    Equal,
    Different(Both),
    Intended(&'static str, Both),
    // Equal to the original's parts where it has no chain for such a record; and why it has none.
    Apart(&'static str),
    // The refusal that document 01 gives, by its number.
    Refused(u8, Both),
}

// The original's own chain against ours, in what it says: data and check.
fn agrees(chain: &(Vec<u8>, Option<bool>), ours: &Answer) -> bool {
    match ours {
        Answer::Block { good, bits, .. } => bits.get(..chain.0.len()) == Some(&chain.0[..]) && chain.1 == Some(*good),
        Answer::Field { data, .. } => chain.0.iter().fold(0, |all, &bit| all << 1 | u16::from(bit)) == *data,
        Answer::Refused(_) => false,
    }
}

fn no_data(says: &str) -> Told {
    Told {
        line: says.to_string(),
        data: String::new(),
        says: says.to_string(),
    }
}

fn panics() -> Told {
    no_data("panics")
}

fn told(chain: &Option<(Vec<u8>, Option<bool>)>) -> Told {
    match chain {
        None => panics(),
        Some((data, None)) => {
            let data = format!("{:04x}", data.iter().fold(0, |all, &bit| all << 1 | u16::from(bit)));
            Told {
                line: data.clone(),
                data,
                says: "no verdict".to_string(),
            }
        }
        Some((data, Some(good))) => Told {
            line: format!("{} {}", check(*good), hex(data)),
            data: hex(data),
            says: check(*good).to_string(),
        },
    }
}

impl Answer {
    // The page shows no more bits than the other side gives.
    fn told(&self, bits_of_the_other: usize) -> Told {
        let (data, says) = match self {
            Answer::Block {
                good,
                disagreements,
                bits,
            } => (
                hex(&bits[..bits.len().min(bits_of_the_other)]),
                format!("{}, disagreements: {disagreements}", check(*good)),
            ),
            Answer::Field {
                verdict: "mended",
                place,
                data,
            } => (format!("{data:04x}"), format!("mended, place {place}")),
            Answer::Field { verdict, data, .. } => (format!("{data:04x}"), verdict.to_string()),
            Answer::Refused(_) => (String::new(), self.to_string()),
        };
        Told {
            line: self.to_string(),
            data,
            says,
        }
    }
}

// The refusal that document 01 gives for a record, or 0.
fn due_to(r: &Record) -> u8 {
    let start = u64::from(r.start);
    match r.kind {
        5 => due::due("decode_aach", [start, 0, 0], &r.symbols, 0, 0),
        6 => due::due("decode_tp", [start, 0, 0], &r.symbols, 274, 184),
        7 => due::due("decode_tp_half", [start, 0, 0], &r.symbols, 274, 184),
        kind => due::due("decode_cp", [u64::from(kind), start, 0], &r.symbols, 288, 288),
    }
}

// Ours against document 01 where one of the two refuses.
fn refusal(r: &Record, ours: &Answer) -> Option<Finding> {
    let due = due_to(r);
    let given = match ours {
        Answer::Refused(refusal) => refusal.number(),
        _ => 0,
    };
    if due == 0 && given == 0 {
        return None;
    }
    let old = if r.kind == 7 {
        no_data("has no such chain")
    } else {
        told(&old::chain(r, false))
    };
    let mut ours = ours.told(usize::MAX);
    if given == due {
        return Some(Finding::Refused(due, Both { old, ours }));
    }
    let owed = match due {
        0 => " (no refusal is due)".to_string(),
        number => format!(" (refusal {number} {} is due)", due::name(number)),
    };
    ours.line += &owed;
    ours.says += &owed;
    Some(Finding::Different(Both { old, ours }))
}

fn compared(r: &Record, ours: &Answer) -> Finding {
    if let Some(finding) = refusal(r, ours) {
        return finding;
    }
    let bits_only = r.symbols.iter().all(|&symbol| symbol < 2);
    // What the original's chain does not say at all is held against its parts.
    let parts = old::parts(r);
    if parts.as_ref() != Some(ours) {
        let mut old = parts.map_or_else(panics, |answer| answer.told(usize::MAX));
        old.line = format!("(its parts) {}", old.line);
        old.says += " (its parts)";
        let ours = ours.told(usize::MAX);
        return Finding::Different(Both { old, ours });
    }
    if r.kind == 7 {
        return Finding::Apart("second half");
    }
    if !bits_only {
        return Finding::Apart("erasures");
    }
    // The original takes every BSCH block to come from the synchronisation burst.
    let chain = old::chain(r, r.kind == 1);
    let both = || Both {
        old: told(&chain),
        ours: ours.told(chain.as_ref().map_or(usize::MAX, |chain| chain.0.len())),
    };
    if chain.as_ref().is_some_and(|chain| agrees(chain, ours)) {
        return match ours {
            Answer::Field { verdict: "beyond", .. } => Finding::Intended(ACCESS_FIELD, both()),
            _ => Finding::Equal,
        };
    }
    if r.kind == 1 && r.start != 3 && old::chain(r, false).is_some_and(|chain| agrees(&chain, ours)) {
        return Finding::Intended(SYNCHRONISATION, both());
    }
    Finding::Different(both())
}

// Which record a line is about: its number from 1, its kind, and the place of its first byte in the recording.
#[derive(Clone, Copy)]
pub struct Head {
    pub number: u64,
    pub kind: u8,
    pub place: u64,
}

pub enum Said {
    Both(Both),
    // Why reading ends with this record.
    Ends(String),
}

pub struct Line {
    pub head: Head,
    pub finding: &'static str,
    pub name: Option<&'static str>,
    pub said: Said,
}

impl fmt::Display for Line {
    fn fmt(&self, f: &mut fmt::Formatter<'_>) -> fmt::Result {
        let Head { number, kind, place } = self.head;
        write!(f, "{number} {kind:02x} at {place} {}", self.finding)?;
        if let Some(name) = self.name {
            write!(f, " ({name})")?;
        }
        match &self.said {
            Said::Both(both) => write!(f, ": old {}, ours {}", both.old.line, both.ours.line),
            Said::Ends(why) => write!(f, ": {why}reading ends here"),
        }
    }
}

#[derive(Default)]
pub struct Kind {
    pub records: u64,
    pub equal: u64,
    pub different: u64,
    pub intended: u64,
    pub apart: u64,
    pub refused: u64,
}

#[derive(Default)]
pub struct Kept {
    pub lines: Vec<Line>,
    pub more: u64,
}

#[derive(Default)]
pub struct Tally {
    pub kinds: [Kind; KINDS + 1],
    pub reasons: BTreeMap<String, u64>,
    // The differences that are not intended have their own, so that no number of other lines pushes them out.
    pub different: Kept,
    pub others: Kept,
    // Whether the running count stands on a terminal where the next line would run into it.
    count_in_the_way: bool,
}

impl Tally {
    pub fn sum(&self, of: impl Fn(&Kind) -> u64) -> u64 {
        self.kinds.iter().map(of).sum()
    }

    pub fn verdict(&self) -> String {
        format!("{} records, {} different", self.sum(|k| k.records), self.sum(|k| k.different))
    }

    fn print(&mut self, line: Line) -> io::Result<()> {
        if self.count_in_the_way {
            let _ = io::stderr().write_all(WIPE);
            self.count_in_the_way = false;
        }
        let mut out = io::stdout().lock();
        writeln!(out, "{line}")?;
        out.flush()?;
        let kept = if line.finding == "different" {
            &mut self.different
        } else {
            &mut self.others
        };
        if kept.lines.len() < KEPT_LINES {
            kept.lines.push(line);
        } else {
            kept.more += 1;
        }
        Ok(())
    }

    fn ends(&mut self, head: Head, finding: &'static str, why: String) -> io::Result<()> {
        self.print(Line {
            head,
            finding,
            name: None,
            said: Said::Ends(why),
        })
    }

    fn reason(&mut self, reason: String) {
        *self.reasons.entry(reason).or_default() += 1;
    }

    fn take(&mut self, head: Head, finding: Finding) -> io::Result<()> {
        let k = &mut self.kinds[head.kind as usize];
        k.records += 1;
        let (finding, name, both) = match finding {
            Finding::Equal => {
                k.equal += 1;
                return Ok(());
            }
            Finding::Apart(why) => {
                k.apart += 1;
                self.reason(format!("not comparable: {why}; equal to the old parts called in their order"));
                return Ok(());
            }
            Finding::Different(both) => {
                k.different += 1;
                ("different", None, both)
            }
            Finding::Intended(name, both) => {
                k.intended += 1;
                self.reason(format!("intended: {name}"));
                ("intended", Some(name), both)
            }
            Finding::Refused(number, both) => {
                k.refused += 1;
                self.reason(format!("refused {number} {}: {}", due::name(number), due::reason(number)));
                ("refused", None, both)
            }
        };
        self.print(Line {
            head,
            finding,
            name,
            said: Said::Both(both),
        })
    }

    fn summary(&self) -> io::Result<()> {
        let mut out = io::stdout().lock();
        writeln!(
            out,
            "\nkind               records     equal different  intended not-comparable   refused"
        )?;
        for (number, k) in self.kinds.iter().enumerate().filter(|(_, k)| k.records > 0) {
            let name = format!("{number:02x} {}", NAMES[number]);
            let counts = (k.records, k.equal, k.different, k.intended, k.apart, k.refused);
            let (a, b, c, d, e, f) = counts;
            writeln!(out, "{name:16} {a:9} {b:9} {c:9} {d:9} {e:14} {f:9}")?;
        }
        for (reason, count) in &self.reasons {
            writeln!(out, "{reason}: {count}")?;
        }
        writeln!(
            out,
            "counts of disagreements and verdicts have no old counterpart; all were held against the old parts"
        )?;
        writeln!(out, "{}", self.verdict())?;
        out.flush()
    }
}

// What is shown while reading goes on: the count on a terminal, and the page.
struct Watch {
    tally: Tally,
    plot: page::Plot,
    page: Option<String>,
    source: page::Source,
    began: Instant,
    counted: Instant,
    paged: Instant,
    // Whether standard error is a terminal, and whether standard output is one too.
    terminal: bool,
    shared: bool,
}

impl Watch {
    fn new(page: Option<String>, recording: Option<String>) -> Watch {
        let terminal = io::stderr().is_terminal();
        Watch {
            tally: Tally::default(),
            plot: page::Plot::default(),
            page,
            source: page::Source {
                recording,
                began: SystemTime::now(),
            },
            began: Instant::now(),
            counted: Instant::now(),
            paged: Instant::now(),
            terminal,
            shared: terminal && io::stdout().is_terminal(),
        }
    }

    // A terminal that has gone away is no reason to stop.
    fn count(&mut self, end: &str) {
        let mut err = io::stderr().lock();
        let _ = err.write_all(WIPE);
        let _ = write!(err, "{}{end}", self.tally.verdict());
        let _ = err.flush();
        self.tally.count_in_the_way = self.shared && end.is_empty();
        self.counted = Instant::now();
    }

    fn write_page(&mut self, state: &page::State) -> bool {
        self.paged = Instant::now();
        let Some(file) = &self.page else { return true };
        let written = page::write(file, &self.tally, &self.plot, state, &self.source);
        if let Err(error) = &written {
            let mut err = io::stderr().lock();
            if self.terminal {
                let _ = err.write_all(WIPE);
            }
            let _ = writeln!(err, "sidebyside: the page {file} cannot be written: {error}");
        }
        written.is_ok()
    }

    // A page that cannot be written now is tried again, and said again, half a minute later.
    fn look(&mut self) {
        if self.terminal && self.counted.elapsed() > COUNT_EVERY {
            self.count("");
        }
        if self.page.is_some() && self.paged.elapsed() > PAGE_EVERY {
            self.write_page(&page::State::Reading);
        }
    }

    // Compares until the input ends or breaks off, and says how it ended.
    fn read(&mut self, feed: &mut Feed) -> io::Result<page::State> {
        let (mut number, mut place) = (0u64, 0u64);
        let mut kind = [0];
        loop {
            match feed.fill(&mut kind, || self.look()) {
                Ok(1) => {}
                Ok(_) if feed::stopped() => return Ok(page::State::Stopped),
                Ok(_) => return Ok(page::State::Ended),
                Err(error) => return Ok(page::State::Unreadable(error.to_string())),
            }
            number += 1;
            let kind = kind[0];
            let head = Head { number, kind, place };
            let Some(&symbols) = SYMBOLS.get(kind as usize).filter(|&&symbols| symbols > 0) else {
                self.tally.ends(head, "unknown", String::new())?;
                return Ok(page::State::Unknown(head));
            };
            let mut body = vec![0; 4 + symbols];
            let there = match feed.fill(&mut body, || self.look()) {
                Ok(there) => there,
                Err(error) => return Ok(page::State::Unreadable(error.to_string())),
            };
            if there < body.len() && feed::stopped() {
                return Ok(page::State::Stopped);
            }
            if there < body.len() {
                self.tally.ends(head, "short", format!("{there} of {} bytes; ", body.len()))?;
                return Ok(page::State::Short(head));
            }
            place += 1 + body.len() as u64;
            let record = Record {
                kind,
                start: u32::from_be_bytes([body[0], body[1], body[2], body[3]]),
                symbols: body.split_off(4),
            };
            let ours = ours::answered(&record);
            let finding = compared(&record, &ours);
            self.plot.add(
                number,
                match ours {
                    Answer::Block { disagreements, .. } => Some(disagreements),
                    _ => None,
                },
                matches!(finding, Finding::Different(_)),
                self.began,
            );
            self.tally.take(head, finding)?;
            self.look();
        }
    }

    // The exit status.
    fn run(&mut self, input: Box<dyn Read + Send>) -> i32 {
        // A page that cannot be written at all is better known now than after a morning.
        if !self.write_page(&page::State::Reading) {
            return 2;
        }
        let mut status = 0;
        let mut said = self.read(&mut Feed::new(input));
        if self.terminal {
            self.count("\n");
        }
        if let Ok(state) = &said {
            if let page::State::Unreadable(error) = state {
                let _ = writeln!(io::stderr(), "sidebyside: the recording cannot be read further: {error}");
                status = 2;
            }
            if let Err(error) = self.tally.summary() {
                said = Err(error);
            }
        }
        let state = said.unwrap_or_else(|error| {
            let _ = writeln!(io::stderr(), "sidebyside: standard output cannot be written: {error}");
            status = 2;
            page::State::Unwritten(error.to_string())
        });
        if !self.write_page(&state) {
            status = 2;
        }
        if status == 0 && self.tally.sum(|k| k.different) > 0 {
            status = 1;
        }
        status
    }
}

const HELP: &str = include_str!("help.txt");

fn stop(reason: &str) -> ! {
    let _ = writeln!(io::stderr(), "sidebyside: {reason}");
    exit(2)
}

fn usage() -> ! {
    let first = HELP.lines().next().unwrap_or_default();
    stop(&format!("called wrongly: {first}; --help says more"))
}

#[derive(Default)]
struct Words {
    page: Option<String>,
    replace: bool,
    recording: Option<String>,
}

fn words() -> Words {
    let mut words = Words::default();
    let mut given = std::env::args().skip(1);
    while let Some(word) = given.next() {
        match word.as_str() {
            "--help" => {
                let _ = io::stdout().write_all(HELP.as_bytes());
                exit(0)
            }
            "--page" if words.page.is_none() => words.page = Some(given.next().unwrap_or_else(|| usage())),
            "--replace" => words.replace = true,
            _ if word.starts_with("--") || words.recording.is_some() => usage(),
            _ => words.recording = Some(word),
        }
    }
    if words.replace && words.page.is_none() || words.page.as_ref().is_some_and(|file| file.starts_with("--")) {
        usage()
    }
    words
}

fn main() {
    // A panic of the original is an answer, and told as one.
    std::panic::set_hook(Box::new(|_| {}));
    let words = words();
    let input: Box<dyn Read + Send> = match &words.recording {
        None => Box::new(io::stdin()),
        Some(file) => match File::open(file) {
            Ok(opened) => Box::new(opened),
            Err(error) => stop(&format!("{file}: {error}")),
        },
    };
    if let Some(page) = &words.page {
        // The path by which standard input can be asked what file it is.
        let recording = words.recording.as_deref().unwrap_or("/dev/stdin");
        if let Err(reason) = page::may_write(Path::new(page), Path::new(recording), words.replace) {
            stop(&format!("the page {page} cannot be written: {reason}"));
        }
    }
    feed::stop_when_interrupted();
    exit(Watch::new(words.page, words.recording).run(input))
}
