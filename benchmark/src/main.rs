// Ours against the original, entry by entry, in one run. `--check`: exit status 1 where a ratio is over its limit by more
// than the room for noise, or where answers differ. Any other word: only the rows that have one of these words in their name.
mod inputs;
mod ours;
mod rows;
mod timing;

use rows::Row;
use timing::{disagreeing, interleaved, Ratio, Times};

const ROOM_FOR_NOISE: f64 = 1.15;

// Nanoseconds that a block of rounds may take in all, undisturbed.
const BLOCK: f64 = 6e6;

struct Tally {
    over: usize,
    far_over: usize,
    differing: usize,
}

fn times(row: &mut Row) -> Times {
    let first = interleaved(&mut row.contestants, 3);
    let once: f64 = (0..row.contestants.len()).map(|which| first.best(which)).sum();
    interleaved(&mut row.contestants, (BLOCK / once).clamp(20.0, 2000.0) as usize)
}

fn held(tally: &mut Tally, ratio: &Ratio, limit: f64) -> &'static str {
    if ratio.value > limit * ROOM_FOR_NOISE {
        tally.far_over += 1;
    }
    if ratio.value > limit {
        tally.over += 1;
        return "over";
    }
    "within"
}

fn head(first: &str, other: &str) {
    println!("{first:<46} {:>6} {:>6}  {:<13} {:>10} {:>10}", "limit", "ratio", "spread", other, "ours");
}

fn line(tally: &mut Tally, name: &str, limit: Option<f64>, times: &Times, to: usize, calls: usize) {
    let ratio = times.ratio(1, to);
    let said = limit.map_or("", |limit| held(tally, &ratio, limit));
    let limit = limit.map_or(String::new(), |limit| format!("{limit:.2}"));
    let spread = format!("{:.3}-{:.3}", ratio.low, ratio.high);
    let (theirs, ours) = (times.best(to) / calls as f64, times.best(1) / calls as f64);
    println!("{name:<46} {limit:>6} {:>6.3}  {spread:<13} {theirs:>7.0} ns {ours:>7.0} ns  {said}", ratio.value);
}

// Every contestant against the original, on every input.
fn compared(tally: &mut Tally, row: &mut Row) {
    for which in 1..row.contestants.len() {
        let differing = disagreeing(&mut row.contestants, which, row.inputs);
        // libosmocore breaks ties in its own way.
        let other = row.contestants[which].name == "libosmocore";
        if differing > 0 {
            println!("{}: {} answers otherwise to {differing} of {} inputs", row.name, row.contestants[which].name, row.inputs);
        }
        if differing > 0 && !other {
            tally.differing += differing;
        }
    }
}

// Whether a row was asked for: no word asks for all.
fn asked(words: &[String], row: &Row) -> bool {
    words.is_empty() || words.iter().any(|word| row.name.contains(word.as_str()))
}

fn measured(tally: &mut Tally, mut row: Row) -> (Row, Times) {
    compared(tally, &mut row);
    let times = times(&mut row);
    line(tally, &row.name, Some(row.limit), &times, 0, row.calls);
    (row, times)
}

fn growth(name: &str, make: fn(usize, usize) -> Row) {
    for (steps, timed) in [(100, 8), (200, 4), (432, 2), (864, 1)] {
        let mut row = make(steps, timed);
        row.contestants.truncate(2);
        let times = times(&mut row);
        let each = |which| times.best(which) / (timed * steps) as f64;
        println!("{name:<10} {steps:>5} {:>10.2} ns {:>10.2} ns {:>8.3}", each(0), each(1), times.ratio(1, 0).value);
    }
}

fn main() {
    let (flags, words): (Vec<String>, Vec<String>) = std::env::args().skip(1).partition(|word| word.starts_with("--"));
    let check = flags.iter().any(|flag| flag == "--check");
    unsafe {
        rows::yardstick_start();
        #[cfg(osmo)]
        rows::osmo_start();
    }
    let mut tally = Tally { over: 0, far_over: 0, differing: 0 };
    println!("ratio: best time of ours to best time of the original, same inputs, same run, taken in turns.");
    println!("spread: the lowest and highest of that ratio over 12 blocks of rounds. Times are for one call.");
    println!("The caller's buffers were not cleared between timed calls. What a call makes, fills or clears for itself is timed:");
    println!("the original's own buffers and vectors, our local arrays, and our clearing of the used trellis.\n");
    head("entry", "original");
    let decoders: Vec<(Row, Times)> = rows::decoders().into_iter().filter(|row| asked(&words, row)).map(|row| measured(&mut tally, row)).collect();
    for row in rows::limited().into_iter().filter(|row| asked(&words, row)) {
        measured(&mut tally, row);
    }
    println!();
    head("entries with no limit of their own", "original");
    for row in rows::further().into_iter().filter(|row| asked(&words, row)) {
        measured(&mut tally, row);
    }
    println!();
    head("decoders of others", "other");
    for (row, times) in &decoders {
        for (which, other) in row.contestants.iter().enumerate().skip(2) {
            let limit = (other.name == "libosmocore").then_some(row.limit_osmo);
            line(&mut tally, &format!("{}, to {}", row.name, other.name), limit, times, which, row.calls);
        }
    }
    if !cfg!(osmo) {
        println!("libosmocore is not installed, and is left out");
    }
    if words.is_empty() {
        println!("\ngrowth     steps  original, step    ours, step    ratio");
        growth("control", rows::control);
        growth("speech", rows::speech);
    }
    println!("\nThe runner over a recording is measured by benchmark/runner.");
    if tally.differing > 0 {
        println!("answers DIFFER: {}", tally.differing);
    } else {
        println!("answers agree on every input of every row");
    }
    println!("{} over the limit, {} of them by more than {:.0} %", tally.over, tally.far_over, (ROOM_FOR_NOISE - 1.0) * 100.0);
    if tally.differing > 0 || check && tally.far_over > 0 {
        std::process::exit(1);
    }
}
