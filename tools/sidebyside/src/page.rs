// The findings as a page for a browser: a table, the lines, and a plot. Standard web parts only, and no script.
use crate::{Head, Kept, Line, Said, Tally, Told, KINDS, NAMES};
use std::fmt::Write;
use std::io::{ErrorKind, Read};
use std::os::unix::fs::MetadataExt;
use std::path::Path;
use std::time::{Instant, SystemTime, UNIX_EPOCH};
use std::{fs, io};

// A page of this program begins so; another file does not, and is not written over.
const MARK: &str = "<!doctype html>\n<!-- Caplattice: old and new side by side -->\n";

const STRIPES: usize = 512;

// The plot's measures, in the units of its view box. A narrow screen has a plot of its own, whose words can be read there.
const LEFT: f64 = 56.0;
const TOP: f64 = 36.0;
const BOTTOM: f64 = 244.0;
const WIDE: f64 = 1000.0;
const NARROW: f64 = 400.0;

// Where the records come from, and when reading began.
pub struct Source {
    // None for standard input.
    pub recording: Option<String>,
    pub began: SystemTime,
}

// A browser never sees half a page: it is written beside the file and then takes its place.
fn beside(file: &str) -> String {
    format!("{file}.new")
}

fn is_page(file: &Path) -> io::Result<bool> {
    let mut first = vec![];
    fs::File::open(file)?.take(MARK.len() as u64).read_to_end(&mut first)?;
    // A page that broke off while it was first written may have less.
    Ok(first == MARK.as_bytes() || first.is_empty())
}

// Whether a file may become a page. What is there stays unless it is such a page, empty, or given up by `replace`; and the recording
// stays whatever was asked for.
pub fn may_write(file: &Path, recording: &Path, replace: bool) -> Result<(), String> {
    let name = file.display().to_string();
    for (file, replace) in [(file, replace), (Path::new(&beside(&name)), false)] {
        let there = match fs::metadata(file) {
            Ok(there) => there,
            Err(error) if error.kind() == ErrorKind::NotFound => continue,
            Err(error) => return Err(error.to_string()),
        };
        if fs::metadata(recording).is_ok_and(|read| (read.dev(), read.ino()) == (there.dev(), there.ino())) {
            return Err(format!("{} is the recording itself", file.display()));
        }
        if !there.is_file() {
            return Err(format!("{} is no ordinary file", file.display()));
        }
        if !replace && !is_page(file).map_err(|error| error.to_string())? {
            return Err(format!(
                "{} is there and is not such a page; name another file, or add --replace to write over {name}",
                file.display()
            ));
        }
    }
    Ok(())
}

// How the reading stands.
pub enum State {
    Reading,
    Ended,
    Stopped,
    Short(Head),
    Unknown(Head),
    Unreadable(String),
    Unwritten(String),
}

impl State {
    fn told(&self) -> String {
        match self {
            State::Reading => "Reading goes on. This page is written anew every half minute, and loads itself again.".to_string(),
            State::Ended => "The recording was read to its end.".to_string(),
            State::Stopped => "The comparison was stopped from outside; all that had been read whole was compared.".to_string(),
            State::Short(at) => format!(
                "The recording breaks off inside record {}, which begins at byte {}. All before it was compared.",
                at.number, at.place
            ),
            State::Unknown(at) => format!(
                "Record {}, at byte {}, has the unknown kind {:02x}. All before it was compared; nothing after it was read.",
                at.number, at.place, at.kind
            ),
            State::Unreadable(error) => format!("The recording could not be read further: {error}. All before was compared."),
            State::Unwritten(error) => format!("The comparison ended because its lines could not be printed: {error}."),
        }
    }
}

#[derive(Clone, Copy, Default)]
struct Stripe {
    blocks: u64,
    sum: u64,
    most: usize,
    different: u64,
    // Seconds from the beginning of the reading to the stripe's first record.
    since: u64,
}

impl Stripe {
    fn with(self, next: &Stripe) -> Stripe {
        Stripe {
            blocks: self.blocks + next.blocks,
            sum: self.sum + next.sum,
            most: self.most.max(next.most),
            different: self.different + next.different,
            since: self.since,
        }
    }
}

// Disagreements over the recording: each stripe covers the same number of records, which doubles when all are used, so that
// hours of a feed need no more room than minutes.
pub struct Plot {
    width: u64,
    records: u64,
    stripes: Vec<Stripe>,
}

impl Default for Plot {
    fn default() -> Plot {
        Plot {
            width: 1,
            records: 0,
            stripes: vec![],
        }
    }
}

impl Plot {
    // Record `number`, counted from 1 and each after the last, had so many disagreements, or is none that has a count.
    pub fn add(&mut self, number: u64, disagreements: Option<usize>, different: bool, began: Instant) {
        if (number - 1) / self.width >= STRIPES as u64 {
            let merged = self
                .stripes
                .chunks(2)
                .map(|pair| pair[1..].iter().fold(pair[0], Stripe::with));
            self.stripes = merged.collect();
            self.width *= 2;
        }
        if (number - 1) / self.width >= self.stripes.len() as u64 {
            self.stripes.push(Stripe {
                since: began.elapsed().as_secs(),
                ..Stripe::default()
            });
        }
        self.records = number;
        let stripe = self.stripes.last_mut().expect("one was just made");
        stripe.different += u64::from(different);
        if let Some(count) = disagreements {
            stripe.blocks += 1;
            stripe.sum += count as u64;
            stripe.most = stripe.most.max(count);
        }
    }

    fn x(&self, right: f64, records_before: u64) -> f64 {
        LEFT + (right - LEFT) * records_before as f64 / self.records as f64
    }

    // One path for all bars of a shade.
    fn bars(&self, class: &str, right_end: f64, top: u64, high: impl Fn(&Stripe) -> f64) -> String {
        let mut path = format!("<path class=\"{class}\" d=\"");
        for (at, stripe) in self.stripes.iter().enumerate().filter(|(_, stripe)| stripe.sum > 0) {
            let from = at as u64 * self.width;
            let (left, right) = (
                self.x(right_end, from),
                self.x(right_end, (from + self.width).min(self.records)),
            );
            // A little air between bars that are wide enough for it.
            let right = right - ((right - left) * 0.15).min(1.0);
            let up = BOTTOM - (BOTTOM - TOP) * high(stripe) / top as f64;
            let _ = write!(path, "M{left:.1} {BOTTOM}V{up:.1}H{right:.1}V{BOTTOM}z");
        }
        path.push_str("\"/>\n");
        path
    }

    // The scale at the left: how high the plot goes, and its lines.
    fn scale(&self, right: f64) -> (u64, String) {
        let most = self.stripes.iter().map(|stripe| stripe.most as u64).max().unwrap_or(0);
        let step = round_step(most.max(1), 5);
        let top = most.max(1).div_ceil(step) * step;
        let mut lines = String::new();
        for value in (0..=top).step_by(step as usize) {
            let y = BOTTOM - (BOTTOM - TOP) * value as f64 / top as f64;
            let _ = writeln!(
                lines,
                "<path class=\"grid\" d=\"M{LEFT} {y:.1}H{right}\"/><text x=\"{}\" y=\"{:.1}\" text-anchor=\"end\">{value}</text>",
                LEFT - 8.0,
                y + 4.5
            );
        }
        (top, lines)
    }

    // The scale below: record numbers and, for a live feed, the time since reading began.
    fn records_below(&self, right: f64, steps: u64, live: bool) -> String {
        let mut below = String::new();
        let step = round_step(self.records, steps);
        for record in (0..=self.records).step_by(step as usize).map(|record| record.max(1)) {
            if record > self.records {
                break;
            }
            let x = self.x(right, record - 1);
            let _ = write!(
                below,
                "<path class=\"axis\" d=\"M{x:.1} {BOTTOM}v5\"/><text x=\"{x:.1}\" y=\"262\" text-anchor=\"middle\">{}</text>",
                grouped(record)
            );
            if live {
                let since = self.stripes[((record - 1) / self.width) as usize].since;
                let (hours, minutes, seconds) = (since / 3600, since / 60 % 60, since % 60);
                let _ = write!(
                    below,
                    "<text class=\"soft\" x=\"{x:.1}\" y=\"278\" text-anchor=\"middle\">{hours}:{minutes:02}:{seconds:02}</text>"
                );
            }
            below.push('\n');
        }
        below
    }

    fn svg(&self, width: f64, live: bool) -> String {
        let (class, steps) = if width < WIDE { ("narrow", 3) } else { ("broad", 6) };
        let right = width - 40.0;
        let (top, lines) = self.scale(right);
        let mut svg = format!(
            "<svg class=\"{class}\" viewBox=\"0 0 {width} 300\" role=\"img\" aria-label=\"Disagreements of each block over the \
             recording\">\n{lines}"
        );
        svg += &self.bars("most", right, top, |stripe| stripe.most as f64);
        svg += &self.bars("mean", right, top, |stripe| stripe.sum as f64 / stripe.blocks as f64);
        for (at, _) in self.stripes.iter().enumerate().filter(|(_, stripe)| stripe.different > 0) {
            let from = at as u64 * self.width;
            let middle = (self.x(right, from) + self.x(right, (from + self.width).min(self.records))) / 2.0;
            let _ = writeln!(svg, "<path class=\"differs\" d=\"M{middle:.1} {TOP}l-5 -10h10z\"/>");
        }
        let _ = writeln!(svg, "<path class=\"axis\" d=\"M{LEFT} {TOP}V{BOTTOM}H{right}\"/>");
        svg += &self.records_below(right, steps, live);
        let below = if live {
            "record number; below it hours, minutes, seconds of reading"
        } else {
            "record number"
        };
        let middle = (LEFT + right) / 2.0;
        let _ = writeln!(
            svg,
            "<text x=\"{LEFT}\" y=\"12\" text-anchor=\"start\">disagreements in a block (symbols)</text>\n\
             <text x=\"{middle}\" y=\"296\" text-anchor=\"middle\">{below}</text></svg>"
        );
        svg
    }

    fn drawn(&self, live: bool) -> String {
        if self.records == 0 {
            return "<p>There is no record yet.</p>".to_string();
        }
        self.svg(WIDE, live) + &self.svg(NARROW, live)
    }

    fn key(&self) -> String {
        let bars = if self.width == 1 {
            "<span class=\"swatch dark\"></span> Each bar is one record".to_string()
        } else {
            format!(
                "Each bar is {} records: <span class=\"swatch dark\"></span> their mean, <span class=\"swatch light\"></span> the most of one",
                grouped(self.width)
            )
        };
        format!("{bars}; <span class=\"mark\">▼</span> old and new differ there")
    }
}

// A step of 1, 2 or 5 and noughts that takes at most so many steps to cover the value.
fn round_step(value: u64, most_steps: u64) -> u64 {
    let mut step = 1;
    loop {
        for times in [1, 2, 5] {
            if value.div_ceil(step * times) <= most_steps {
                return step * times;
            }
        }
        step *= 10;
    }
}

// Thousands apart, so that long numbers can be read.
fn grouped(number: u64) -> String {
    let digits = number.to_string();
    let mut text = String::new();
    for (i, digit) in digits.chars().enumerate() {
        if i > 0 && (digits.len() - i) % 3 == 0 {
            text.push(',');
        }
        text.push(digit);
    }
    text
}

// Date and time of day, in universal time: the standard library knows no other.
fn date(time: SystemTime) -> String {
    let seconds = time.duration_since(UNIX_EPOCH).map_or(0, |since| since.as_secs());
    let (mut day, second) = (seconds / 86400, seconds % 86400);
    let mut year = 1970;
    let leap = |year: u64| year % 4 == 0 && (year % 100 != 0 || year % 400 == 0);
    while day >= 365 + u64::from(leap(year)) {
        day -= 365 + u64::from(leap(year));
        year += 1;
    }
    let mut month = 0;
    let lengths = [31, 28 + u64::from(leap(year)), 31, 30, 31, 30, 31, 31, 30, 31, 30, 31];
    while day >= lengths[month] {
        day -= lengths[month];
        month += 1;
    }
    format!(
        "{year}-{:02}-{:02} {:02}:{:02}:{:02} UTC",
        month + 1,
        day + 1,
        second / 3600,
        second / 60 % 60,
        second % 60
    )
}

fn escaped(text: &str) -> String {
    text.replace('&', "&amp;").replace('<', "&lt;").replace('>', "&gt;")
}

const STYLE: &str = "\
:root{color-scheme:light dark;--ink:#111;--paper:#fff;--soft:#555;--rule:#ccc;--grid:#ddd;--axis:#444;--mean:#1f4e85;--most:#9dbbdc;\
--alarm:#c01b08;--well:#0b4a0b;--well-paper:#dff0df;--none:#333;--none-paper:#eee;--bad:#7a0c00;--bad-paper:#fbe0dd}\n\
@media(prefers-color-scheme:dark){:root{--ink:#e8e8e8;--paper:#16181b;--soft:#a8adb3;--rule:#43474d;--grid:#33373c;--axis:#9aa0a6;\
--mean:#7fb2ee;--most:#35577f;--alarm:#ff7a66;--well:#c4f0c4;--well-paper:#12381a;--none:#ddd;--none-paper:#33373c;--bad:#ffd5cf;\
--bad-paper:#5a150c}}\n\
body{font:16px/1.5 sans-serif;color:var(--ink);background:var(--paper);max-width:64em;margin:1.5em auto;padding:0 1em}\n\
h1{font-size:1.6em;line-height:1.2}h2{font-size:1.25em;margin-top:2em}\n\
table{border-collapse:collapse}th,td{padding:.2em .7em;text-align:right;border-bottom:1px solid var(--rule);vertical-align:top}\n\
th:first-child,td:first-child{text-align:left;white-space:nowrap}tfoot td{font-weight:bold;border-bottom:none}\n\
.verdict{display:inline-block;padding:.3em .8em;border-radius:.3em;font-weight:bold;background:var(--well-paper);color:var(--well)}\n\
.verdict.none{background:var(--none-paper);color:var(--none)}\
.verdict.bad,td.bad,tr.bad td{background:var(--bad-paper);color:var(--bad)}td.bad{font-weight:bold}\n\
svg{width:100%;display:block}svg text{font-size:13px;fill:var(--ink)}svg .soft{fill:var(--soft)}.narrow{display:none}\n\
.grid{stroke:var(--grid);fill:none}.axis{stroke:var(--axis);fill:none}.most{fill:var(--most)}.mean{fill:var(--mean)}\
.differs{fill:var(--alarm)}.mark{color:var(--alarm)}\n\
.swatch{display:inline-block;width:.8em;height:.8em;vertical-align:baseline}.dark{background:var(--mean)}.light{background:var(--most)}\n\
dt{font-weight:bold}dd{margin:0 0 .3em 1.2em}code{overflow-wrap:anywhere}.says{color:var(--soft)}tr.bad .says{color:inherit}\n\
.lines td,.lines th{text-align:left;font-size:.9em}.lines td.n{text-align:right}.lines td:nth-child(2){white-space:nowrap}\
.lines{width:100%}.says{display:block}\n\
@media(max-width:45em){body{margin:.8em auto;padding:0 .7em}.broad{display:none}.narrow{display:block}\n\
.counts{font-size:.85em;width:100%}.counts th,.counts td{padding:.2em .3em}\
.counts th:not(:first-child){writing-mode:vertical-rl;text-align:left}\n\
.large thead,.lines thead{display:none}.large,.large tbody,.large tfoot,.large tr,.lines,.lines tbody,.lines tr,.lines td{display:block;width:auto}\
.large tr,.lines tr{border-bottom:1px solid var(--rule);padding:.4em 0}\
.large td,.lines td,.lines td.n{border:none;text-align:left;padding:.05em 0}\
.large td{display:inline-block;margin-right:1em}.large td:first-child{display:block;font-weight:bold}\
.lines td:nth-child(-n+3){display:inline;margin-right:.7em}.lines .says{display:inline;margin-left:.5em}\
.large td[data-head]::before,.lines td[data-head]::before{content:attr(data-head) ' ';color:var(--soft)}\
.large td.bad::before,.lines tr.bad td::before{color:inherit}}\n";

const MEANINGS: [(&str, &str); 5] = [
    ("equal", "Old and new say the same."),
    ("different", "They do not, and should; or ours refuses what it should take, or takes what it should refuse. A fault in one of the two: please report it with the recording."),
    ("intended", "They differ in a way that docs/DIFFERENCES.md lists under the name given below."),
    (
        "not comparable",
        "The old code has no answer of its own to such a record. Ours equals what the old parts give when they are called in their order.",
    ),
    ("refused", "Ours refuses the record by the number and name that document 01 gives for it, and goes on with the next."),
];

const FORMS: &str = "<p>The printed lines have these forms. The tables here show the data of both first, and below them what each says of them.</p>\n";

const ANSWERS: [(&str, &str); 7] = [
    (
        "good 1 473a…",
        "A block whose check fits. The decoded word disagrees with 1 received symbol. Then come its bits, four to a hexadecimal digit, the \
         first bit first, filled up with zeros to whole bytes.",
    ),
    ("bad 9 473a…", "A block whose check does not fit; the bits are the nearest word all the same."),
    ("clean 0 1ff3", "An access field without a wrong bit, and its 14 bits as a hexadecimal number."),
    ("mended 12 1ff3", "An access field whose bit 12 of 30 was wrong and has been put right."),
    (
        "beyond 0 1ff3",
        "An access field with more wrong bits than can be mended. The 14 bits are those that arrived; do not rely on them.",
    ),
    ("refused 4 BIT", "No answer: the record breaks the rule of that number and name."),
    (
        "1ff3, good 473a…, panics",
        "The old code's answers. It does not count disagreements and has no verdict on an access field; where it cannot go on, it stops the \
         whole program (panics). (its parts) marks what its parts give when they are called in their order.",
    ),
];

// Counts from here on do not stand side by side on a narrow screen.
const LARGE: u64 = 100_000;

fn table(tally: &Tally) -> String {
    let class = if tally.sum(|k| k.records) < LARGE {
        "counts"
    } else {
        "counts large"
    };
    let heads = ["records"].into_iter().chain(MEANINGS.iter().map(|meaning| meaning.0));
    let mut page = format!("<table class=\"{class}\"><thead><tr><th>kind</th>");
    for head in heads.clone() {
        let _ = write!(page, "<th>{head}</th>");
    }
    page.push_str("</tr></thead>\n<tbody>\n");
    let row = |name: &str, counts: [u64; 6]| {
        let mut row = format!("<tr><td>{name}</td>");
        for (head, count) in heads.clone().zip(counts) {
            let class = if head == "different" && count > 0 {
                " class=\"bad\""
            } else {
                ""
            };
            let _ = write!(row, "<td{class} data-head=\"{head}\">{}</td>", grouped(count));
        }
        row + "</tr>\n"
    };
    for kind in 1..=KINDS {
        let k = &tally.kinds[kind];
        let counts = [k.records, k.equal, k.different, k.intended, k.apart, k.refused];
        page += &row(&format!("{kind:02x} {}", NAMES[kind]), counts);
    }
    let all = [
        tally.sum(|k| k.records),
        tally.sum(|k| k.equal),
        tally.sum(|k| k.different),
        tally.sum(|k| k.intended),
        tally.sum(|k| k.apart),
        tally.sum(|k| k.refused),
    ];
    let _ = write!(page, "</tbody><tfoot>\n{}</tfoot></table>\n", row("all", all));
    page
}

fn cell(head: &str, told: &Told) -> String {
    let data = if told.data.is_empty() {
        String::new()
    } else {
        format!("<code>{}</code>", escaped(&told.data))
    };
    format!(
        "<td data-head=\"{head}\">{data}<span class=\"says\">{}</span></td>",
        escaped(&told.says)
    )
}

fn lines(kept: &Kept, none: &str) -> String {
    if kept.lines.is_empty() {
        return format!("<p>{none}</p>\n");
    }
    let mut page = String::from(
        "<table class=\"lines\"><thead><tr><th>record</th><th>kind</th><th>first byte</th><th>finding</th>\
         <th>old</th><th>ours</th></tr></thead>\n<tbody>\n",
    );
    for Line {
        head,
        finding,
        name,
        said,
    } in &kept.lines
    {
        let class = if *finding == "different" { " class=\"bad\"" } else { "" };
        let called = NAMES.get(head.kind as usize).filter(|name| !name.is_empty()).unwrap_or(&"");
        let _ = write!(
            page,
            "<tr{class}><td class=\"n\" data-head=\"record\">{}</td><td data-head=\"kind\">{:02x} {called}</td>\
             <td class=\"n\" data-head=\"first byte\">{}</td><td>{finding}",
            head.number, head.kind, head.place
        );
        if let Some(name) = name {
            let _ = write!(page, ": {}", escaped(name));
        }
        let _ = match said {
            Said::Both(both) => writeln!(page, "</td>{}{}</tr>", cell("old", &both.old), cell("ours", &both.ours)),
            Said::Ends(why) => writeln!(page, "</td><td colspan=\"2\">{}reading ends here</td></tr>", escaped(why)),
        };
    }
    page.push_str("</tbody></table>\n");
    if kept.more > 0 {
        let _ = writeln!(
            page,
            "<p>And {} more, which were printed: the page keeps the first {}.</p>",
            grouped(kept.more),
            grouped(kept.lines.len() as u64)
        );
    }
    page
}

fn meanings(page: &mut String, head: &str, before: &str, meanings: &[(&str, &str)]) {
    let _ = write!(page, "<details><summary>{head}</summary>\n{before}<dl>\n");
    for (word, meaning) in meanings {
        let _ = writeln!(page, "<dt>{word}</dt><dd>{meaning}</dd>");
    }
    page.push_str("</dl></details>\n");
}

// What was read, when, and how the comparison stands.
fn top(tally: &Tally, state: &State, source: &Source) -> String {
    let class = match (tally.sum(|k| k.records), tally.sum(|k| k.different)) {
        (0, _) => " none",
        (_, 0) => "",
        _ => " bad",
    };
    let recording = match &source.recording {
        Some(file) => format!("<code>{}</code>", escaped(file)),
        None => "what came in on standard input".to_string(),
    };
    format!(
        "<h1>Old and new side by side</h1>\n<p>Recording: {recording}<br>Reading began on {}; this page was written on {}.</p>\n\
         <p class=\"verdict{class}\">{}</p>\n<p>{}</p>\n",
        date(source.began),
        date(SystemTime::now()),
        escaped(&tally.verdict()),
        escaped(&state.told())
    )
}

pub fn write(file: &str, tally: &Tally, plot: &Plot, state: &State, source: &Source) -> io::Result<()> {
    let mut page = format!(
        "{MARK}<html lang=\"en\">\n<meta charset=\"utf-8\">\n<meta name=\"viewport\" content=\"width=device-width, initial-scale=1\">\n"
    );
    if matches!(state, State::Reading) {
        page.push_str("<meta http-equiv=\"refresh\" content=\"30\">\n");
    }
    let _ = writeln!(page, "<title>Old and new side by side</title>\n<style>\n{STYLE}</style>");
    page += &top(tally, state, source);
    page += &table(tally);
    page.push_str("<ul>\n");
    for (reason, count) in &tally.reasons {
        let _ = writeln!(page, "<li>{}: {}</li>", escaped(reason), grouped(*count));
    }
    page.push_str("</ul>\n");
    meanings(&mut page, "What the columns mean", "", &MEANINGS);
    let _ = write!(
        page,
        "<h2>Disagreements over the recording</h2>\n<p>How many received symbols of a block the decoded word disagrees with: few \
         where reception was good. Access fields (AACH) have no such count and leave a gap.<br>{}.</p>\n{}\
         <h2>Differences that are not intended</h2>\n",
        plot.key(),
        plot.drawn(source.recording.is_none()),
    );
    meanings(
        &mut page,
        "What the answers mean: good 1 473a…, beyond 0 1ff3",
        FORMS,
        &ANSWERS,
    );
    let _ = write!(
        page,
        "{}<h2>Intended differences, refused records, and how reading ended</h2>\n{}</html>\n",
        lines(&tally.different, "None."),
        lines(&tally.others, "None.")
    );
    let beside = beside(file);
    fs::write(&beside, page)?;
    fs::rename(&beside, file).inspect_err(|_| {
        let _ = fs::remove_file(&beside);
    })
}
