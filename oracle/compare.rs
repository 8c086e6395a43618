//! The comparer: holds our output against the oracle's, line by line, by the rules of document 01.
//!
//! `compare TEXTS OURS ORACLE [MODE]`. In the listing, kind 3 is compared by the text of its priority, and any repeated
//! one is accepted (the oracle names them in `listing repeats`). Texts with numerals that are neither ASCII nor raised are
//! left out. Blank texts, which document 02 accepts and the Rust refuses, are left aside: ours is held against the paper.
//! Everything else must be equal byte for byte. Exit status 1 where there is a difference, 2 where there is no comparison.
/// Which numerals are raised; the mapping is the oracle's.
#[allow(dead_code)]
mod raised;

use std::{
    fs::File,
    io::{self, BufRead, BufReader},
    process::ExitCode,
};

/// The longest text that is read; longer ones get number 2 and are compared whatever they hold.
const LONGEST: usize = 256;

/// So many differences are shown.
const SHOWN: usize = 10;

/// What holds of a pair of lines.
#[derive(PartialEq)]
enum Verdict {
    Equal,
    /// Equal but for a kind 3 that names another of the repeated expressions.
    EqualByKind3,
    Different,
}

/// What the lines are: the listing, spellings, or what one stage of the Rust makes of a text.
#[derive(Clone, Copy, PartialEq)]
enum Mode {
    Listing,
    Spelling,
    Stage,
}

/// How many texts there were of each sort. Those in `not_least` are also in `equal` or `by_kind_3`. `raised` counts those with
/// raised numerals about which the Rust was asked, and `blank` those that were left aside; a blank one with another answer than
/// the paper's is in `different` too.
#[derive(Default)]
struct Counts {
    texts: usize,
    equal: usize,
    by_kind_3: usize,
    not_least: usize,
    left_out: usize,
    blank: usize,
    raised: usize,
    different: usize,
}

/// A file that is read line by line into one buffer.
struct Lines {
    input: BufReader<File>,
    line: Vec<u8>,
}

impl Lines {
    fn open(path: &str) -> io::Result<Lines> {
        let input = BufReader::with_capacity(1 << 18, File::open(path)?);
        Ok(Lines { input, line: Vec::new() })
    }

    /// The next line without its newline, or none at the end; bytes after the last newline are a line.
    fn next(&mut self) -> io::Result<Option<&[u8]>> {
        self.line.clear();
        if self.input.read_until(b'\n', &mut self.line)? == 0 {
            return Ok(None);
        }
        Ok(Some(self.line.strip_suffix(b"\n").unwrap_or(&self.line)))
    }
}

/// The text, where the Rust is asked about it: it answers for no text that is too long or not UTF-8. ASCII texts, which have
/// no numerals that matter here, are passed over.
fn asked(text: &[u8]) -> Option<&str> {
    if text.is_ascii() || text.len() > LONGEST { None } else { std::str::from_utf8(text).ok() }
}

/// Whether a text lies outside the comparison: the Rust is asked, and it has a numeral that is neither ASCII nor raised.
fn left_out(text: &[u8]) -> bool {
    let numeral = |c: char| c.is_numeric() && !c.is_ascii_digit() && !raised::RAISED.contains(&c);
    asked(text).is_some_and(|text| text.contains(numeral))
}

/// The line that document 02 [4] has for a text that is empty or spaces only: no chord in the listing, the empty spelling. No
/// stage knows of it.
fn silence(mode: Mode, number: usize, text: &[u8]) -> Option<String> {
    let blank = text.len() <= LONGEST && text.iter().all(|byte| *byte == b' ');
    match mode {
        Mode::Listing if blank => Some(format!("{number:4}   0  -1   0  -1   0   0   0")),
        Mode::Spelling if blank => Some(String::new()),
        _ => None,
    }
}

/// The oracle's line and, where it names them, the priorities of the repeated expressions.
fn split_repeats(line: &[u8]) -> (&[u8], Vec<u8>) {
    let Some(bar) = line.iter().position(|byte| *byte == b'|') else {
        return (line, Vec::new());
    };
    let listing = line[..bar].strip_suffix(b" ").unwrap_or(&line[..bar]);
    (listing, line[bar + 1..].chunks(4).filter_map(number).collect())
}

/// The number in a cell of four columns.
fn number(cell: &[u8]) -> Option<u8> {
    std::str::from_utf8(cell).ok()?.trim_start_matches(' ').parse().ok()
}

/// The least priority with the same text in `from_priority`: 8 and 9 are both "Maj".
fn same_text(priority: u8) -> u8 {
    if priority == 9 { 8 } else { priority }
}

/// The cells of a line after its line number, or none if the lines do not start alike.
fn cells<'a>(ours: &'a [u8], oracle: &'a [u8]) -> Option<(Vec<&'a [u8]>, Vec<&'a [u8]>)> {
    let spaces = ours.iter().take_while(|byte| **byte == b' ').count();
    let digits = ours[spaces..].iter().take_while(|byte| byte.is_ascii_digit()).count();
    let start = spaces + digits;
    if ours.len() != oracle.len() || ours[..start] != oracle[..start] {
        return None;
    }
    Some((ours[start..].chunks(4).collect(), oracle[start..].chunks(4).collect()))
}

/// Compares two lines of number 5, cell by cell: only the value of a kind 3 may be another repeated priority.
fn by_kind_3(ours: &[u8], oracle: &[u8], repeated: &[u8]) -> Verdict {
    let Some((ours, oracle)) = cells(ours, oracle) else { return Verdict::Different };
    if oracle.first() != Some(&&b"   5"[..]) {
        return Verdict::Different;
    }
    for place in 0..ours.len() {
        if ours[place] == oracle[place] {
            continue;
        }
        // Number, count, and then four cells an error: its kind stands before its first value.
        let value_of_kind_3 = place >= 3 && place % 4 == 3 && oracle[place - 1] == b"   3";
        let (Some(our), Some(theirs)) = (number(ours[place]), number(oracle[place])) else {
            return Verdict::Different;
        };
        let is_repeated = repeated.iter().chain([&theirs]).any(|other| same_text(*other) == same_text(our));
        if !value_of_kind_3 || !is_repeated {
            return Verdict::Different;
        }
    }
    Verdict::EqualByKind3
}

/// Whether a line has a kind 3 with a value other than the least repeated priority, which document 01 asks of us.
fn not_least(ours: &[u8], repeated: &[u8]) -> bool {
    let Some(least) = repeated.first() else { return false };
    let kind_3 = format!("   3{least:4}   0   0");
    !ours.windows(kind_3.len()).any(|cells| cells == kind_3.as_bytes())
}

/// Compares our line with the oracle's, and tells whether ours names a kind 3 that is not the least.
fn compare(mode: Mode, ours: &[u8], oracle: &[u8]) -> (Verdict, bool) {
    if oracle == b"PANIC" {
        return (Verdict::Different, false);
    }
    if ours == oracle {
        return (Verdict::Equal, false);
    }
    if mode != Mode::Listing {
        return (Verdict::Different, false);
    }
    let (oracle, repeated) = split_repeats(oracle);
    let verdict = if ours == oracle { Verdict::Equal } else { by_kind_3(ours, oracle, &repeated) };
    let not_least = verdict != Verdict::Different && not_least(ours, &repeated);
    (verdict, not_least)
}

/// Shows a difference: the text, and both lines.
fn show(line: usize, text: &[u8], ours: Option<&[u8]>, oracle: Option<&[u8]>) {
    let printable = |bytes: &[u8]| match std::str::from_utf8(bytes) {
        Ok(text) => format!("{text:?}"),
        Err(_) => format!("b\"{}\"", bytes.escape_ascii()),
    };
    let output = |line: Option<&[u8]>| line.map_or("no line".into(), |line| String::from_utf8_lossy(line).into_owned());
    println!("line {line}: {}", printable(text));
    println!("  ours   {}", output(ours));
    println!("  oracle {}", output(oracle));
}

/// Whether a file still has a line after the last text.
fn has_more(lines: &mut Lines, name: &str) -> io::Result<bool> {
    let more = lines.next()?.is_some();
    if more {
        println!("{name} has more lines than there are texts");
    }
    Ok(more)
}

/// Compares the three files and prints the differences.
fn run(texts: &str, ours: &str, oracle: &str, mode: Mode) -> io::Result<Counts> {
    let (mut texts, mut ours, mut oracle) = (Lines::open(texts)?, Lines::open(ours)?, Lines::open(oracle)?);
    let mut counts = Counts::default();
    while let Some(text) = texts.next()? {
        let (ours, oracle) = (ours.next()?, oracle.next()?);
        counts.texts += 1;
        if left_out(text) {
            counts.left_out += 1;
            continue;
        }
        let silence = silence(mode, counts.texts, text);
        counts.raised += usize::from(asked(text).is_some_and(raised::has_raised));
        counts.blank += usize::from(silence.is_some());
        // A line that is missing is a difference.
        let (verdict, not_least) = match (ours, oracle, &silence) {
            (Some(ours), Some(_), Some(silence)) if ours == silence.as_bytes() => (Verdict::Equal, false),
            (Some(ours), Some(oracle), None) => compare(mode, ours, oracle),
            _ => (Verdict::Different, false),
        };
        counts.not_least += usize::from(not_least);
        match verdict {
            Verdict::Equal => counts.equal += usize::from(silence.is_none()),
            Verdict::EqualByKind3 => counts.by_kind_3 += 1,
            Verdict::Different => {
                counts.different += 1;
                if counts.different <= SHOWN {
                    show(counts.texts, text, ours, oracle);
                }
            }
        }
    }
    counts.different += usize::from(has_more(&mut ours, "ours")?) + usize::from(has_more(&mut oracle, "oracle")?);
    Ok(counts)
}

fn main() -> ExitCode {
    let arguments: Vec<String> = std::env::args().skip(1).collect();
    let arguments: Vec<&str> = arguments.iter().map(String::as_str).collect();
    let (texts, ours, oracle, mode) = match arguments[..] {
        [texts, ours, oracle] | [texts, ours, oracle, "listing"] => (texts, ours, oracle, Mode::Listing),
        [texts, ours, oracle, "spelling"] => (texts, ours, oracle, Mode::Spelling),
        [texts, ours, oracle, "tokens" | "scan" | "parse"] => (texts, ours, oracle, Mode::Stage),
        _ => {
            eprintln!("usage: compare TEXTS OURS ORACLE [listing | tokens | scan | parse | spelling]");
            return ExitCode::from(2);
        }
    };
    match run(texts, ours, oracle, mode) {
        Ok(Counts { texts, equal, by_kind_3, not_least, left_out, blank, raised, different }) => {
            println!(
                "texts {texts} equal {equal} equal-by-kind-3 {by_kind_3} not-least {not_least} left-out {left_out} \
                 blank {blank} raised {raised} different {different}"
            );
            ExitCode::from(u8::from(different > 0))
        }
        Err(error) => {
            eprintln!("compare: {error}");
            ExitCode::from(2)
        }
    }
}
