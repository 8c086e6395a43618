//! The Rust original and the library in one process, on the same texts, in turns: ns per text of both, best and median of the rounds.
//! MIDI out, which the Rust has not, is timed in turns with reading: ns per step from each ordinary symbol to the next.
//! The file of ordinary symbols is the first argument.
#![allow(warnings)]
mod bitset;
mod chord;
mod parsing;

/// Stands in for the one module that the Rust names and that is not in its sources. It is never called.
mod inference {
    pub mod normalize {
        use crate::chord::{interval::IntervalSet, quality::ChordQuality};

        pub fn normalized_descriptor(_: IntervalSet, _: ChordQuality) -> String {
            unreachable!("build_chord is not called")
        }
    }
}

use parsing::Parser;
use std::{hint::black_box, time::Instant};

const ROUNDS: usize = 15;

#[repr(C)]
#[derive(Clone, Copy)]
struct Record([u8; 51]);

unsafe extern "C" {
    fn nophtris_read(text: *const u8, text_len: usize, errors: *mut u16, errors_len: usize, count: *mut u16, chord: *mut Record) -> u8;
    fn nophtris_write(chord: *const Record, buffer: *mut u8, buffer_len: usize, length: *mut u16) -> u8;
    fn nophtris_midi(sounding: *mut u8, base: u8, chord: *const Record, out: *mut u8, out_len: usize, length: *mut usize) -> u8;
}

/// The library's answer to a text; the record is left where it was where the text is refused.
fn read(text: &str, errors: &mut [u16; 1028], record: &mut Record) -> u8 {
    let mut count = 0;
    // SAFETY: each pointer comes from a slice or a reference with its length, and no two overlap.
    unsafe { nophtris_read(text.as_ptr(), text.len(), errors.as_mut_ptr(), errors.len(), &mut count, record) }
}

fn write(record: &Record, buffer: &mut [u8; 112]) -> u16 {
    let mut length = 0;
    // SAFETY: as above.
    unsafe { nophtris_write(record, buffer.as_mut_ptr(), buffer.len(), &mut length) };
    length
}

/// One step from the keys that sound over the base key 60: the answer and the length of the messages.
fn midi(sounding: &mut [u8; 16], record: &Record, out: &mut [u8; 384]) -> (u8, usize) {
    let mut length = 0;
    // SAFETY: as above.
    let number = unsafe { nophtris_midi(sounding.as_mut_ptr(), 60, record, out.as_mut_ptr(), out.len(), &mut length) };
    (number, length)
}

/// ns per text of one pass over the texts, so often that it takes some milliseconds.
fn time(texts: &[String], mut each: impl FnMut(usize, &str)) -> f64 {
    let times = 40_000 / texts.iter().map(|t| t.len() + 8).sum::<usize>() * 8 + 1;
    let start = Instant::now();
    for _ in 0..times {
        for (i, text) in texts.iter().enumerate() {
            each(i, black_box(text));
        }
    }
    start.elapsed().as_nanos() as f64 / (times * texts.len()) as f64
}

fn best_and_median(rounds: &mut [f64]) -> (f64, f64) {
    rounds.sort_by(f64::total_cmp);
    (rounds[0], rounds[rounds.len() / 2])
}

fn row(name: &str, texts: &[String]) {
    let mut parser = Parser::new();
    let mut errors = [0; 1028];
    let mut record = Record([0; 51]);
    let (mut rust, mut ours) = (Vec::new(), Vec::new());
    for _ in 0..ROUNDS {
        rust.push(time(texts, |_, t| drop(black_box(parser.parse(t)))));
        ours.push(time(texts, |_, t| drop(black_box(read(t, &mut errors, &mut record)))));
    }
    let ((rb, rm), (ob, om)) = (best_and_median(&mut rust), best_and_median(&mut ours));
    println!("{name:<34} {rb:>9.0} {rm:>9.0} {ob:>9.0} {om:>9.0} {:>7.2} {:>7.2}", ob / rb, om / rm);
}

fn records(texts: &[String]) -> Vec<Record> {
    let mut errors = [0; 1028];
    let read_one = |t: &String| {
        let mut record = Record([0; 51]);
        assert_eq!(read(t, &mut errors, &mut record), 0, "{t}");
        record
    };
    texts.iter().map(read_one).collect()
}

fn writing(texts: &[String]) {
    let records = records(texts);
    let mut buffer = [0; 112];
    let mut ours: Vec<f64> = (0..ROUNDS).map(|_| time(texts, |i, _| drop(black_box(write(&records[i], &mut buffer))))).collect();
    let (best, median) = best_and_median(&mut ours);
    println!("{:<34} {:>9} {:>9} {best:>9.0} {median:>9.0}", "writing the ordinary symbols", "", "");
}

/// From each symbol to the next, and from the last to the first. Reading, in turns with it, is what it is compared with.
fn stepping(texts: &[String]) {
    let records = records(texts);
    let (mut errors, mut record, mut sounding, mut out) = ([0; 1028], Record([0; 51]), [0; 16], [0; 384]);
    assert!(records.iter().all(|r| midi(&mut sounding, r, &mut out).0 == 0));
    let (mut reading, mut ours) = (Vec::new(), Vec::new());
    for _ in 0..ROUNDS {
        reading.push(time(texts, |_, t| drop(black_box(read(t, &mut errors, &mut record)))));
        ours.push(time(texts, |i, _| drop(black_box(midi(&mut sounding, &records[i], &mut out)))));
    }
    let ((rb, rm), (ob, om)) = (best_and_median(&mut reading), best_and_median(&mut ours));
    println!("{:<34} {:>9} {:>9} {ob:>9.0} {om:>9.0}", "MIDI from each to the next", "", "");
    println!("of reading one: {:.2} by the best, {:.2} by the medians ({rb:.0} and {rm:.0} ns in the same rounds)", ob / rb, om / rm);
}

/// A piece again and again behind C, up to 256 bytes.
fn full(piece: &str) -> Vec<String> {
    vec![format!("C{}", piece.repeat(255 / piece.len()))]
}

fn main() {
    let file = std::env::args().nth(1).expect("a file of symbols");
    let symbols: Vec<String> = std::fs::read_to_string(file).expect("readable").lines().map(String::from).collect();
    println!("{:<34} {:>9} {:>9} {:>9} {:>9} {:>7} {:>7}", "ns per text", "Rust best", "median", "ours best", "median", "ratio", "median");
    row(&format!("{} ordinary symbols", symbols.len()), &symbols);
    row("256 bytes: one letter run", &full("madim"));
    row("256 bytes: letters of no word", &full("z"));
    row("256 bytes: one digit run", &full("1"));
    row("256 bytes: 255 opening brackets", &full("("));
    row("256 bytes: brackets opened, closed", &full("()"));
    row("256 bytes: tokens in one bracket", &vec![format!("C({}", "9".repeat(254))]);
    row("256 bytes: commas", &full(","));
    row("256 bytes: sevenths and dims", &full("dim7"));
    row("256 bytes: dims, then sevenths", &vec![format!("C{}{}", "dim".repeat(63), "7".repeat(63))]);
    row("256 bytes: Maj7", &full("Maj7"));
    row("256 bytes: signs of three bytes", &full("♯"));
    row("256 bytes: spaces", &full(" "));
    writing(&symbols);
    stepping(&symbols);
}
