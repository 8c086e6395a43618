//! The oracle: reads texts, one a line, and prints one line each of what the Rust makes of it.
//!
//! This file is the driver only. It stands beside the edited copy of the Rust and is built with it; the formats of the
//! modes are in oracle/README.md.
mod bitset;
mod chord;
mod parsing;
mod raised;

/// Stands in for the one module that the Rust names and that is not in its sources. It is never called.
mod inference {
    pub mod normalize {
        use crate::chord::{interval::IntervalSet, quality::ChordQuality};

        pub fn normalized_descriptor(_: IntervalSet, _: ChordQuality) -> String {
            unreachable!("build_chord is not called")
        }
    }
}

use chord::{
    Chord,
    interval::Interval,
    note::{Note, NoteLiteral},
};
use parsing::{
    Parser,
    ast::Ast,
    expression::Exp,
    parser_error::{ParserError, ParserErrors},
    token::{Token, TokenType},
};
use raised::Places;
use std::{
    io::{self, BufRead, Write},
    panic::{self, AssertUnwindSafe},
};

/// The longest text that is read, in bytes.
const LONGEST: usize = 256;

/// Output is kept back until it is about this long.
const BLOCK: usize = 1 << 20;

/// What is printed for a text.
#[derive(Clone, Copy)]
enum Mode {
    Listing { repeats: bool },
    Tokens,
    Scan,
    Parse,
}

/// The mode that the arguments name.
fn mode(arguments: &[String]) -> Option<Mode> {
    let words: Vec<&str> = arguments.iter().map(String::as_str).collect();
    match words[..] {
        [] | ["listing"] => Some(Mode::Listing { repeats: false }),
        ["listing", "repeats"] => Some(Mode::Listing { repeats: true }),
        ["tokens"] => Some(Mode::Tokens),
        ["scan"] => Some(Mode::Scan),
        ["parse"] => Some(Mode::Parse),
        _ => None,
    }
}

/// The lines to be printed, and where the bytes of the text that the Rust was asked about stand in the text that was read.
struct Listing {
    bytes: Vec<u8>,
    places: Places,
}

impl Listing {
    /// Adds a number, right-justified in four columns; a wider one in full.
    fn number(&mut self, number: i64) {
        // Most numbers have one or two digits and take the short way.
        let cell = match number {
            0..=9 => [b' ', b' ', b' ', b'0' + number as u8],
            10..=99 => [b' ', b' ', b'0' + (number / 10) as u8, b'0' + (number % 10) as u8],
            _ => return write!(self.bytes, "{number:4}").expect("a vector takes all bytes"),
        };
        self.bytes.extend_from_slice(&cell);
    }

    /// Adds a size.
    fn size(&mut self, size: usize) {
        self.number(size as i64);
    }

    /// Adds a position of the Rust's, mapped back.
    fn position(&mut self, position: usize) {
        self.size(self.places.back(position));
    }

    /// Adds a note's letter (C 0 to B 6) and its alteration.
    fn note(&mut self, note: Note) {
        self.number(note.literal as i64);
        self.number(note.modifier.map_or(0, |modifier| modifier.0.into()));
    }

    /// Adds the count of intervals and their numbers.
    fn intervals(&mut self, intervals: &[Interval]) {
        self.size(intervals.len());
        for interval in intervals {
            self.number(*interval as i64);
        }
    }

    /// Adds the count of errors and four numbers for each.
    fn errors(&mut self, errors: &[ParserError]) {
        self.size(errors.len());
        for error in errors {
            for number in error_numbers(error, &self.places) {
                self.size(number);
            }
        }
    }
}

/// An error's four numbers: its kind, its values, zeros. Positions are mapped back.
fn error_numbers(error: &ParserError, places: &Places) -> [usize; 4] {
    let back = |position: &usize| places.back(*position);
    match error {
        ParserError::IllegalToken(pos) => [1, back(pos), 0, 0],
        ParserError::UnexpectedNote(pos) => [2, back(pos), 0, 0],
        ParserError::DuplicateModifier(priority) => [3, decimal(priority), 0, 0],
        ParserError::InconsistentExtension(interval) => [4, *interval as usize, 0, 0],
        ParserError::DuplicateExtension(pos) => [5, back(pos), 0, 0],
        ParserError::InvalidExtension(pos) => [6, back(pos), 0, 0],
        ParserError::WrongExpressionTarget(pos) => [7, back(pos), 0, 0],
        ParserError::UnexpectedModifier(pos) => [8, back(pos), 0, 0],
        ParserError::MissingRootNote => [9, 0, 0, 0],
        ParserError::ThreeConsecutiveSemitones(names) => {
            [10, decimal(&names[0]), decimal(&names[1]), decimal(&names[2])]
        }
        ParserError::MissingAddTarget((pos, len)) => [11, back(pos), *len, 0],
        ParserError::IllegalOrMissingOmitTarget((pos, len)) => [12, back(pos), *len, 0],
        ParserError::IllegalAddTarget((pos, len)) => [13, back(pos), *len, 0],
        ParserError::IllegalSlashNotation(pos) => [14, back(pos), 0, 0],
        ParserError::UnexpectedClosingParenthesis(pos) => [15, back(pos), 0, 0],
        ParserError::MissingClosingParenthesis(pos) => [16, back(pos), 0, 0],
        ParserError::NestedParenthesis(pos) => [17, back(pos), 0, 0],
        ParserError::InvalidPowerExpression => [18, 0, 0, 0],
    }
}

/// The number in an error's string: the edits put numbers where the Rust formats names.
fn decimal(string: &str) -> usize {
    string.parse().unwrap_or_else(|_| give_up("an error does not carry a number"))
}

/// Ends the oracle itself, so that a fault of the driver is not taken for an answer of the Rust.
fn give_up(reason: &str) -> ! {
    eprintln!("oracle: {reason}");
    std::process::exit(3)
}

/// A token's kind, in the order of `TokenType`, and its value.
fn token_numbers(token: &Token) -> (i64, i64) {
    match token.token_type {
        TokenType::Note(letter) => (0, NoteLiteral::from_string(letter) as i64),
        TokenType::Sharp => (1, 0),
        TokenType::Flat => (2, 0),
        TokenType::Aug => (3, 0),
        TokenType::Dim => (4, 0),
        TokenType::Dim7 => (5, 0),
        TokenType::HalfDim => (6, 0),
        TokenType::Extension(number) => (7, number.into()),
        TokenType::Add => (8, 0),
        TokenType::Omit => (9, 0),
        TokenType::Alt => (10, 0),
        TokenType::Sus => (11, 0),
        TokenType::Minor => (12, 0),
        TokenType::Hyphen => (13, 0),
        TokenType::Maj => (14, 0),
        TokenType::Maj7 => (15, 0),
        TokenType::Slash => (16, 0),
        TokenType::LParent => (17, 0),
        TokenType::RParent => (18, 0),
        TokenType::Comma => (19, 0),
        TokenType::Bass => (20, 0),
        TokenType::Illegal => (21, 0),
        TokenType::Eof => (22, 0),
    }
}

/// An expression's kind, in the order of `Exp`, and its two values; a position is mapped back.
fn expression_numbers(expression: &Exp, places: &Places) -> [i64; 3] {
    let back = |position: usize| places.back(position) as i64;
    match expression {
        Exp::Power => [0, 0, 0],
        Exp::Bass => [1, 0, 0],
        Exp::Maj => [2, 0, 0],
        Exp::Maj7 => [3, 0, 0],
        Exp::Minor => [4, 0, 0],
        Exp::HalfDim => [5, 0, 0],
        Exp::Dim => [6, 0, 0],
        Exp::Dim7 => [7, 0, 0],
        Exp::Alt => [8, 0, 0],
        Exp::Aug => [9, 0, 0],
        Exp::Sus(sus) => [10, sus.interval as i64, 0],
        Exp::Extension(extension) => [11, extension.interval as i64, back(extension.pos)],
        Exp::Add(add) => [12, add.interval as i64, back(add.target_pos)],
        Exp::Omit(omit) => [13, omit.interval as i64, back(omit.target_pos)],
        Exp::SlashBass(bass) => {
            [14, bass.note.literal as i64, bass.note.modifier.map_or(0, |modifier| modifier.0.into())]
        }
    }
}

/// Adds the count of tokens and four numbers for each.
fn list_tokens(tokens: &[Token], out: &mut Listing) {
    out.size(tokens.len());
    for token in tokens {
        let (kind, value) = token_numbers(token);
        out.number(kind);
        out.number(value);
        out.position(token.pos);
        out.size(token.len);
    }
}

/// Adds the root, the expressions and the parse errors.
fn list_expressions(ast: &Ast, errors: &[ParserError], out: &mut Listing) {
    // The Rust leaves its default root in place where it finds none.
    if errors.contains(&ParserError::MissingRootNote) {
        out.number(-1);
        out.number(0);
    } else {
        out.note(ast.root);
    }
    out.size(ast.expressions.len());
    for expression in &ast.expressions {
        for number in expression_numbers(expression, &out.places) {
            out.number(number);
        }
    }
    out.errors(errors);
}

/// Adds an accepted text's root, slash bass, normalized set and display list.
fn list_chord(chord: &Chord, out: &mut Listing) {
    // N is printed as the Rust has it, sorted by semitones. That is number order, or the oracle ends here.
    if !chord.normalized_intervals.is_sorted_by(|a, b| (*a as u8) < (*b as u8)) {
        give_up("a normalized set is not in number order");
    }
    out.note(chord.root);
    match chord.bass {
        Some(bass) => out.note(bass),
        None => {
            out.number(-1);
            out.number(0);
        }
    }
    out.intervals(&chord.normalized_intervals);
    out.intervals(&chord.intervals);
}

/// The priorities of the expressions that occur more than once, as the validator counts them, ascending.
fn repeated(expressions: &[Exp]) -> Vec<i64> {
    let mut counts = [0; 15];
    for expression in expressions {
        if !matches!(expression, Exp::Extension(_) | Exp::Add(_) | Exp::Omit(_)) {
            counts[expression.priority() as usize] += 1;
        }
    }
    (0..15).filter(|priority| counts[*priority as usize] > 1).collect()
}

/// Adds document 01's listing of a text, from its number on.
fn list(parser: &mut Parser, text: &str, repeats: bool, out: &mut Listing) {
    match parser.parse(text) {
        Ok(chord) => {
            out.number(0);
            list_chord(&chord, out);
        }
        Err(ParserErrors { errors }) => {
            out.number(if parser.parse_errors().is_empty() { 5 } else { 4 });
            out.errors(&errors);
            if repeats && errors.iter().any(|error| matches!(error, ParserError::DuplicateModifier(_))) {
                out.bytes.extend_from_slice(b" |");
                for priority in repeated(&parser.expressions(text).expressions) {
                    out.number(priority);
                }
            }
        }
    }
}

/// Adds what the mode shows of a text, from its number on.
fn show(mode: Mode, parser: &mut Parser, text: &str, out: &mut Listing) {
    match mode {
        Mode::Listing { repeats } => list(parser, text, repeats, out),
        Mode::Tokens => {
            out.number(0);
            list_tokens(&parser.folded(text), out);
        }
        Mode::Scan => {
            out.number(0);
            list_tokens(&parser.scanned(text), out);
        }
        Mode::Parse => {
            out.number(0);
            let ast = parser.expressions(text);
            list_expressions(&ast, parser.parse_errors(), out);
        }
    }
}

/// Adds a text's line. The Rust has no limit and takes only UTF-8, so 2 and 3 are answered here, by the text's own bytes; then
/// the Rust is asked about the text in plain digits.
fn answer(mode: Mode, parser: &mut Parser, line: usize, text: &[u8], out: &mut Listing) {
    let start = out.bytes.len();
    out.size(line);
    if text.len() > LONGEST {
        out.number(2);
    } else if let Ok(text) = std::str::from_utf8(text) {
        let (text, places) = raised::plain(text);
        out.places = places;
        let shown = panic::catch_unwind(AssertUnwindSafe(|| show(mode, parser, &text, out)));
        if shown.is_err() {
            // A parser that has panicked keeps a position inside its text.
            *parser = Parser::new();
            out.bytes.truncate(start);
            out.bytes.extend_from_slice(b"PANIC");
        }
    } else {
        out.number(3);
    }
    out.bytes.push(b'\n');
}

/// Reads the next line into `text`, without its newline; false at the end of the input.
fn next_line(input: &mut impl BufRead, text: &mut Vec<u8>) -> io::Result<bool> {
    text.clear();
    let read = input.read_until(b'\n', text)?;
    if text.last() == Some(&b'\n') {
        text.pop();
    }
    Ok(read > 0)
}

/// Answers every line of standard input.
fn run(mode: Mode) -> io::Result<()> {
    let mut input = io::BufReader::with_capacity(BLOCK, io::stdin().lock());
    let mut output = io::stdout().lock();
    let mut out = Listing { bytes: Vec::with_capacity(2 * BLOCK), places: Places::default() };
    let mut parser = Parser::new();
    let mut text = Vec::new();
    let mut line = 0;
    while next_line(&mut input, &mut text)? {
        line += 1;
        answer(mode, &mut parser, line, &text, &mut out);
        if out.bytes.len() > BLOCK {
            output.write_all(&out.bytes)?;
            out.bytes.clear();
        }
    }
    output.write_all(&out.bytes)?;
    output.flush()
}

fn main() {
    let arguments: Vec<String> = std::env::args().skip(1).collect();
    let Some(mode) = mode(&arguments) else {
        eprintln!("usage: oracle [listing [repeats] | tokens | scan | parse]");
        std::process::exit(2);
    };
    panic::set_hook(Box::new(|_| {}));
    if let Err(error) = run(mode) {
        give_up(&error.to_string());
    }
}
