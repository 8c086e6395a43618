//! The generator: writes texts of a class, one a line, for the oracle and our programs to read.
//!
//! Text n of a class depends on the class, the seed and n alone, so that any part of a run can be made again by itself.
//! No text holds a newline.
use std::io::{self, Write};

/// The word list, as document 01 names it.
const WORDS: &[&str] = &[
    "BASS", "Bass", "bass", "MAJ", "Maj", "maj", "MAJOR", "Major", "major", "MA", "Ma", "ma", "M", "MIN", "Min", "min",
    "MINOR", "Minor", "minor", "MI", "Mi", "mi", "m", "b", "SUS", "Sus", "sus", "DIM", "Dim", "dim", "diminished",
    "ALT", "Alt", "alt", "AUG", "Aug", "aug", "ADD", "Add", "add", "O", "o", "OMIT", "Omit", "omit", "NO", "No", "no",
    "A", "B", "C", "D", "E", "F", "G",
];

/// The numbers that are tokens, and some that are not.
const NUMBERS: &[&str] = &["2", "3", "4", "5", "6", "7", "9", "11", "13"];
const WRONG_NUMBERS: &[&str] = &["0", "1", "8", "10", "12", "14", "15", "19", "113", "131", "77", "99"];

/// The signs of one byte, and those of more.
const SIGNS: &[&str] = &["#", "-", "+", "^", "/", "(", ")", ",", " "];
const WIDE_SIGNS: &[&str] = &["♯", "♭", "△", "Δ", "°", "ø"];

/// Characters without a token of their own: the ends of each UTF-8 length, look-alikes, spaces, controls.
const STRANGERS: &[&str] = &[
    "\u{0}", "\t", "\r", "\u{b}", "\u{1f}", "\u{7f}", "\u{80}", "\u{a0}", "é", "ß", "Ø", "º", "∆", "\u{7ff}",
    "\u{800}", "\u{2009}", "\u{200b}", "‐", "−", "＃", "（", "♮", "中", "\u{d7ff}", "\u{e000}", "\u{feff}", "\u{ffff}",
    "\u{10000}", "𝄪", "𝄫", "😀", "\u{10ffff}", "!", "\"", "'", "*", ".", ":", ";", "?", "[", "]", "_", "`", "{", "|",
    "}", "~", "\\", "$", "%", "&", "<", "=", ">", "@",
];

/// Numerals that are not ASCII digits: all but the raised ones put a text outside the comparison.
const NUMERALS: &[&str] = &["²", "³", "¹", "½", "⁷", "₇", "Ⅶ", "⑦", "７", "٧", "〇", "𝟕"];

/// The raised numerals, by their digits.
const RAISED: &[&str] = &["⁰", "¹", "²", "³", "⁴", "⁵", "⁶", "⁷", "⁸", "⁹"];

/// The pieces of `short`, one or more for each kind of token, and how many of them a count of 0 goes up to.
const SHORT: &[&str] = &[
    "E", "#", "b", "♯", "♭", "+", "o", "ø", "2", "3", "4", "5", "6", "7", "9", "11", "13", "add", "no", "alt", "sus",
    "m", "-", "Maj", "^", "/", "(", ")", ",", "bass", "x", "1", " ",
];
const SHORT_PIECES: u32 = 4;

/// The characters of `chars`, and how many of them a count of 0 goes up to.
const CHARS: &[&str] = &[
    "C", "b", "#", "m", "a", "n", "o", "ø", "+", "-", "^", "(", ")", ",", "/", " ", "1", "3", "4", "5", "6", "7", "9",
    "x",
];
const CHARS_PIECES: u32 = 5;

/// A source of numbers that look random: splitmix64.
struct Random {
    state: u64,
}

/// The last step of splitmix64: every bit of the answer depends on every bit of the input.
fn mix(mut z: u64) -> u64 {
    z = (z ^ (z >> 30)).wrapping_mul(0xbf58_476d_1ce4_e5b9);
    z = (z ^ (z >> 27)).wrapping_mul(0x94d0_49bb_1331_11eb);
    z ^ (z >> 31)
}

impl Random {
    /// The source for text `index` of a run with this seed.
    fn new(seed: u64, index: u64) -> Random {
        Random { state: mix(mix(seed ^ 0x6e6f_7068_7472_6973).wrapping_add(index)) }
    }

    fn next(&mut self) -> u64 {
        self.state = self.state.wrapping_add(0x9e37_79b9_7f4a_7c15);
        mix(self.state)
    }

    /// A number below `limit`.
    fn below(&mut self, limit: usize) -> usize {
        (((self.next() >> 32) * limit as u64) >> 32) as usize
    }

    /// A number from `low` to `high`.
    fn between(&mut self, low: usize, high: usize) -> usize {
        low + self.below(high - low + 1)
    }

    /// True once in `times`.
    fn once_in(&mut self, times: usize) -> bool {
        self.below(times) == 0
    }

    fn byte(&mut self) -> u8 {
        self.next() as u8
    }

    /// One of the pieces.
    fn pick<'a>(&mut self, pieces: &[&'a str]) -> &'a str {
        pieces[self.below(pieces.len())]
    }
}

/// A text that is being made.
struct Text<'a> {
    bytes: &'a mut Vec<u8>,
    start: usize,
}

impl Text<'_> {
    fn len(&self) -> usize {
        self.bytes.len() - self.start
    }

    fn add(&mut self, piece: &str) {
        self.bytes.extend_from_slice(piece.as_bytes());
    }

    /// Adds one of the pieces.
    fn add_one(&mut self, random: &mut Random, pieces: &[&str]) {
        self.add(random.pick(pieces));
    }

    /// Takes newlines out, which only random bytes bring in.
    fn without_newlines(&mut self) {
        for byte in &mut self.bytes[self.start..] {
            if *byte == b'\n' {
                *byte = 0x8a;
            }
        }
    }
}

/// Adds sequence `index` over the pieces, in the order: by length, the last piece fastest.
fn sequence(pieces: &[&str], mut index: u64, text: &mut Text) {
    let base = pieces.len() as u64;
    let mut length = 0;
    let mut count = 1;
    while index >= count {
        index -= count;
        count *= base;
        length += 1;
    }
    for _ in 0..length {
        count /= base;
        text.add(pieces[(index / count % base) as usize]);
    }
}

/// How many texts `exhaustive` has with up to `length` pieces.
fn exhaustive_count(pieces: &[&str], length: u32) -> u64 {
    (0..=length).map(|n| 2 * (pieces.len() as u64).pow(n)).sum()
}

/// Every sequence of pieces, once after a root and once without.
fn exhaustive(pieces: &[&str], index: u64, text: &mut Text) {
    if index % 2 == 0 {
        text.add("C");
    }
    sequence(pieces, index / 2, text);
}

/// A letter, in one of four texts with a sign.
fn root(random: &mut Random, text: &mut Text) {
    text.add_one(random, &["C", "D", "E", "F", "G", "A", "B"]);
    if random.once_in(4) {
        text.add_one(random, &["#", "b", "#", "b", "♯", "♭"]);
    }
}

/// Any piece that is made of ASCII characters.
fn plain_piece(random: &mut Random) -> &'static str {
    match random.below(8) {
        0 | 1 => random.pick(WORDS),
        2 | 3 => random.pick(NUMBERS),
        4 => random.pick(WRONG_NUMBERS),
        _ => random.pick(SIGNS),
    }
}

/// Adds pieces until the text has exactly `length` bytes; the last gap is filled with single bytes.
fn fill(random: &mut Random, text: &mut Text, length: usize, piece: fn(&mut Random) -> &'static str) {
    while text.len() < length {
        let next = piece(random);
        if text.len() + next.len() <= length {
            text.add(next);
        } else {
            text.add_one(random, &[" ", ",", ")", "m", "7"]);
        }
    }
}

/// A length up to 256 and a little above: often close to the limit.
fn long_length(random: &mut Random) -> usize {
    match random.below(8) {
        0 => random.between(253, 259),
        1 => random.between(255, 257),
        2 => random.between(200, 256),
        3 => random.between(100, 256),
        _ => random.between(0, 128),
    }
}

/// Long texts, in several manners.
fn long(random: &mut Random, text: &mut Text) {
    let length = long_length(random);
    if !random.once_in(16) && length > 1 {
        root(random, text);
    }
    match random.below(8) {
        // One piece again and again.
        0 => {
            let piece = if random.once_in(4) { random.pick(WIDE_SIGNS) } else { plain_piece(random) };
            while text.len() + piece.len() <= length {
                text.add(piece);
            }
        }
        // What stays accepted at any length, as repeats of these are no error; and then with others among them.
        1 => fill(random, text, length, |r| {
            r.pick(&[" ", "  ", "    ", ",", "add9", "omit5", "no3", "add6", "addMaj7", "add13", "no5", ", "])
        }),
        2 => {
            fill(random, text, length * 7 / 8, |r| r.pick(&[" ", "        ", ",", "add9", "no3", "add6", "no5"]));
            fill(random, text, length, |r| r.pick(&[" ", "addb9", "add5", ",b9", "add#9", "m", "7", "addb13", ",#11"]));
        }
        3 => fill(random, text, length, |r| r.pick(&["(", ")", ",", "/", "no", "add", "3", "5", "9"])),
        4 => fill(random, text, length, |r| r.pick(&["1", "3", "7", "9", "11", "13", "0", "5", "2"])),
        5 => fill(random, text, length, |r| if r.once_in(2) { r.pick(WIDE_SIGNS) } else { plain_piece(r) }),
        _ => fill(random, text, length, plain_piece),
    }
}

/// Adds a group of targets, such as `add9,b13` or `omit3,5`: mostly targets that its word takes.
fn group(random: &mut Random, text: &mut Text) {
    const ADDED: &[&str] = &["9", "2", "4", "6", "11", "13", "b9", "#9", "#11", "b13", "b6", "3", "^", "Maj7"];
    const OMITTED: &[&str] = &["3", "5"];
    const ANY: &[&str] = &["5", "7", "9", "#4", "b5", "♭3", "b", "#", "^", "m", "sus", "", "1", "no5", "add6"];
    let omit = random.once_in(2);
    text.add_one(random, if omit { &["omit", "no", "Omit"] } else { &["add", "Add", "ADD"] });
    for place in 0..random.between(1, 3) {
        if place > 0 || random.once_in(16) {
            text.add_one(random, &[",", ",", ",", "", ", ", ",,"]);
        }
        let targets = if random.once_in(8) { ANY } else if omit { OMITTED } else { ADDED };
        text.add_one(random, targets);
    }
}

/// Brackets, commas and slashes, half of them in an order that makes sense.
fn brackets(random: &mut Random, text: &mut Text) {
    if !random.once_in(16) {
        root(random, text);
    }
    let ordered = random.once_in(2);
    for _ in 0..random.between(1, 3) {
        if ordered {
            text.add_one(random, &["(", "(", "(", "(", "(", "(", "", "(("]);
            group(random, text);
            text.add_one(random, &[")", ")", ")", ")", ")", ",)", "", "))"]);
            if random.once_in(3) {
                text.add_one(random, &["5", "3", "b5", "#4", ",9", ",", "9", "/E", "m", "^", "7", ",5", ",3", ")"]);
            }
        } else {
            for _ in 0..random.between(1, 5) {
                text.add_one(random, &[
                    "(", "(", "(", ")", ")", ")", ",", ",", "/", "/", "add", "omit", "no", "sus", "6/9", "3", "5", "9",
                    "#4", "b5", "6", "11", "E", "Bb", "#", "b", "^", "m", " ", "x",
                ]);
            }
        }
    }
}

/// Wide signs and other characters of several bytes among words and numbers.
fn signs(random: &mut Random, text: &mut Text) {
    if !random.once_in(8) {
        root(random, text);
    }
    for _ in 0..random.between(1, 8) {
        match random.below(64) {
            0 => text.add_one(random, NUMERALS),
            1..=9 => text.add_one(random, STRANGERS),
            10..=31 => text.add_one(random, WIDE_SIGNS),
            32..=47 => text.add_one(random, NUMBERS),
            _ => text.add(plain_piece(random)),
        }
    }
}

/// Byte sequences at the edges of what RFC 3629 allows, and just outside.
const EDGES: &[&[u8]] = &[
    // Overlong forms, shortest and longest of each length.
    b"\xc0\x80", b"\xc0\xaf", b"\xc1\xbf", b"\xe0\x80\x80", b"\xe0\x9f\xbf", b"\xf0\x80\x80\x80", b"\xf0\x8f\xbf\xbf",
    // Surrogates, alone and as a pair.
    b"\xed\xa0\x80", b"\xed\xaf\xbf", b"\xed\xb0\x80", b"\xed\xbf\xbf", b"\xed\xa0\x80\xed\xb0\x80",
    // Above U+10FFFF, and leads that RFC 3629 does not have.
    b"\xf4\x90\x80\x80", b"\xf5\x80\x80\x80", b"\xf7\xbf\xbf\xbf", b"\xf8\x88\x80\x80\x80", b"\xfc\x84\x80\x80\x80\x80",
    b"\xfe", b"\xff",
    // Cut short, and stray continuation bytes.
    b"\xc2", b"\xdf", b"\xe0\xa0", b"\xe2\x99", b"\xef\xbf", b"\xf0\x90\x80", b"\xf0\x90", b"\xf4\x8f\xbf", b"\x80",
    b"\xbf",
    // The last that are allowed on each side.
    b"\x7f", b"\xc2\x80", b"\xdf\xbf", b"\xe0\xa0\x80", b"\xed\x9f\xbf", b"\xee\x80\x80", b"\xef\xbf\xbf",
    b"\xf0\x90\x80\x80", b"\xf4\x8f\xbf\xbf",
];

/// Adds a lead byte and continuation bytes close to where the rules change, right or wrong in number.
fn near_character(random: &mut Random, text: &mut Text) {
    const LEADS: &[u8] = &[
        0x7f, 0x80, 0xbf, 0xc0, 0xc1, 0xc2, 0xdf, 0xe0, 0xe1, 0xe2, 0xec, 0xed, 0xee, 0xef, 0xf0, 0xf1, 0xf3, 0xf4, 0xf5,
        0xff,
    ];
    const NEXT: &[u8] = &[0x7f, 0x80, 0x8f, 0x90, 0x99, 0x9f, 0xa0, 0xaf, 0xbf, 0xbf, 0x80, 0xc0];
    text.bytes.push(LEADS[random.below(LEADS.len())]);
    for _ in 0..random.below(4) {
        text.bytes.push(NEXT[random.below(NEXT.len())]);
    }
}

/// Texts whose UTF-8 is damaged, with some that are whole again by chance.
fn damaged(random: &mut Random, text: &mut Text) {
    let near_limit = random.once_in(8);
    if near_limit {
        let length = random.between(248, 257);
        fill(random, text, length, |r| r.pick(&[" ", "  ", "        ", ",", "C"]));
    } else if !random.once_in(4) {
        signs(random, text);
    }
    let length = text.len();
    match random.below(8) {
        // Random bytes.
        0 => {
            for _ in 0..random.between(1, 8) {
                let byte = random.byte();
                text.bytes.push(byte);
            }
        }
        // A byte of the text is changed, or the text is cut at any byte.
        1 if length > 0 => text.bytes[text.start + random.below(length)] = random.byte(),
        2 if length > 0 => text.bytes.truncate(text.start + random.below(length)),
        3 | 4 => near_character(random, text),
        _ => text.bytes.extend_from_slice(EDGES[random.below(EDGES.len())]),
    }
    if !near_limit && random.once_in(2) {
        for _ in 0..random.between(1, 3) {
            text.add(plain_piece(random));
        }
    }
    text.without_newlines();
}

/// Adds an altered number.
fn alteration(random: &mut Random, text: &mut Text) {
    text.add_one(random, &[
        "b5", "#5", "b9", "#9", "#11", "b13", "b5", "#5", "b9", "#9", "#11", "b13", "9", "11", "13", "6", "b6", "7", "4",
        "♭9", "♯11", "♯5", "2", "3", "b2", "b3",
    ]);
}

/// Adds what may follow a chord's quality: an alteration, an added or omitted interval, a suspension.
fn part(random: &mut Random, text: &mut Text) {
    match random.below(8) {
        0 | 1 => {
            text.add_one(random, &["add", "add", "Add", "ADD"]);
            text.add_one(random, &[
                "9", "2", "4", "6", "11", "13", "b9", "#9", "#11", "b13", "b6", "3", "Maj7", "^", "9", "11", "13", "5",
                "7", "b3", "b5",
            ]);
        }
        2 => {
            text.add_one(random, &["omit", "no", "No", "OMIT"]);
            text.add_one(random, &["3", "5"]);
        }
        3 => text.add_one(random, &["sus", "sus2", "sus4", "susb2", "sus#4", "Sus", "sus♭2", "sus13", "sus9"]),
        4 if random.once_in(3) => text.add_one(random, QUALITIES),
        _ => alteration(random, text),
    }
}

/// What follows a root in an ordinary chord.
const QUALITIES: &[&str] = &[
    "", "", "", "", "m", "m", "min", "Min", "mi", "-", "Maj7", "maj7", "Maj", "Ma7", "M7", "^", "△", "Δ7", "dim", "°",
    "dim7", "°7", "o7", "ø", "ø7", "+", "aug", "alt", "7alt", "5", "bass", "mMaj7", "m^", "-7", "m7", "7", "7", "+7",
    "minor", "major", "diminished",
];

/// Adds the parts in brackets, with commas between.
fn parts_in_brackets(random: &mut Random, text: &mut Text) {
    text.add("(");
    for place in 0..random.between(1, 3) {
        if place > 0 {
            text.add_one(random, &[",", ",", "", ", "]);
        }
        part(random, text);
    }
    text.add(")");
}

/// Chords as lead sheets have them, with parts put together at random.
fn chords(random: &mut Random, text: &mut Text) {
    root(random, text);
    text.add_one(random, QUALITIES);
    if random.once_in(2) {
        text.add_one(random, &["7", "9", "11", "13", "6", "6/9", "69", "7", "9", "13"]);
    }
    match random.below(8) {
        0..=2 => {}
        3..=5 => {
            text.add_one(random, &[",", ",", "", " "]);
            for _ in 0..random.between(1, 3) {
                part(random, text);
            }
        }
        _ => parts_in_brackets(random, text),
    }
    // Now and then a quality again, so that several kinds of expression repeat.
    if random.once_in(16) {
        text.add_one(random, QUALITIES);
        text.add_one(random, QUALITIES);
    }
    if random.once_in(6) {
        text.add("/");
        root(random, text);
    }
}

/// Digit runs, numbers and signs.
fn digits(random: &mut Random, text: &mut Text) {
    if !random.once_in(8) {
        root(random, text);
    }
    for _ in 0..random.between(1, 6) {
        match random.below(8) {
            0 | 1 => text.add_one(random, NUMBERS),
            2 => text.add_one(random, WRONG_NUMBERS),
            3 | 4 => {
                for _ in 0..random.between(1, 6) {
                    text.add_one(random, &["0", "1", "1", "1", "2", "3", "3", "4", "5", "6", "7", "7", "8", "9"]);
                }
            }
            5 => text.add_one(random, &["#", "b", "♯", "♭", "-", "+", ",", " "]),
            6 => text.add_one(random, &["#", "b", "/", "(", ")", "^", "°", "M"]),
            _ => text.add_one(random, &["add", "no", "sus", "m", "dim", "Maj", "alt"]),
        }
    }
    // Once in a while a run of up to the full length.
    if random.once_in(64) {
        let length = random.between(text.len(), 258);
        fill(random, text, length, |r| r.pick(&["1", "3", "7", "9", "2", "8", "1"]));
    }
}

/// Adds a word whole, its beginning, its end, or with one letter in the other case.
fn fragment(random: &mut Random, text: &mut Text) {
    let word = random.pick(WORDS);
    let place = random.below(word.len());
    match random.below(8) {
        0 => text.add(&word[..place]),
        1 => text.add(&word[place..]),
        2 => {
            let at = text.bytes.len() + place;
            text.add(word);
            text.bytes[at] ^= 0x20;
        }
        3 => text.bytes.push(b'a' + random.below(26) as u8),
        _ => text.add(word),
    }
}

/// Letter runs put together from words and pieces of words.
fn words(random: &mut Random, text: &mut Text) {
    if !random.once_in(8) {
        root(random, text);
    }
    for _ in 0..random.between(1, 3) {
        for _ in 0..random.between(1, 4) {
            fragment(random, text);
        }
        if random.once_in(2) {
            text.add_one(random, &["7", "5", "3", "9", "2", "4", ",", " ", "-", "#", "/", "(", ")"]);
        }
    }
}

/// A text of another class with digits raised, all of them or some, and now and then a raised numeral more. Each text has one.
fn raised(random: &mut Random, text: &mut Text) {
    match random.below(8) {
        0 | 1 => exhaustive(SHORT, random.next() % exhaustive_count(SHORT, SHORT_PIECES), text),
        2 => brackets(random, text),
        3 => long(random, text),
        4 => signs(random, text),
        5 | 6 => digits(random, text),
        _ => chords(random, text),
    }
    let plain = text.bytes.split_off(text.start);
    let some = random.once_in(2);
    let mut none = true;
    for byte in plain {
        let raise = byte.is_ascii_digit() && !(some && random.once_in(2));
        if raise {
            text.add(RAISED[usize::from(byte - b'0')]);
        } else {
            text.bytes.push(byte);
        }
        none &= !raise;
        // Only behind ASCII, where no character can be cut.
        if byte.is_ascii() && random.once_in(32) {
            text.add_one(random, RAISED);
            none = false;
        }
    }
    if none {
        text.add_one(random, RAISED);
    }
}

/// A class of texts: how a text is made of the seed and its number, and how many texts a count of 0 means.
struct Class {
    name: &'static str,
    make: fn(u64, u64, &mut Text),
    all: fn() -> u64,
}

/// The first two go through all sequences of pieces, the others draw them.
const CLASSES: &[Class] = &[
    Class { name: "short", make: |_, n, t| exhaustive(SHORT, n, t), all: || exhaustive_count(SHORT, SHORT_PIECES) },
    Class { name: "chars", make: |_, n, t| exhaustive(CHARS, n, t), all: || exhaustive_count(CHARS, CHARS_PIECES) },
    Class { name: "long", make: |s, n, t| long(&mut Random::new(s, n), t), all: || 0 },
    Class { name: "brackets", make: |s, n, t| brackets(&mut Random::new(s, n), t), all: || 0 },
    Class { name: "signs", make: |s, n, t| signs(&mut Random::new(s, n), t), all: || 0 },
    Class { name: "damaged", make: |s, n, t| damaged(&mut Random::new(s, n), t), all: || 0 },
    Class { name: "chords", make: |s, n, t| chords(&mut Random::new(s, n), t), all: || 0 },
    Class { name: "digits", make: |s, n, t| digits(&mut Random::new(s, n), t), all: || 0 },
    Class { name: "words", make: |s, n, t| words(&mut Random::new(s, n), t), all: || 0 },
    Class { name: "raised", make: |s, n, t| raised(&mut Random::new(s, n), t), all: || 0 },
];

/// Writes the texts from number `from` up to `end`.
fn write_texts(class: &Class, seed: u64, from: u64, end: u64) -> io::Result<()> {
    const BLOCK: usize = 1 << 18;
    let mut output = io::stdout().lock();
    let mut bytes = Vec::with_capacity(2 * BLOCK);
    for index in from..end {
        let start = bytes.len();
        (class.make)(seed, index, &mut Text { bytes: &mut bytes, start });
        bytes.push(b'\n');
        if bytes.len() > BLOCK {
            output.write_all(&bytes)?;
            bytes.clear();
        }
    }
    output.write_all(&bytes)?;
    output.flush()
}

/// What the arguments ask for: class, first text, text after the last, seed.
fn request(arguments: &[String]) -> Option<(&'static Class, u64, u64, u64)> {
    let [name, count, seed, from @ ..] = arguments else { return None };
    let place = CLASSES.iter().position(|class| class.name == name)?;
    let class = &CLASSES[place];
    let count: u64 = count.parse().ok()?;
    // The classes draw other numbers from the same seed.
    let seed = seed.parse::<u64>().ok()? ^ (place as u64) << 56;
    let from: u64 = match from {
        [] => 0,
        [from] => from.parse().ok()?,
        _ => return None,
    };
    let end = if count == 0 { (class.all)() } else { from.checked_add(count)? };
    Some((class, from, end, seed))
}

fn main() {
    let arguments: Vec<String> = std::env::args().skip(1).collect();
    if arguments == ["classes"] {
        CLASSES.iter().for_each(|class| println!("{} {}", class.name, (class.all)()));
        return;
    }
    let Some((class, from, end, seed)) = request(&arguments) else {
        eprintln!("usage: generate CLASS COUNT SEED [FROM]");
        eprintln!("       generate classes (their names, and how many texts a COUNT of 0 means)");
        std::process::exit(2);
    };
    // A reader that has seen enough closes the pipe; that is no failure.
    if write_texts(class, seed, from, end).is_err() {
        std::process::exit(1);
    }
}
