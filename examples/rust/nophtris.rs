//! A safe wrapper of the C library: what its functions ask of their pointers is what Rust's references promise.

pub const ERRORS: usize = 1028;
pub const BUFFER: usize = 112;
pub const LINE: usize = 4096;
/// An output of so many bytes is never too short.
pub const OUTPUT: usize = 384;

const END: u8 = 255;

/// A chord record; any values may stand in it.
#[repr(C)]
#[derive(Clone, Copy, Debug, PartialEq, Eq)]
pub struct Chord {
    /// C 0 to B 6, 255 for none.
    pub root_letter: u8,
    pub root_alteration: i8,
    pub bass_letter: u8,
    pub bass_alteration: i8,
    /// 1 for a member.
    pub normalized: [u8; 23],
    pub display_count: u8,
    pub display: [u8; 23],
}

const _: () = assert!(size_of::<Chord>() == 51);

impl Chord {
    /// No chord, which a blank text is read as: the reeds stop.
    pub const NONE: Chord = Chord {
        root_letter: 255,
        root_alteration: 0,
        bass_letter: 255,
        bass_alteration: 0,
        normalized: [0; 23],
        display_count: 0,
        display: [0; 23],
    };
}

/// The keys that sound: key k is bit k % 8 of byte k / 8. Any bytes may stand in it.
#[derive(Clone, Copy, Debug, PartialEq, Eq)]
pub struct Keys(pub [u8; 16]);

impl Keys {
    /// What to begin with.
    pub const SILENCE: Keys = Keys([0; 16]);
}

/// An error: its kind and its values.
#[derive(Clone, Copy, Debug, PartialEq, Eq)]
pub struct Error {
    pub kind: u16,
    pub values: [u16; 3],
}

/// Why a text was refused, with the paper's numbers 2 to 5. (1 cannot occur: the list here is long enough.)
#[derive(Clone, Debug, PartialEq, Eq)]
pub enum Refusal {
    LongText,
    NotUtf8,
    Parse(Vec<Error>),
    Validation(Vec<Error>),
}

mod c {
    unsafe extern "C" {
        pub fn nophtris_read(
            text: *const u8,
            text_len: usize,
            errors: *mut u16,
            errors_len: usize,
            count: *mut u16,
            chord: *mut super::Chord,
        ) -> u8;
        pub fn nophtris_step(
            line: *const u8,
            line_len: usize,
            position: *mut usize,
            errors: *mut u16,
            errors_len: usize,
            count: *mut u16,
            chord: *mut super::Chord,
            bar_from: *mut usize,
            bar_len: *mut usize,
        ) -> u8;
        pub fn nophtris_bar(
            body: *const u8,
            body_len: usize,
            ending: *const u8,
            ending_len: usize,
            number: usize,
            line: *mut u8,
            from: *mut usize,
            len: *mut usize,
        ) -> u8;
        pub fn nophtris_write(chord: *const super::Chord, buffer: *mut u8, buffer_len: usize, length: *mut u16) -> u8;
        pub fn nophtris_midi(
            sounding: *mut u8,
            base: u8,
            chord: *const super::Chord,
            out: *mut u8,
            out_len: usize,
            length: *mut usize,
        ) -> u8;
    }
}

/// The answer of a number 0 or 2 to 5, with the list and the count of its errors.
fn answer(number: u8, chord: Chord, errors: &[u16], count: u16) -> Result<Chord, Refusal> {
    let list = || errors.chunks(4).take(count as usize).map(|e| Error { kind: e[0], values: [e[1], e[2], e[3]] }).collect();
    match number {
        0 => Ok(chord),
        2 => Err(Refusal::LongText),
        3 => Err(Refusal::NotUtf8),
        4 => Err(Refusal::Parse(list())),
        5 => Err(Refusal::Validation(list())),
        n => unreachable!("{n}"),
    }
}

/// Reads any bytes.
pub fn read(text: &[u8]) -> Result<Chord, Refusal> {
    let mut errors = [0u16; ERRORS];
    let mut count = 0;
    let mut chord = Chord::NONE;
    // SAFETY: each pointer comes from a slice or a reference, with that slice's length, and no two overlap.
    let number = unsafe {
        c::nophtris_read(text.as_ptr(), text.len(), errors.as_mut_ptr(), errors.len(), &mut count, &mut chord)
    };
    answer(number, chord, &errors, count)
}

/// The bars of a song line, each with its answer; none where the line has more than 4,096 bytes.
pub fn bars(line: &[u8]) -> Option<Bars<'_>> {
    (line.len() <= LINE).then_some(Bars { line, position: 0 })
}

pub struct Bars<'a> {
    line: &'a [u8],
    position: usize,
}

impl<'a> Iterator for Bars<'a> {
    type Item = (&'a [u8], Result<Chord, Refusal>);

    fn next(&mut self) -> Option<Self::Item> {
        let mut errors = [0u16; ERRORS];
        let mut count = 0;
        let mut chord = Chord::NONE;
        let (mut from, mut len) = (0, 0);
        // SAFETY: as above.
        let number = unsafe {
            c::nophtris_step(
                self.line.as_ptr(),
                self.line.len(),
                &mut self.position,
                errors.as_mut_ptr(),
                errors.len(),
                &mut count,
                &mut chord,
                &mut from,
                &mut len,
            )
        };
        (number != END).then(|| (&self.line[from..from + len], answer(number, chord, &errors, count)))
    }
}

/// Why a bar number has no bar, with the paper's numbers 8 and 9.
#[derive(Clone, Copy, Debug, PartialEq, Eq)]
pub enum BarRefusal {
    LongLine,
    NoBar,
}

/// The bar of a number in a body and an ending, whose bars number from 0 through the one and then on through the other: a part of whichever
/// line has it.
pub fn bar<'a>(body: &'a [u8], ending: &'a [u8], number: usize) -> Result<&'a [u8], BarRefusal> {
    let (mut line, mut from, mut len) = (0, 0, 0);
    // SAFETY: as above.
    let answer = unsafe {
        c::nophtris_bar(
            body.as_ptr(),
            body.len(),
            ending.as_ptr(),
            ending.len(),
            number,
            &mut line,
            &mut from,
            &mut len,
        )
    };
    match answer {
        0 => Ok(&[body, ending][line as usize][from..from + len]),
        8 => Err(BarRefusal::LongLine),
        9 => Err(BarRefusal::NoBar),
        n => unreachable!("{n}"),
    }
}

/// The house spelling of a record; none where no accepted text has its four.
pub fn write(chord: &Chord) -> Option<String> {
    let mut buffer = [0u8; BUFFER];
    let mut length = 0;
    // SAFETY: as above.
    let number = unsafe { c::nophtris_write(chord, buffer.as_mut_ptr(), buffer.len(), &mut length) };
    (number == 0).then(|| String::from_utf8_lossy(&buffer[..length as usize]).into_owned())
}

/// Why no messages lead to a record's keys, with the paper's numbers 7, 10 and 11.
#[derive(Clone, Copy, Debug, PartialEq, Eq)]
pub enum MidiRefusal {
    NoText,
    KeyOutside,
    ShortOutput,
}

/// Goes from the keys that sound to those of a record over a base key. The MIDI messages, three bytes each, are a part of the output; with
/// a refusal the keys and the output are as they were.
pub fn midi<'a>(keys: &mut Keys, base: u8, chord: &Chord, out: &'a mut [u8]) -> Result<&'a [u8], MidiRefusal> {
    let mut length = 0;
    // SAFETY: as above.
    let number = unsafe { c::nophtris_midi(keys.0.as_mut_ptr(), base, chord, out.as_mut_ptr(), out.len(), &mut length) };
    match number {
        0 => Ok(&out[..length]),
        7 => Err(MidiRefusal::NoText),
        10 => Err(MidiRefusal::KeyOutside),
        11 => Err(MidiRefusal::ShortOutput),
        n => unreachable!("{n}"),
    }
}
