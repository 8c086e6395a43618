//! Reads each argument as a card, as a song line where it has a `|`, or as a body and an ending where it has a `;` between them, and prints
//! the house spelling of each text, that it is no chord, or what refused it; for a card also the MIDI messages from silence to its keys.
mod nophtris;

fn card(text: &[u8], read: &Result<nophtris::Chord, nophtris::Refusal>) {
    let text = String::from_utf8_lossy(text);
    match read {
        Ok(nophtris::Chord::NONE) => println!("no chord"),
        Ok(chord) => println!("{text}: {}", nophtris::write(chord).expect("an accepted text has a spelling")),
        Err(refusal) => println!("{text}: {refusal:?}"),
    }
}

/// The messages from silence to a chord over the base key 60, middle C, as hexadecimal bytes in one line.
fn messages(chord: &nophtris::Chord) {
    let (mut keys, mut out) = (nophtris::Keys::SILENCE, [0; nophtris::OUTPUT]);
    let sent = nophtris::midi(&mut keys, 60, chord, &mut out).expect("an accepted text has its keys over 60 among the 128");
    println!("  MIDI:{}", sent.iter().map(|byte| format!(" {byte:02X}")).collect::<String>());
}

/// The bars of a body and an ending by their numbers, 0, 1 and so on, as long as there are any.
fn endings(body: &[u8], ending: &[u8]) {
    for number in 0.. {
        match nophtris::bar(body, ending, number) {
            Ok(bar) => card(bar, &nophtris::read(bar)),
            Err(nophtris::BarRefusal::NoBar) => return,
            Err(nophtris::BarRefusal::LongLine) => return println!("more than {} bytes", nophtris::LINE),
        }
    }
}

fn main() {
    for text in std::env::args().skip(1) {
        if let Some((body, ending)) = text.split_once(';') {
            endings(body.as_bytes(), ending.as_bytes());
        } else if !text.contains('|') {
            let read = nophtris::read(text.as_bytes());
            card(text.as_bytes(), &read);
            if let Ok(chord) = &read {
                messages(chord);
            }
        } else if let Some(bars) = nophtris::bars(text.as_bytes()) {
            bars.for_each(|(bar, read)| card(bar, &read));
        } else {
            println!("{text}: more than {} bytes", nophtris::LINE);
        }
    }
}
