//! Raised numerals, document 02 [3]: the Rust, which panics on them, is asked about the same text in plain digits, and its
//! positions are mapped back.
use std::borrow::Cow;

/// The ten numerals that count as digits, by their digits.
pub const RAISED: [char; 10] = ['⁰', '¹', '²', '³', '⁴', '⁵', '⁶', '⁷', '⁸', '⁹'];

/// The plain digit of a raised numeral.
fn plain_digit(c: char) -> Option<char> {
    RAISED.into_iter().zip('0'..='9').find_map(|(raised, digit)| (raised == c).then_some(digit))
}

/// Whether a text has a raised numeral.
pub fn has_raised(text: &str) -> bool {
    !text.is_ascii() && text.contains(RAISED)
}

/// Where the bytes of a plain text, and its end, stand in the text itself; empty where the two are the same.
#[derive(Default)]
pub struct Places {
    places: Vec<usize>,
}

impl Places {
    /// A position mapped back; one beyond the end stays as far beyond.
    pub fn back(&self, position: usize) -> usize {
        let Some(end) = self.places.last() else { return position };
        self.places.get(position).copied().unwrap_or_else(|| end + position - (self.places.len() - 1))
    }
}

/// The text in plain digits, and where its bytes stand in the text itself.
pub fn plain(text: &str) -> (Cow<'_, str>, Places) {
    if !has_raised(text) {
        return (Cow::Borrowed(text), Places::default());
    }
    let mut plain = String::with_capacity(text.len());
    let mut places = Vec::with_capacity(text.len() + 1);
    for (start, c) in text.char_indices() {
        let c = plain_digit(c).unwrap_or(c);
        plain.push(c);
        places.extend(start..start + c.len_utf8());
    }
    places.push(text.len());
    (Cow::Owned(plain), Places { places })
}
