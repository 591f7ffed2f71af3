//! Chain images (specification 5.6) as entries, and what an entry does to a word: for showing and packing. Whether a chain joins is the library's to say.
use crate::tables::Parts;

#[derive(Clone, Copy, Debug, PartialEq)]
pub struct Entry {
    pub offset: usize,
    pub a: u8,
    pub b: u8,
}

/// The width of a move field.
fn width(moves: u8) -> usize {
    (u8::BITS - (moves - 1).leading_zeros()) as usize
}

fn field(image: &[u8], at: &mut usize, width: usize) -> usize {
    let mut value = 0;
    for _ in 0..width {
        let byte = image.get(*at / 8).copied().unwrap_or(0);
        value = 2 * value + usize::from(byte >> (7 - *at % 8) & 1);
        *at += 1;
    }
    value
}

/// The entries of an image that the library has read, under the table of an image.
pub fn entries(table: &[u8], image: &[u8]) -> Vec<Entry> {
    let w = width((table.first().copied().unwrap_or(0) >> 4) + 1);
    let mut at = 0;
    let count = field(image, &mut at, 16);
    let mut entry =
        || Entry { offset: field(image, &mut at, 15), a: field(image, &mut at, w) as u8 + 1, b: field(image, &mut at, w) as u8 + 1 };
    (0..count).map(|_| entry()).collect()
}

/// The image of entries, each within the limits of its fields.
pub fn image(moves: u8, entries: &[Entry]) -> Vec<u8> {
    let mut bits: Vec<bool> = Vec::new();
    let mut put = |width: usize, value: usize| bits.extend((0..width).rev().map(|k| value >> k & 1 == 1));
    put(16, entries.len());
    for entry in entries {
        put(15, entry.offset);
        put(width(moves), usize::from(entry.a) - 1);
        put(width(moves), usize::from(entry.b) - 1);
    }
    bits.chunks(8).map(|byte| (0..8).fold(0, |sum, k| 2 * sum + u8::from(byte.get(k) == Some(&true)))).collect()
}

/// The sides of the relation of two moves, that of the first move first.
fn sides(parts: &Parts, a: u8, b: u8) -> Option<(&[u8], &[u8])> {
    parts.relations.iter().find_map(|(one, two)| match (one[0], two[0]) {
        pair if pair == (a, b) => Some((one.as_slice(), two.as_slice())),
        pair if pair == (b, a) => Some((two.as_slice(), one.as_slice())),
        _ => None,
    })
}

/// The word after a swap.
pub fn swapped(parts: &Parts, word: &[u8], entry: Entry) -> Option<Vec<u8>> {
    let (old, new) = sides(parts, entry.a, entry.b)?;
    let rest = word.get(entry.offset..)?.strip_prefix(old)?;
    Some([&word[..entry.offset], new, rest].concat())
}

/// A word with the side that is swapped next in brackets.
pub fn marked(parts: &Parts, word: &[u8], entry: Entry) -> String {
    let length = sides(parts, entry.a, entry.b).map_or(0, |(old, _)| old.len());
    let mut shown = Vec::new();
    for (k, m) in word.iter().enumerate() {
        let open = if k == entry.offset { "[" } else { "" };
        let close = if k + 1 == entry.offset + length { "]" } else { "" };
        shown.push(format!("{open}{m}{close}"));
    }
    shown.join(" ")
}
