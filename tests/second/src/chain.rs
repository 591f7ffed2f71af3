//! Chains of swaps between words of forward moves.
use crate::image::Entry;
use crate::outcome::{Passage, Refusal};
use crate::table::Table;
use crate::word::Word;

/// One side of a relation: a, then C(a,b).
pub fn side(table: &Table, a: u8, b: u8) -> Option<Word> {
    let mut word = vec![a as i8];
    word.extend(table.completion(a, b)?);
    Some(word)
}

/// The word after an entry, or none where it doesn't fit.
pub fn swapped(table: &Table, word: &[i8], entry: Entry) -> Option<Word> {
    if entry.a == entry.b {
        return None;
    }
    let old = side(table, entry.a, entry.b)?;
    let new = side(table, entry.b, entry.a)?;
    let rest = word.get(entry.offset..)?.strip_prefix(old.as_slice())?;
    Some([&word[..entry.offset], &new, rest].concat())
}

/// Follows a chain from one word; 12 where a word is longer than the workspace. `longest` becomes the longest word met.
pub fn follow(
    table: &Table,
    first: &[i8],
    second: &[i8],
    entries: &[Entry],
    workspace: usize,
    longest: &mut usize,
) -> Result<Passage, Refusal> {
    let mut word = first.to_vec();
    *longest = word.len();
    if word.len() > workspace {
        return Err(Refusal::plain(12));
    }
    for (k, entry) in entries.iter().enumerate() {
        let Some(next) = swapped(table, &word, *entry) else {
            return Ok(Passage::Breaks(k));
        };
        *longest = next.len().max(*longest);
        if next.len() > workspace {
            return Err(Refusal::plain(12));
        }
        word = next;
    }
    Ok(if word == second { Passage::Joins } else { Passage::EndsElsewhere })
}
