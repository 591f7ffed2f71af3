//! Comparing programs of any signs (specification 6.18): the set of words that has to close, then two reversings. Beside it stands what is said of them
//! without any reversing: the steps that join signed words, and the words within a length to which they lead.
use crate::chain::swapped;
use crate::image::Entry;
use crate::mirror::mirror;
use crate::outcome::{Place, Refusal, Verdict};
use crate::random::Random;
use crate::reversing::{reverse, Ending, Limits, Most};
use crate::services::{cleared, cubes_hold};
use crate::table::Table;
use crate::word::{undoing, Word};
use std::collections::HashSet;

/// The most words that a set may have.
pub const LARGEST: usize = 256;

/// A verdict with the steps of the two reversings.
#[derive(Clone, Copy, Debug, PartialEq)]
pub struct Decision {
    pub verdict: Verdict,
    pub first: usize,
    pub second: usize,
}

/// The words with which every set begins: the empty one and the single moves.
fn beginning(moves: u8) -> Vec<Word> {
    (0..=moves as i8).map(|m| if m == 0 { Word::new() } else { vec![m] }).collect()
}

/// The pairs of places of which `later` is the later one, in their order.
pub fn pairs_of(later: usize) -> Vec<(usize, usize)> {
    let as_second = (0..later).map(|u| (u, later));
    let as_first = (0..=later).map(|v| (later, v));
    as_second.chain(as_first).collect()
}

/// The bytes that words take in the workspace: one a move, and a zero byte after each word.
pub fn bytes_of(words: &[Word]) -> usize {
    words.iter().map(|word| word.len() + 1).sum()
}

/// Grows the set until it is closed. The words are in the order in which they were added.
pub fn grow(table: &Table, limits: Limits, most: &mut Most) -> Result<Vec<Word>, Refusal> {
    let mut words = beginning(table.moves);
    let mut later = 0;
    while later < words.len() {
        for (u, v) in pairs_of(later) {
            let start = [undoing(&words[u]), words[v].clone()].concat();
            let complement = match reverse(table, start, bytes_of(&words), limits, most) {
                Ending::Finished { numerator, .. } => numerator,
                Ending::Open { a, b, .. } => return Err(Refusal::at(21, Place::Pair(a, b))),
                Ending::AllowanceUsed => return Err(Refusal::at(11, Place::Set)),
                Ending::WorkspaceShort => return Err(Refusal::at(12, Place::Set)),
            };
            if words.contains(&complement) {
                continue;
            }
            if words.len() == LARGEST {
                return Err(Refusal::plain(22));
            }
            words.push(complement);
        }
        later += 1;
    }
    Ok(words)
}

/// Numerator, denominator and steps of u's undoing followed by v. No open pair is met once the set is closed; one would be told as 10, which compare_signed
/// never gives.
fn reversed(table: &Table, u: &[i8], v: &[i8], limits: Limits, most: &mut Most) -> Result<(Word, Word, usize), Refusal> {
    match reverse(table, [undoing(u), v.to_vec()].concat(), 0, limits, most) {
        Ending::Finished { numerator, denominator, steps, .. } => Ok((numerator, denominator, steps)),
        Ending::Open { a, b, .. } => Err(Refusal::at(10, Place::Pair(a, b))),
        Ending::AllowanceUsed => Err(Refusal::plain(11)),
        Ending::WorkspaceShort => Err(Refusal::plain(12)),
    }
}

/// Compares two programs under a table whose set is closed.
pub fn decide(table: &Table, first: &[i8], second: &[i8], limits: Limits, most: &mut Most) -> Result<Decision, Refusal> {
    let (numerator, denominator, steps) = reversed(table, first, second, limits, most)?;
    if table.weight(&numerator) != table.weight(&denominator) {
        return Ok(Decision { verdict: Verdict::Different, first: steps, second: 0 });
    }
    let (n, d, more) = reversed(table, &numerator, &denominator, limits, most)?;
    let verdict = if n.is_empty() && d.is_empty() { Verdict::Same } else { Verdict::Different };
    Ok(Decision { verdict, first: steps, second: more })
}

/// The outcome of compare_signed on what it has read.
pub fn compared(table: &Table, first: &[i8], second: &[i8], limits: Limits, most: &mut Most) -> Result<Decision, Refusal> {
    let mirror = mirror(table).map_err(|(a, b)| Refusal::at(16, Place::Pair(a, b)))?;
    cleared(table, limits, most)?;
    cubes_hold(&mirror, 17, Place::MirrorTriple, limits, most)?;
    grow(table, limits, most)?;
    decide(table, first, second, limits, most)
}

/// Every word that one step on signed words leads to, of at most `longest` moves: a swap on forward moves that stand together, or a move and its undoing put
/// in or taken out.
pub fn one_step(table: &Table, word: &[i8], longest: usize) -> Vec<Word> {
    let mut found = Vec::new();
    for at in 0..word.len() {
        if word[at] > 0 {
            let a = word[at] as u8;
            found.extend((1..=table.moves).filter_map(|b| swapped(table, word, Entry { offset: at, a, b })));
        }
        if at + 1 < word.len() && word[at] == -word[at + 1] {
            found.push([&word[..at], &word[at + 2..]].concat());
        }
    }
    for at in 0..=word.len() {
        for m in (1..=table.moves as i8).flat_map(|m| [m, -m]) {
            found.push([&word[..at], &[m, -m], &word[at..]].concat());
        }
    }
    found.retain(|other| other.len() <= longest);
    found
}

/// Words joined to one as signed words by chains on which no word is longer than `longest`; the search ends at `most` words.
pub fn signed_class(table: &Table, word: &[i8], longest: usize, most: usize) -> HashSet<Word> {
    let mut found = HashSet::from([word.to_vec()]);
    let mut open = std::collections::VecDeque::from([word.to_vec()]);
    while let Some(word) = open.pop_front() {
        for next in one_step(table, &word, longest) {
            if found.len() < most && found.insert(next.clone()) {
                open.push_back(next);
            }
        }
    }
    found
}

/// A word that a random chain of so many steps on signed words leads to, no word on the way longer than `longest`.
pub fn signed_walk(random: &mut Random, table: &Table, first: &[i8], steps: usize, longest: usize) -> Word {
    let mut word = first.to_vec();
    for _ in 0..steps {
        let all = one_step(table, &word, longest);
        // Pairs put in are many: half of the steps are others, where there are some.
        let others: Vec<&Word> = all.iter().filter(|next| next.len() <= word.len()).collect();
        let next = match (others.len(), all.len()) {
            (_, 0) => break,
            (0, _) => all[random.below(all.len())].clone(),
            _ if random.once_in(2) => others[random.below(others.len())].clone(),
            _ => all[random.below(all.len())].clone(),
        };
        word = next;
    }
    word
}
