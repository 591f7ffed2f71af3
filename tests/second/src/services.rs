//! The services of specification 6. Areas come in only by their lengths; what would be written is in the result.
use crate::bed::Bed;
use crate::chain::{follow, side, swapped};
use crate::image::*;
use crate::mirror::{left_reverse as run_left, mirror, offending};
use crate::notation::{highest, meaning, read, size};
use crate::outcome::{Listing, Passage, Place, Refusal, Remainder, Verdict};
use crate::plain::{plain_table, read_plain_program, read_plain_table};
use crate::reversing::{reverse as run, Ending, Limits, Most};
use crate::signed::{self, Decision};
use crate::table::Table;
use crate::tables::{braid, fitting as swaps};
use crate::word::{bytes, undoing, Word};
use std::collections::BTreeSet;

pub struct Fraction {
    pub numerator: Word,
    pub denominator: Word,
    pub steps: usize,
}

pub fn reverse(table: &[u8], program: &[u8], limits: Limits, answer: usize, most: &mut Most) -> Result<Fraction, Refusal> {
    let table = read_table(table)?;
    let word = read_program(program, table.moves)?;
    fraction(run(&table, word, 0, limits, most), answer)
}

/// What comes of the reversing of reverse or left_reverse.
fn fraction(ending: Ending, answer: usize) -> Result<Fraction, Refusal> {
    let whole = finished(ending)?;
    if whole.numerator.len() + whole.denominator.len() > answer {
        return Err(Refusal::plain(13));
    }
    Ok(whole)
}

/// The end of a reversing, before any area or number is looked at.
fn finished(ending: Ending) -> Result<Fraction, Refusal> {
    match ending {
        Ending::Finished { numerator, denominator, steps, .. } => Ok(Fraction { numerator, denominator, steps }),
        Ending::Open { a, b, .. } => Err(Refusal::at(10, Place::Pair(a, b))),
        Ending::AllowanceUsed => Err(Refusal::plain(11)),
        Ending::WorkspaceShort => Err(Refusal::plain(12)),
    }
}

/// The lengths of numerator and denominator, and the steps.
pub fn enquire(table: &[u8], program: &[u8], limits: Limits, most: &mut Most) -> Result<[usize; 3], Refusal> {
    let table = read_table(table)?;
    let word = read_program(program, table.moves)?;
    finished(run(&table, word, 0, limits, most)).map(|whole| [whole.numerator.len(), whole.denominator.len(), whole.steps])
}

/// The numerator and denominator for a caller who has their lengths and the steps.
pub fn commit(
    table: &[u8],
    program: &[u8],
    limits: Limits,
    numbers: [u64; 3],
    answer: usize,
    most: &mut Most,
) -> Result<Fraction, Refusal> {
    let table = read_table(table)?;
    let word = read_program(program, table.moves)?;
    let Fraction { numerator, denominator, steps } = finished(run(&table, word, 0, limits, most))?;
    let found = [numerator.len(), denominator.len(), steps].map(|number| number as u64);
    if found != numbers {
        return Err(Refusal::plain(18));
    }
    if answer < numerator.len() + denominator.len() {
        return Err(Refusal::plain(13));
    }
    Ok(Fraction { numerator, denominator, steps })
}

pub fn left_reverse(table: &[u8], program: &[u8], limits: Limits, answer: usize, most: &mut Most) -> Result<Fraction, Refusal> {
    let table = read_table(table)?;
    let word = read_program(program, table.moves)?;
    match offending(&table) {
        Some((a, b)) => Err(Refusal::at(16, Place::Pair(a, b))),
        None => fraction(run_left(&table, word, limits, most), answer),
    }
}

/// u\v: none where it is undefined. A stop is refused at `place`.
fn complement(
    table: &Table,
    u: &[i8],
    v: &[i8],
    kept: usize,
    place: Place,
    limits: Limits,
    most: &mut Most,
) -> Result<Option<Word>, Refusal> {
    let start = [undoing(u), v.to_vec()].concat();
    match run(table, start, kept, limits, most) {
        Ending::Finished { numerator, .. } => Ok(Some(numerator)),
        Ending::Open { .. } => Ok(None),
        Ending::AllowanceUsed => Err(Refusal::at(11, place)),
        Ending::WorkspaceShort => Err(Refusal::at(12, place)),
    }
}

/// (a\b)\(a\c), the inner complements first.
fn cube_side(
    table: &Table,
    (a, b, c): (u8, u8, u8),
    kept: usize,
    place: Place,
    limits: Limits,
    most: &mut Most,
) -> Result<Option<Word>, Refusal> {
    let letter = |m: u8| [m as i8];
    let Some(ab) = complement(table, &letter(a), &letter(b), kept, place, limits, most)? else {
        return Ok(None);
    };
    let Some(ac) = complement(table, &letter(a), &letter(c), kept, place, limits, most)? else {
        return Ok(None);
    };
    complement(table, &ab, &ac, kept, place, limits, most)
}

/// Whether a triple obeys the cube rule. A stop is refused at `place`.
fn cube_holds(table: &Table, (a, b, c): (u8, u8, u8), place: Place, limits: Limits, most: &mut Most) -> Result<bool, Refusal> {
    if table.completion(a, b).is_none() {
        return Ok(true);
    }
    let left = cube_side(table, (a, b, c), 0, place, limits, most)?;
    let kept = left.as_ref().map_or(0, Word::len);
    let right = cube_side(table, (b, a, c), kept, place, limits, most)?;
    match (left, right) {
        (None, None) => Ok(true),
        (Some(left), Some(right)) => {
            let start = [undoing(&left), right].concat();
            match run(table, start, 0, limits, most) {
                Ending::Finished { numerator, denominator, .. } => Ok(numerator.is_empty() && denominator.is_empty()),
                Ending::Open { .. } => Ok(false),
                Ending::AllowanceUsed => Err(Refusal::at(11, place)),
                Ending::WorkspaceShort => Err(Refusal::at(12, place)),
            }
        }
        _ => Ok(false),
    }
}

/// The weight of a relation's side that begins with a, or none where the pair is open.
fn side_weight(table: &Table, a: u8, b: u8) -> Option<usize> {
    side(table, a, b).map(|side| table.weight(&side))
}

/// The weight check.
pub fn weights_agree(table: &Table) -> Result<(), Refusal> {
    for (a, b) in Table::pair_order(table.moves) {
        if side_weight(table, a, b) != side_weight(table, b, a) {
            return Err(Refusal::at(8, Place::Pair(a, b)));
        }
    }
    Ok(())
}

/// The cube check of a table or of a mirror: the refusal of a triple that fails, and how a triple is told.
pub fn cubes_hold(table: &Table, number: u8, told: fn(u8, u8, u8) -> Place, limits: Limits, most: &mut Most) -> Result<(), Refusal> {
    for (a, b) in Table::pair_order(table.moves) {
        for c in (1..=table.moves).filter(|c| *c != a && *c != b) {
            let place = told(a, b, c);
            if !cube_holds(table, (a, b, c), place, limits, most)? {
                return Err(Refusal::at(number, place));
            }
        }
    }
    Ok(())
}

pub fn cleared(table: &Table, limits: Limits, most: &mut Most) -> Result<(), Refusal> {
    weights_agree(table)?;
    cubes_hold(table, 9, Place::Triple, limits, most)
}

pub fn clear(table: &[u8], limits: Limits, most: &mut Most) -> Result<(), Refusal> {
    cleared(&read_table(table)?, limits, most)
}

pub fn mirror_clear(table: &[u8], limits: Limits, most: &mut Most) -> Result<(), Refusal> {
    let table = read_table(table)?;
    let mirror = mirror(&table).map_err(|(a, b)| Refusal::at(16, Place::Pair(a, b)))?;
    weights_agree(&table)?;
    cubes_hold(&mirror, 17, Place::MirrorTriple, limits, most)
}

/// A verdict with its steps, and after same the number of those on two different moves.
fn compared(table: &Table, first: &[u8], second: &[u8], limits: Limits, most: &mut Most) -> Result<(Verdict, usize, usize), Refusal> {
    let first = read_forward(first, table.moves)?;
    let second = read_forward(second, table.moves)?;
    cleared(table, limits, most)?;
    if table.weight(&first) != table.weight(&second) {
        return Ok((Verdict::Different, 0, 0));
    }
    match run(table, [undoing(&first), second].concat(), 0, limits, most) {
        Ending::Finished { numerator, denominator, steps, swaps } if numerator.is_empty() && denominator.is_empty() => {
            Ok((Verdict::Same, steps, swaps))
        }
        Ending::Finished { steps, .. } => Ok((Verdict::Different, steps, 0)),
        Ending::Open { steps, .. } => Ok((Verdict::Different, steps, 0)),
        Ending::AllowanceUsed => Err(Refusal::plain(11)),
        Ending::WorkspaceShort => Err(Refusal::plain(12)),
    }
}

pub fn compare(table: &[u8], first: &[u8], second: &[u8], limits: Limits, most: &mut Most) -> Result<(Verdict, usize), Refusal> {
    compared(&read_table(table)?, first, second, limits, most).map(|(verdict, steps, _)| (verdict, steps))
}

/// Compares two programs of any signs.
pub fn compare_signed(table: &[u8], first: &[u8], second: &[u8], limits: Limits, most: &mut Most) -> Result<Decision, Refusal> {
    let table = read_table(table)?;
    let first = read_program(first, table.moves)?;
    let second = read_program(second, table.moves)?;
    signed::compared(&table, &first, &second, limits, most)
}

/// As compare. Which chain is listed is left open but for its number of entries, so the result has none.
pub fn chain(table: &[u8], first: &[u8], second: &[u8], limits: Limits, answer: usize, most: &mut Most) -> Result<Listing, Refusal> {
    let table = read_table(table)?;
    let (verdict, steps, entries) = compared(&table, first, second, limits, most)?;
    if verdict == Verdict::Different {
        return Ok(Listing::Different { steps });
    }
    let bytes = chain_bytes(table.moves, entries);
    if answer < bytes {
        return Err(Refusal::plain(13));
    }
    Ok(Listing::Same { steps, entries, bytes })
}

/// The moves that are left of a pattern after those done, with the steps.
pub fn remainder(
    table: &[u8],
    done: &[u8],
    pattern: &[u8],
    limits: Limits,
    answer: usize,
    most: &mut Most,
) -> Result<(Remainder, usize), Refusal> {
    let table = read_table(table)?;
    let done = read_forward(done, table.moves)?;
    let pattern = read_forward(pattern, table.moves)?;
    cleared(&table, limits, most)?;
    if table.weight(&pattern) < table.weight(&done) {
        return Ok((Remainder::None, 0));
    }
    match run(&table, [undoing(&done), pattern].concat(), 0, limits, most) {
        Ending::Finished { denominator, steps, .. } if !denominator.is_empty() => Ok((Remainder::None, steps)),
        Ending::Finished { numerator, .. } if numerator.len() > answer => Err(Refusal::plain(13)),
        Ending::Finished { numerator, steps, .. } => Ok((Remainder::Moves(numerator), steps)),
        Ending::Open { steps, .. } => Ok((Remainder::None, steps)),
        Ending::AllowanceUsed => Err(Refusal::plain(11)),
        Ending::WorkspaceShort => Err(Refusal::plain(12)),
    }
}

pub fn check(table: &[u8], first: &[u8], second: &[u8], entries: &[u8], workspace: usize, longest: &mut usize) -> Result<Passage, Refusal> {
    let table = read_table(table)?;
    let first = read_forward(first, table.moves)?;
    let second = read_forward(second, table.moves)?;
    let entries = read_chain(entries, table.moves)?;
    follow(&table, &first, &second, &entries, workspace, longest)
}

fn fitting(image: Vec<u8>, answer: usize) -> Result<Vec<u8>, Refusal> {
    if image.len() > answer {
        return Err(Refusal::plain(13));
    }
    Ok(image)
}

pub fn pack_table(plain: &[u8], answer: usize) -> Result<Vec<u8>, Refusal> {
    fitting(table_image(&read_plain_table(plain)?), answer)
}

pub fn unpack_table(image: &[u8], answer: usize) -> Result<Vec<u8>, Refusal> {
    fitting(plain_table(&read_table(image)?), answer)
}

pub fn pack_program(table: &[u8], plain: &[u8], answer: usize) -> Result<Vec<u8>, Refusal> {
    let moves = read_table(table)?.moves;
    fitting(program_image(moves, &read_plain_program(plain, moves)?), answer)
}

pub fn unpack_program(table: &[u8], program: &[u8], answer: usize) -> Result<Vec<u8>, Refusal> {
    let moves = read_table(table)?.moves;
    fitting(bytes(&read_program(program, moves)?), answer)
}

/// The bed after so many moves, or after all.
pub fn bed(table: &[u8], program: &[u8], moves: u64, answer: usize) -> Result<Vec<u8>, Refusal> {
    let table = read_table(table)?;
    if table.pairs != braid(table.moves).pairs {
        return Err(Refusal::plain(15));
    }
    let word = read_program(program, table.moves)?;
    let mut bed = Bed::new(table.moves);
    for m in word.iter().take(usize::try_from(moves).unwrap_or(usize::MAX)) {
        bed.lay(*m);
    }
    fitting(bed.bytes(), answer)
}

/// All words joined to a program, in order: how many, and each with a zero byte after it. Words found are part of the listing, so that the search may
/// end with 13 as soon as they are longer than the area.
pub fn ways(table: &[u8], program: &[u8], answer: usize) -> Result<(usize, Vec<u8>), Refusal> {
    let table = read_table(table)?;
    let word = read_forward(program, table.moves)?;
    weights_agree(&table)?;
    let mut listed = BTreeSet::from([word.clone()]);
    let mut open = vec![word.clone()];
    let mut length = word.len() + 1;
    while let Some(word) = open.pop() {
        if length > answer {
            return Err(Refusal::plain(13));
        }
        for entry in swaps(&table, &word) {
            let next = swapped(&table, &word, entry).unwrap();
            if listed.insert(next.clone()) {
                length += next.len() + 1;
                open.push(next);
            }
        }
    }
    if length > answer {
        return Err(Refusal::plain(13));
    }
    Ok((listed.len(), listed.iter().flat_map(|word| [bytes(word), vec![0]].concat()).collect()))
}

/// The moves that a pattern means, from its text. Whether they fit is known from their number, so that none are laid out where they do not.
pub fn import(table: &[u8], text: &[u8], answer: usize) -> Result<Word, Refusal> {
    let table = read_table(table)?;
    let pattern = read(text).ok_or(Refusal::plain(19))?;
    let moves = size(&pattern);
    if highest(&pattern) > table.moves {
        return Err(Refusal::plain(5));
    }
    if moves > 4095 {
        return Err(Refusal::plain(20));
    }
    if moves > answer as u128 {
        return Err(Refusal::plain(13));
    }
    Ok(meaning(&pattern))
}
