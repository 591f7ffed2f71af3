//! Tables that have a mirror, and tables that have none for each reason (specification 3.8).
use super::{any, arbitrary, artin, braid, forward_word, renumbered, size, weights, Equal};
use crate::mirror::{mirror, relations};
use crate::random::Random;
use crate::reversing::{Limits, Most};
use crate::services::cleared;
use crate::table::Table;
use crate::word::Word;

/// Random relations whose last moves are drawn first, so that no two share them; `open` in a hundred pairs are open. Completions have at most `longest` moves,
/// at least 1. Where `level`, the sides of a relation are equally long and all moves weigh 1.
fn ended(random: &mut Random, moves: u8, longest: usize, open: usize, level: bool) -> Table {
    let mut ends = Table::pair_order(moves);
    for k in (1..ends.len()).rev() {
        ends.swap(k, random.below(k + 1));
    }
    let table = Table::from_pairs(moves, |a, b| {
        let (small, large) = ends.pop()?;
        let (p, q) = if random.once_in(2) { (small, large) } else { (large, small) };
        if random.below(100) < open {
            return None;
        }
        // A side of one move ends in the move it begins with.
        let lengths = (random.between(usize::from(a != p), longest), random.between(usize::from(b != q), longest));
        let (there, back) = if level { (lengths.0.max(lengths.1), lengths.0.max(lengths.1)) } else { lengths };
        let mut completion = |length: usize, last: u8| {
            let mut word = forward_word(random, moves, length);
            if let Some(end) = word.last_mut() {
                *end = last as i8;
            }
            word
        };
        Some((completion(there, p), completion(back, q)))
    });
    let weights = if level { vec![1; moves as usize] } else { weights(random, moves) };
    table.weighing(weights)
}

/// All sides are the same, and each ends in another move: 1 2 = 2 3 = 3 1 is one. Such a table clears, and its reversings finish where completions have
/// one move. The last moves go round in one cycle, so that from three moves on it is not its own mirror.
pub(super) fn whole(random: &mut Random, moves: u8) -> Table {
    let between = random.pick(&[0, 0, 0, 1, 2]);
    let mut ends: Vec<i8> = (1..=moves as i8).collect();
    for k in (1..ends.len()).rev() {
        ends.swap(k, random.below(k));
    }
    let rests: Vec<Word> = ends.iter().map(|end| [forward_word(random, moves, between), vec![*end]].concat()).collect();
    let rest = |m: u8| rests[m as usize - 1].clone();
    Table::from_pairs(moves, |a, b| Some((rest(a), rest(b)))).weighing(weights(random, moves))
}

/// Random short relations, taken again until the table has a mirror.
fn filtered(random: &mut Random, moves: u8, equal: Equal) -> Table {
    for _ in 0..200 {
        let open = random.pick(&[0, 30, 60]);
        let weights = weights(random, moves);
        let table = arbitrary(random, weights, 2, open, equal);
        if mirror(&table).is_ok() {
            return table;
        }
    }
    braid(moves)
}

/// A table that has a mirror.
pub fn mirrored(random: &mut Random) -> Table {
    let moves = size(random);
    // Of one or two moves few tables are not their own mirror.
    let more = moves.max(3);
    let (longest, open) = (random.pick(&[1, 1, 2, 2, 3, 15]), random.pick(&[0, 0, 10, 60]));
    let table = match random.below(12) {
        0 => braid(moves).weighing(weights(random, moves)),
        1 => renumbered(random, &braid(moves)),
        2 => artin(random, moves.min(5)),
        3..=5 => whole(random, more),
        6 => ended(random, more, longest, open, true),
        7 => ended(random, more, longest, open, false),
        8..=9 => filtered(random, more.min(4), Equal::Sides),
        10 => filtered(random, more.min(4), Equal::Nothing),
        _ => any(random),
    };
    match mirror(&table) {
        Ok(other) if random.once_in(4) => other,
        Ok(_) => table,
        Err(_) => braid(moves),
    }
}

/// Puts one more move at the end of both sides of a relation.
fn end(table: &mut Table, relation: usize, (p, q): (u8, u8)) {
    let Some((there, back)) = &mut table.pairs[relation] else {
        return;
    };
    let put = |word: &mut Word, last: u8| {
        word.truncate(14);
        word.push(last as i8);
    };
    put(there, p);
    put(back, q);
}

/// A table that has no mirror: a relation's sides end in one move, two relations share their last moves, in either order, or both.
pub fn mirrorless(random: &mut Random) -> Table {
    let moves = size(random).max(3);
    let (longest, open, level) = (random.pick(&[1, 2, 2, 3, 15]), random.pick(&[0, 0, 30]), random.once_in(2));
    let mut table = ended(random, moves, longest, open, level);
    let closed: Vec<usize> = (0..table.pairs.len()).filter(|k| table.pairs[*k].is_some()).collect();
    if closed.len() < 2 {
        // 1 2 = 2 2.
        return Table::light(2, vec![Some((vec![2], vec![2]))]);
    }
    let faults = random.below(8);
    if faults < 5 {
        let (k, other) = (random.below(closed.len()), random.between(1, closed.len() - 1));
        let given = &relations(&table)[(k + other) % closed.len()];
        let ends = if random.once_in(2) { (given.p, given.q) } else { (given.q, given.p) };
        end(&mut table, closed[k], ends);
    }
    if faults >= 4 {
        let (k, last) = (random.pick(&closed), random.between(1, moves.into()) as u8);
        end(&mut table, k, (last, last));
    }
    table
}

/// 1 3 = 2 1, 1 2 = 3 3, the pair 2, 3 open: it clears, and its mirror breaks the cube rule.
pub fn clears_alone() -> Table {
    Table::light(3, vec![Some((vec![3], vec![1])), Some((vec![2], vec![3])), None])
}

/// A table that clears while its mirror does not, or the other way round.
pub fn one_way(random: &mut Random) -> Table {
    let clears = |table: &Table| cleared(table, Limits { allowance: 60, workspace: 60 }, &mut Most::default()).is_ok();
    let mut table = clears_alone();
    let tries = random.pick(&[0, 100, 100]);
    for _ in 0..tries {
        let other = filtered(random, 3, Equal::Sides);
        if mirror(&other).is_ok_and(|mirror| clears(&mirror) != clears(&other)) {
            table = other;
            break;
        }
    }
    if random.once_in(2) {
        table = mirror(&table).unwrap_or(table);
    }
    renumbered(random, &table)
}
