//! Tables for comparing programs of any signs: with sets that close, large and small, that do not, or that meet an open pair.
use super::mirror::{clears_alone, mirrored, mirrorless, one_way, whole};
use super::{alternating, any, artin, beside, braid, clearing, doubled, powers, renumbered, single};
use crate::mirror::mirror;
use crate::random::Random;
use crate::reversing::{Limits, Most};
use crate::services::cleared;
use crate::table::Table;

/// 1 2 = 2 3 = .. = n 1.
pub fn cyclic(moves: u8) -> Table {
    let next = |m: u8| if m == moves { 1 } else { m as i8 + 1 };
    Table::from_pairs(moves, |a, b| Some((vec![next(a)], vec![next(b)])))
}

/// The braid table but for 1 2 1 2 = 2 1 2 1.
pub fn folded(moves: u8) -> Table {
    let mut table = braid(moves);
    if let Some(pair) = table.pairs.first_mut() {
        *pair = Some((vec![2, 1, 2], vec![1, 2, 1]));
    }
    table
}

/// a b a .. = b a b .., of a length from 2 to 16. The set has 2 · length - 1 words.
pub fn dihedral(length: usize) -> Table {
    Table::light(2, vec![Some((alternating(2, 1, length - 1), alternating(1, 2, length - 1)))])
}

/// All moves commute.
pub fn commuting(moves: u8) -> Table {
    Table::from_pairs(moves, |a, b| Some((vec![b as i8], vec![a as i8])))
}

/// Some pairs of moves commute, and the others are open.
fn partly_commuting(random: &mut Random, moves: u8) -> Table {
    Table::from_pairs(moves, |a, b| (!random.once_in(4)).then(|| (vec![b as i8], vec![a as i8])))
}

/// Tables beside each other, moves of different ones commuting: but for the empty word, the set has the words of their sets together.
pub fn product(tables: &[Table]) -> Table {
    let (first, rest) = tables.split_first().unwrap();
    rest.iter().fold(first.clone(), |one, two| beside(&one, two, true))
}

/// What the cube check of a table comes to at most.
fn needs(table: &Table) -> Option<Most> {
    let mut most = Most::default();
    cleared(table, Limits { allowance: 60, workspace: 60 }, &mut most).ok()?;
    Some(most)
}

/// A table that clears with less than its mirror does, which clears, too, if one is met.
pub fn costly_mirror(random: &mut Random) -> Option<Table> {
    for _ in 0..60 {
        let table = if random.once_in(2) { whole(random, 3) } else { mirrored(random) };
        if table.moves > 5 {
            continue;
        }
        let Ok(other) = mirror(&table) else {
            continue;
        };
        let (Some(one), Some(two)) = (needs(&table), needs(&other)) else {
            continue;
        };
        if one != two {
            return Some(if (one.steps, one.bytes) < (two.steps, two.bytes) { table } else { other });
        }
    }
    None
}

/// Move 2 is `power` times move 1.
pub fn multiple(power: u8) -> Table {
    Table::light(2, vec![Some((vec![1; power as usize - 1], vec![]))]).weighing(vec![1, power])
}

/// 14 moves whose set has 256 words, and with one more that commutes with all, 257.
pub fn largest(one_more: bool) -> Table {
    let table = product(&[folded(3), folded(3), folded(3), dihedral(10), commuting(3)]);
    if one_more {
        product(&[table, commuting(1)])
    } else {
        table
    }
}

/// A table with a small set.
fn small(random: &mut Random) -> Table {
    let moves = random.between(1, 4) as u8;
    match random.below(8) {
        0..=1 => braid(moves.min(2)),
        2 => dihedral(random.between(2, 6)),
        3 => cyclic(random.between(2, 5) as u8),
        4 => doubled(),
        5 => commuting(moves),
        6 => multiple(random.between(1, 8) as u8),
        _ => powers(random, moves),
    }
}

/// A table for comparing programs of any signs under it. Mostly its set closes.
pub fn comparable(random: &mut Random) -> Table {
    let table = match random.below(40) {
        0..=9 => small(random),
        10..=14 => braid(random.between(1, 3) as u8),
        15 => dihedral(random.between(2, 16)),
        16 => commuting(random.between(1, 16) as u8),
        17 => folded(if random.once_in(8) { 3 } else { 2 }),
        18..=21 => product(&[small(random), small(random)]),
        22..=23 => {
            let (one, two) = (small(random), small(random));
            beside(&one, &two, false)
        }
        24 => artin(random, 3),
        25 => {
            let moves = random.between(3, 6) as u8;
            partly_commuting(random, moves)
        }
        26 => single(random),
        27..=28 => {
            let moves = random.between(2, 5) as u8;
            whole(random, moves)
        }
        29..=31 => mirrored(random),
        32..=33 => mirrorless(random),
        34 => one_way(random),
        35 => clears_alone(),
        36..=37 => costly_mirror(random).unwrap_or_else(|| braid(2)),
        38 => any(random),
        _ => clearing(random),
    };
    if random.once_in(3) {
        renumbered(random, &table)
    } else {
        table
    }
}
