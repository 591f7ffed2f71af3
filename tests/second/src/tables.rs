//! Random tables of several families, and words over them.
pub mod mirror;
pub mod signed;

use crate::chain::{side, swapped};
use crate::image::Entry;
use crate::random::Random;
use crate::reversing::{Limits, Most};
use crate::services::cleared;
use crate::table::Table;
use crate::word::Word;

/// The braid table of n moves.
pub fn braid(moves: u8) -> Table {
    Table::from_pairs(moves, |a, b| {
        let (x, y) = (a as i8, b as i8);
        if b - a >= 2 {
            Some((vec![y], vec![x]))
        } else {
            Some((vec![y, x], vec![x, y]))
        }
    })
}

/// A table in which every pair is open.
pub fn unrelated(moves: u8) -> Table {
    Table::from_pairs(moves, |_, _| None)
}

pub fn forward_word(random: &mut Random, moves: u8, length: usize) -> Word {
    (0..length).map(|_| random.between(1, moves as usize) as i8).collect()
}

pub fn signed_word(random: &mut Random, moves: u8, length: usize) -> Word {
    let mut word = forward_word(random, moves, length);
    for m in &mut word {
        if random.once_in(2) {
            *m = -*m;
        }
    }
    word
}

/// b a b ... of a length, beginning with b.
fn alternating(b: u8, a: u8, length: usize) -> Word {
    (0..length).map(|k| if k % 2 == 0 { b as i8 } else { a as i8 }).collect()
}

/// Weights of so many moves: mostly all 1, at times all the same or any.
pub fn weights(random: &mut Random, moves: u8) -> Vec<u8> {
    match random.below(8) {
        0 => vec![random.between(1, 8) as u8; moves as usize],
        1 => (0..moves).map(|_| random.between(1, 2) as u8).collect(),
        2 => (0..moves).map(|_| random.between(1, 8) as u8).collect(),
        _ => vec![1; moves as usize],
    }
}

/// A random word of forward moves that has that weight, if one is met.
pub fn word_of_weight(random: &mut Random, weights: &[u8], mut weight: usize) -> Option<Word> {
    let mut word = Word::new();
    while weight > 0 {
        let light: Vec<usize> = (0..weights.len()).filter(|m| usize::from(weights[*m]) <= weight).collect();
        if light.is_empty() {
            return None;
        }
        let m = random.pick(&light);
        weight -= usize::from(weights[m]);
        word.push(m as i8 + 1);
    }
    Some(word)
}

/// A table of Artin and Tits: for each pair a b a ... = b a b ..., of a random length, or open. It always clears but for stops. Sides of an
/// even length weigh the same whatever the weights are, others where a and b do.
fn artin(random: &mut Random, moves: u8) -> Table {
    let longest = random.between(2, 5);
    let open = random.pick(&[0, 0, 10, 50]);
    let weights = weights(random, moves);
    let table = Table::from_pairs(moves, |a, b| {
        if random.below(100) < open {
            return None;
        }
        let mut length = if random.once_in(2) { 2 } else { random.between(2, longest) };
        if weights[a as usize - 1] != weights[b as usize - 1] {
            length -= length % 2;
        }
        Some((alternating(b, a, length - 1), alternating(a, b, length - 1)))
    });
    table.weighing(weights)
}

/// Powers of all moves are the same, all p-th ones or those of the same weight.
fn powers(random: &mut Random, moves: u8) -> Table {
    let p = random.between(1, 6);
    let whole: u8 = random.pick(&[1, 1, 1, 4, 6, 8]);
    let divisors: Vec<u8> = (1..=whole).filter(|weight| whole.is_multiple_of(*weight)).collect();
    let weights: Vec<u8> = (0..moves).map(|_| random.pick(&divisors)).collect();
    let rest = |m: u8| {
        let power = if whole == 1 { p } else { usize::from(whole / weights[m as usize - 1]) };
        vec![m as i8; power - 1]
    };
    Table::from_pairs(moves, |a, b| Some((rest(a), rest(b)))).weighing(weights.clone())
}

/// What weighs the same in every relation of a table.
#[derive(Clone, Copy)]
enum Equal {
    Sides,
    Completions,
    Nothing,
}

/// Random words; `open` in a hundred pairs are open, and so are those for which no word of the right weight is met.
fn arbitrary(random: &mut Random, weights: Vec<u8>, longest: usize, open: usize, equal: Equal) -> Table {
    let moves = weights.len() as u8;
    let table = Table::from_pairs(moves, |a, b| {
        if random.below(100) < open {
            return None;
        }
        let weight = |m: u8| usize::from(weights[m as usize - 1]);
        let length = random.between(0, longest);
        let there = forward_word(random, moves, length);
        let completion: usize = there.iter().map(|m| weight(*m as u8)).sum();
        let back = match equal {
            Equal::Sides => word_of_weight(random, &weights, (weight(a) + completion).checked_sub(weight(b))?)?,
            Equal::Completions => word_of_weight(random, &weights, completion)?,
            Equal::Nothing => {
                let length = random.between(0, longest);
                forward_word(random, moves, length)
            }
        };
        (back.len() <= 15).then_some((there, back))
    });
    table.weighing(weights)
}

/// Random short relations of equal weight, taken again until the table clears within small limits.
fn searched(random: &mut Random, moves: u8) -> Table {
    for _ in 0..200 {
        let open = random.pick(&[0, 30, 60]);
        let weights = weights(random, moves);
        let table = arbitrary(random, weights, 2, open, Equal::Sides);
        let limits = Limits { allowance: 60, workspace: 60 };
        if cleared(&table, limits, &mut Most::default()).is_ok() {
            return table;
        }
    }
    braid(moves)
}

/// One relation, whose sides weigh the same though they need not be equally long: such as 1 2 1 = 2 2, where 2 weighs twice as much as 1. With
/// two moves there is no triple, so the table always clears.
fn single(random: &mut Random) -> Table {
    loop {
        let weights = vec![random.between(1, 3) as u8, random.between(1, 3) as u8];
        let longest = random.between(0, 3);
        let table = arbitrary(random, weights, longest, 0, Equal::Sides);
        if table.pairs[0].is_some() {
            return table;
        }
    }
}

/// 1 2 1 = 2 2, where 2 weighs twice as much as 1.
pub fn doubled() -> Table {
    Table::light(2, vec![Some((vec![2, 1], vec![2]))]).weighing(vec![1, 2])
}

/// Move 2 is `power` times move 1, and both commute with move 3: 1 1 .. = 2, 1 3 = 3 1, and 2 3 = 3 1 1 .., in which a word grows.
pub fn growing(power: u8, third: u8) -> Table {
    let ones = |count: u8| vec![1; count as usize];
    Table::light(3, vec![Some((ones(power - 1), vec![])), Some((vec![3], vec![1])), Some((vec![3], ones(power)))])
        .weighing(vec![1, power, third])
}

/// 3 is 1 and 4 is 2, by relations with nothing to complete, and 1 and 2 commute under either number. A step on 1 and 3 lets two different moves vanish.
pub fn twins(one: u8, two: u8) -> Table {
    Table::from_pairs(4, |a, b| Some(if b - a == 2 { (vec![], vec![]) } else { (vec![b as i8], vec![a as i8]) }))
        .weighing(vec![one, two, one, two])
}

/// Two tables side by side; moves of different ones commute, or are open to each other.
fn beside(one: &Table, two: &Table, commute: bool) -> Table {
    let shift = one.moves;
    let moved = |word: &[i8]| word.iter().map(|m| m + shift as i8).collect::<Word>();
    let weights = [one.weights.clone(), two.weights.clone()].concat();
    let table = Table::from_pairs(one.moves + two.moves, |a, b| {
        if b <= shift {
            one.completion(a, b).map(|there| (there.to_vec(), one.completion(b, a).unwrap().to_vec()))
        } else if a > shift {
            let (x, y) = (a - shift, b - shift);
            two.completion(x, y).map(|there| (moved(there), moved(two.completion(y, x).unwrap())))
        } else {
            commute.then(|| (vec![b as i8], vec![a as i8]))
        }
    });
    table.weighing(weights)
}

/// The same table with its moves numbered anew.
fn renumbered(random: &mut Random, table: &Table) -> Table {
    let mut new: Vec<u8> = (1..=table.moves).collect();
    for k in (1..new.len()).rev() {
        new.swap(k, random.below(k + 1));
    }
    let old = |m: u8| new.iter().position(|x| *x == m).unwrap() as u8 + 1;
    let word = |w: &[i8]| w.iter().map(|m| new[*m as usize - 1] as i8).collect::<Word>();
    let weights = (1..=table.moves).map(|m| table.weights[old(m) as usize - 1]).collect();
    let pairs = Table::from_pairs(table.moves, |a, b| {
        let there = table.completion(old(a), old(b))?;
        Some((word(there), word(table.completion(old(b), old(a)).unwrap())))
    });
    pairs.weighing(weights)
}

/// Moves of a table: mostly few, at times up to 16.
fn size(random: &mut Random) -> u8 {
    let most = random.pick(&[2, 3, 3, 4, 4, 5, 6, 8, 16]);
    random.between(1, most) as u8
}

/// A table that is likely to clear.
pub fn clearing(random: &mut Random) -> Table {
    let moves = size(random);
    let table = match random.below(9) {
        0..=1 => braid(moves),
        2 => braid(moves).weighing(vec![random.between(1, 8) as u8; moves as usize]),
        3 => artin(random, moves.min(5)),
        4 => powers(random, moves),
        5 => searched(random, moves.min(4)),
        6 if random.once_in(4) => growing(random.between(1, 8) as u8, random.between(1, 8) as u8),
        6 if random.once_in(2) => doubled(),
        6 => single(random),
        _ => {
            let few = moves.min(3);
            let (one, two) = (if random.once_in(4) { single(random) } else { searched(random, few) }, braid(few));
            let commute = random.once_in(2);
            beside(&one, &two, commute)
        }
    };
    if random.once_in(2) {
        renumbered(random, &table)
    } else {
        table
    }
}

/// Any table.
pub fn any(random: &mut Random) -> Table {
    let moves = size(random);
    let longest = random.pick(&[1, 2, 2, 3, 15]);
    let weights = weights(random, moves);
    match random.below(9) {
        0..=1 => clearing(random),
        2 => arbitrary(random, weights, longest, 0, Equal::Sides),
        3 => arbitrary(random, weights, longest, 5, Equal::Sides),
        4 => arbitrary(random, weights, longest, 50, Equal::Sides),
        5 => arbitrary(random, weights, longest, 0, Equal::Nothing),
        6 => arbitrary(random, weights, longest, 90, Equal::Nothing),
        7 => arbitrary(random, weights, longest, 20, Equal::Completions),
        // C(a,b) = b a throughout: endless.
        _ => Table::from_pairs(moves, |a, b| Some((vec![b as i8, a as i8], vec![a as i8, b as i8]))),
    }
}

/// Every entry that fits a word of forward moves.
pub fn fitting(table: &Table, word: &[i8]) -> Vec<Entry> {
    let mut found = Vec::new();
    for offset in 0..word.len() {
        let a = word[offset] as u8;
        for b in (1..=table.moves).filter(|b| *b != a) {
            if side(table, a, b).is_some_and(|old| word[offset..].starts_with(&old)) {
                found.push(Entry { offset, a, b });
            }
        }
    }
    found
}

/// A random chain of at most that many swaps from a word, and where it leads. Words stay within 4,095 moves.
pub fn walk(random: &mut Random, table: &Table, first: &[i8], swaps: usize) -> (Vec<Entry>, Word) {
    let mut word = first.to_vec();
    let mut entries = Vec::new();
    for _ in 0..swaps {
        let fits = fitting(table, &word);
        if fits.is_empty() {
            break;
        }
        let entry = fits[random.below(fits.len())];
        let next = swapped(table, &word, entry).unwrap();
        if next.len() > 4095 {
            break;
        }
        word = next;
        entries.push(entry);
    }
    (entries, word)
}
