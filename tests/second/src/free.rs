//! Braids as they act on a free group (Artin): two programs are the same under a braid table exactly if they act alike. Nothing of reversing is in it.
//! Under some other tables each move is a braid, and the moves make a group that is the table's own: there programs are written in these braids first.
use crate::table::Table;
use crate::tables::signed::{cyclic, folded};
use crate::tables::{braid, doubled};
use crate::word::{undoing, Word};

/// Longer images are given up.
const LONGEST: usize = 20_000;

/// The product of words in a free group: what stands beside its own undoing is taken away.
fn product(words: &[&[i8]]) -> Word {
    let mut reduced = Word::new();
    for letter in words.iter().flat_map(|word| word.iter()) {
        if reduced.last() == Some(&-letter) {
            reduced.pop();
        } else {
            reduced.push(*letter);
        }
    }
    reduced
}

/// Where a braid of n + 1 strands takes the n + 1 generators of a free group, or none where an image gets too long.
pub fn action(moves: u8, braid: &[i8]) -> Option<Vec<Word>> {
    let mut images: Vec<Word> = (1..=moves as i8 + 1).map(|x| vec![x]).collect();
    for m in braid {
        let k = usize::from(m.unsigned_abs()) - 1;
        let (x, y) = (images[k].clone(), images[k + 1].clone());
        // x becomes x y -x and y becomes x, or back.
        (images[k], images[k + 1]) =
            if *m > 0 { (product(&[&x, &y, &undoing(&x)]), x) } else { (y.clone(), product(&[&undoing(&y), &x, &y])) };
        if images[k].len().max(images[k + 1].len()) > LONGEST {
            return None;
        }
    }
    Some(images)
}

/// The moves of a table as braids, with the moves of the braid table that has these, where the group is known to be that of the table.
pub fn as_braids(table: &Table) -> Option<(u8, Vec<Word>)> {
    let n = table.moves;
    let single = |m: u8| vec![m as i8];
    if table.pairs == braid(n).pairs {
        return Some((n, (1..=n).map(single).collect()));
    }
    if table.pairs == doubled().pairs {
        return Some((2, vec![vec![1], vec![1, 2]]));
    }
    if table.pairs == cyclic(3).pairs {
        return Some((2, vec![vec![1], vec![2], vec![-2, 1, 2]]));
    }
    // Braids that leave the first strand in its place.
    (table.pairs == folded(n).pairs).then(|| (n, (1..=n).map(|m| if m == 1 { vec![1, 1] } else { single(m) }).collect()))
}

/// Whether two programs act alike, where the table's moves are known as braids and the images stay short.
pub fn act_alike(table: &Table, first: &[i8], second: &[i8]) -> Option<bool> {
    let (strands, braids) = as_braids(table)?;
    let written = |word: &[i8]| {
        let of_move = |m: &i8| {
            let braid = &braids[usize::from(m.unsigned_abs()) - 1];
            if *m > 0 {
                braid.clone()
            } else {
                undoing(braid)
            }
        };
        action(strands, &word.iter().flat_map(of_move).collect::<Word>())
    };
    Some(written(first)? == written(second)?)
}
