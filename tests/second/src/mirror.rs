//! The mirror of a table, and reversing from the finished end (specification 3.8). Left reversing uses the table's own relations and not the mirror, so that
//! the two can be held against each other.
use crate::chain::side;
use crate::reversing::{Ending, Limits, Most};
use crate::table::Table;
use crate::word::{undoing, Word};

/// A relation by the last moves of its sides, which are U p and V q.
pub struct Relation {
    pub pair: (u8, u8),
    u: Word,
    pub p: u8,
    v: Word,
    pub q: u8,
}

/// The relations of a table in pair order.
pub fn relations(table: &Table) -> Vec<Relation> {
    let relation = |(a, b)| {
        let (mut u, mut v) = (side(table, a, b)?, side(table, b, a)?);
        let (p, q) = (u.pop()? as u8, v.pop()? as u8);
        Some(Relation { pair: (a, b), u, p, v, q })
    };
    Table::pair_order(table.moves).into_iter().filter_map(relation).collect()
}

impl Relation {
    /// Whether the sides of both end in the same two moves, in whichever order.
    fn shares(&self, other: &Relation) -> bool {
        (self.p, self.q) == (other.p, other.q) || (self.p, self.q) == (other.q, other.p)
    }
}

/// The pair of the relation that offends, or none where the table has a mirror.
pub fn offending(table: &Table) -> Option<(u8, u8)> {
    let relations = relations(table);
    let offends = |k: &usize| {
        let relation = &relations[*k];
        relation.p == relation.q || relations[..*k].iter().any(|other| other.shares(relation))
    };
    (0..relations.len()).find(offends).map(|k| relations[k].pair)
}

pub fn backward<T: Copy>(word: &[T]) -> Vec<T> {
    word.iter().rev().copied().collect()
}

/// The mirror of a table, or the pair of the relation that offends.
pub fn mirror(table: &Table) -> Result<Table, (u8, u8)> {
    if let Some(pair) = offending(table) {
        return Err(pair);
    }
    let relations = relations(table);
    let pairs = Table::from_pairs(table.moves, |a, b| {
        let relation = relations.iter().find(|r| (r.p, r.q) == (a, b) || (r.q, r.p) == (a, b))?;
        let (of_p, of_q) = (backward(&relation.u), backward(&relation.v));
        Some(if relation.p == a { (of_p, of_q) } else { (of_q, of_p) })
    });
    Ok(pairs.weighing(table.weights.clone()))
}

fn rightmost(word: &[i8]) -> Option<usize> {
    word.windows(2).rposition(|pair| pair[0] > 0 && pair[1] < 0)
}

/// U and V of the relation whose sides are U a and V b. Both are empty where a and b are the same move.
fn before(relations: &[Relation], a: u8, b: u8) -> Option<(&[i8], &[i8])> {
    if a == b {
        return Some((&[], &[]));
    }
    relations.iter().find_map(|r| match (a, b) {
        ends if ends == (r.p, r.q) => Some((r.u.as_slice(), r.v.as_slice())),
        ends if ends == (r.q, r.p) => Some((r.v.as_slice(), r.u.as_slice())),
        _ => None,
    })
}

/// Left-reverses a word under a table that has a mirror.
pub fn left_reverse(table: &Table, start: Word, limits: Limits, most: &mut Most) -> Ending {
    let relations = relations(table);
    let mut word = start;
    let (mut steps, mut swaps) = (0, 0);
    most.bytes = most.bytes.max(word.len());
    if word.len() > limits.workspace {
        return Ending::WorkspaceShort;
    }
    loop {
        let Some(at) = rightmost(&word) else {
            let split = word.iter().position(|m| *m > 0).unwrap_or(word.len());
            let numerator = word.split_off(split);
            return Ending::Finished { numerator, denominator: undoing(&word), steps, swaps };
        };
        let (forward, back) = (word[at].unsigned_abs(), word[at + 1].unsigned_abs());
        let Some((u, v)) = before(&relations, forward, back) else {
            return Ending::Open { a: back, b: forward, steps };
        };
        if steps == limits.allowance {
            return Ending::AllowanceUsed;
        }
        let longer = word.len() - 2 + u.len() + v.len();
        most.bytes = most.bytes.max(longer);
        if longer > limits.workspace {
            return Ending::WorkspaceShort;
        }
        word.splice(at..at + 2, undoing(u).into_iter().chain(v.iter().copied()));
        steps += 1;
        swaps += usize::from(forward != back);
        most.steps = most.steps.max(steps);
    }
}
