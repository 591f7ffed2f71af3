//! A table of moves: for each move a weight, and for each pair a < b open, or C(a,b) and C(b,a).
use crate::word::Word;

#[derive(Clone, Debug, PartialEq)]
pub struct Table {
    pub moves: u8,
    /// The weights of the moves, from move 1 on, each 1 to 8.
    pub weights: Vec<u8>,
    /// The pairs in the order of specification 4.1.
    pub pairs: Vec<Option<(Word, Word)>>,
}

impl Table {
    /// The pairs a < b, in order.
    pub fn pair_order(moves: u8) -> Vec<(u8, u8)> {
        let mut order = Vec::new();
        for a in 1..=moves {
            for b in a + 1..=moves {
                order.push((a, b));
            }
        }
        order
    }

    /// A table of these pairs in which every move has weight 1.
    pub fn light(moves: u8, pairs: Vec<Option<(Word, Word)>>) -> Table {
        Table { moves, weights: vec![1; moves as usize], pairs }
    }

    /// A table from a function of each pair a < b, with weights 1.
    pub fn from_pairs(moves: u8, mut pair: impl FnMut(u8, u8) -> Option<(Word, Word)>) -> Table {
        Table::light(moves, Table::pair_order(moves).into_iter().map(|(a, b)| pair(a, b)).collect())
    }

    /// The same relations under other weights.
    pub fn weighing(self, weights: Vec<u8>) -> Table {
        Table { weights, ..self }
    }

    /// The weight of a word: that of its moves together, forward or back.
    pub fn weight(&self, word: &[i8]) -> usize {
        word.iter().map(|m| usize::from(self.weights[usize::from(m.unsigned_abs()) - 1])).sum()
    }

    fn place(&self, a: u8, b: u8) -> usize {
        let (a, b, n) = (a as usize, b as usize, self.moves as usize);
        // The rows of the moves before a have n - 1, n - 2, ... pairs.
        (a - 1) * n - (a - 1) * a / 2 + (b - a - 1)
    }

    /// C(a,b), or none where the pair is open. C(a,a) is empty.
    pub fn completion(&self, a: u8, b: u8) -> Option<&[i8]> {
        if a == b {
            return Some(&[]);
        }
        if a < b {
            self.pairs[self.place(a, b)].as_ref().map(|p| p.0.as_slice())
        } else {
            self.pairs[self.place(b, a)].as_ref().map(|p| p.1.as_slice())
        }
    }
}
