//! The bed of a program under a braid table (specification 6.11).
use crate::table::Table;

pub struct Bed {
    /// The bobbin at each place, from the first on.
    pub places: Vec<u8>,
    /// The total of two bobbins, by their numbers, the smaller one first.
    totals: [[i16; 18]; 18],
}

impl Bed {
    /// Under a table of so many moves, before the first move.
    pub fn new(moves: u8) -> Bed {
        Bed { places: (1..=moves + 1).collect(), totals: [[0; 18]; 18] }
    }

    /// One move of a program.
    pub fn lay(&mut self, m: i8) {
        let right = usize::from(m.unsigned_abs());
        let (x, y) = (self.places[right - 1], self.places[right]);
        self.totals[usize::from(x.min(y))][usize::from(x.max(y))] += if m > 0 { 1 } else { -1 };
        self.places.swap(right - 1, right);
    }

    /// The total of each pair of bobbins, in the order of pairs.
    pub fn totals(&self) -> Vec<i16> {
        let pairs = Table::pair_order(self.places.len() as u8);
        pairs.into_iter().map(|(p, q)| self.totals[usize::from(p)][usize::from(q)]).collect()
    }

    pub fn bytes(&self) -> Vec<u8> {
        let totals = self.totals().into_iter().flat_map(|total| total.to_be_bytes());
        self.places.iter().copied().chain(totals).collect()
    }
}
