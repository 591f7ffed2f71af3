//! Cases of bed: every number of moves, full twists, and programs that must leave the bed of another.
use super::{Case, Held};
use crate::guarded::Left;
use second::call::Call;
use second::image::{program_image, table_image};
use second::table::Table;
use second::tables::{any, braid, forward_word, signed_word, walk, weights};
use second::word::{undoing, Word};

impl Case<'_> {
    pub(super) fn bed(&mut self) -> Held<()> {
        let moves = self.random.pick(&[1, 2, 2, 3, 3, 4, 5, 8, 15, 16]);
        match self.random.below(8) {
            0..=2 => self.every_number_of_moves(moves),
            3..=4 => self.damaged_beds(moves),
            5 => self.joined_beds(moves),
            6 => self.reversed_beds(moves),
            _ => self.full_twist(moves),
        }
    }

    fn made(&self, table: &Table, word: &[i8], moves: u64) -> Call {
        Call::Bed { table: table_image(table), program: program_image(table.moves, word), moves }
    }

    /// The bed of all moves, in an area that is just long enough; the number named is past the end once in two.
    fn whole_bed(&mut self, table: &Table, word: &[i8]) -> Held<Vec<u8>> {
        let more = if self.random.once_in(2) { self.random.bits() >> self.random.below(64) } else { 0 };
        let made = self.made(table, word, (word.len() as u64).saturating_add(more));
        let Left { answer, .. } = self.held(&made, 0, (usize::from(table.moves) + 1).pow(2))?;
        Ok(answer)
    }

    fn every_number_of_moves(&mut self, moves: u8) -> Held<()> {
        let length = self.random.pick(&[0, 1, 2, 5, 12, 40]);
        let table = self.weighed_braid(moves);
        let word = if self.random.once_in(4) { vec![moves as i8; length] } else { signed_word(&mut self.random, moves, length) };
        let exact = (usize::from(moves) + 1).pow(2);
        for k in 0..=word.len() as u64 + 1 {
            let answer = self.length(exact);
            self.held(&self.made(&table, &word, k), 0, answer)?;
        }
        for k in [255, 256, 65_535, 65_536, 65_536 + length as u64 / 2, 1 << 32, u64::MAX] {
            self.held(&self.made(&table, &word, k), 0, exact)?;
        }
        Ok(())
    }

    /// The braid table, whatever its moves weigh.
    fn weighed_braid(&mut self, moves: u8) -> Table {
        braid(moves).weighing(weights(&mut self.random, moves))
    }

    /// The braid table with one completion changed.
    fn nearly_braid(&mut self, moves: u8) -> Table {
        let mut table = braid(moves);
        if table.pairs.is_empty() {
            return table;
        }
        let at = self.random.below(table.pairs.len());
        let Some((there, back)) = &mut table.pairs[at] else {
            return table;
        };
        let word: &mut Word = if self.random.once_in(2) { there } else { back };
        match self.random.below(5) {
            0 => {
                word.pop();
            }
            1 => word.push(self.random.between(1, moves.into()) as i8),
            2 => word.reverse(),
            3 => {
                let place = self.random.below(word.len());
                word[place] = self.random.between(1, moves.into()) as i8;
            }
            _ => table.pairs[at] = None,
        }
        table
    }

    fn damaged_beds(&mut self, moves: u8) -> Held<()> {
        let table = match self.random.below(4) {
            0 => any(&mut self.random),
            1..=2 => self.nearly_braid(moves),
            _ => braid(moves),
        };
        let length = self.random.pick(&[0, 1, 3, 8, 30]);
        let word = signed_word(&mut self.random, table.moves, length);
        let (image, program) = (table_image(&table), program_image(table.moves, &word));
        for _ in 0..8 {
            let moves = self.random.below(length + 3) as u64;
            let answer = self.length((usize::from(table.moves) + 1).pow(2));
            let made = Call::Bed { table: self.perhaps(&image, 6), program: self.perhaps(&program, 2), moves };
            self.held(&made, 0, answer)?;
        }
        Ok(())
    }

    fn same(&mut self, kind: usize, what: &str, one: &[u8], other: &[u8]) -> Held<()> {
        self.tally.beds[kind] += 1;
        if one == other {
            return Ok(());
        }
        Err(format!("{what}: {one:02x?} and {other:02x?}"))
    }

    fn joined_beds(&mut self, moves: u8) -> Held<()> {
        let table = braid(moves);
        let length = if self.random.once_in(16) { 4_095 } else { self.random.below(60) };
        let first = forward_word(&mut self.random, moves, length);
        let swaps = self.random.pick(&[1, 5, 30]);
        let (_, second) = walk(&mut self.random, &table, &first, swaps);
        let (one, other) = (self.whole_bed(&table, &first)?, self.whole_bed(&table, &second)?);
        self.same(0, "joined programs leave other beds", &one, &other)
    }

    fn reversed_beds(&mut self, moves: u8) -> Held<()> {
        let table = braid(moves);
        let length = self.random.pick(&[1, 3, 8, 16]);
        let word = signed_word(&mut self.random, moves, length);
        let reverse = Call::Reverse { table: table_image(&table), program: program_image(moves, &word), allowance: 3_000 };
        let left = self.held(&reverse, 4_095, 4_095)?;
        if left.result != 0 {
            return Ok(());
        }
        let [n, d, ..] = left.values.map(|value| value as usize);
        let letters: Word = left.answer[..n + d].iter().map(|byte| *byte as i8).collect();
        let fraction = [letters[..n].to_vec(), undoing(&letters[n..])].concat();
        let (one, other) = (self.whole_bed(&table, &word)?, self.whole_bed(&table, &fraction)?);
        self.same(1, "a program and its fraction leave other beds", &one, &other)
    }

    /// The bobbins return after n + 1 times 1 to n, and each two crossed twice.
    fn full_twist(&mut self, moves: u8) -> Held<()> {
        let table = braid(moves);
        let twist: Word = (0..=moves).flat_map(|_| 1..=moves as i8).collect();
        let turns = self.random.between(1, 4_095 / twist.len());
        let bed = self.whole_bed(&table, &twist.repeat(turns))?;
        let pairs = usize::from(moves) * (usize::from(moves) + 1) / 2;
        let bobbins = (1..=moves + 1).collect();
        let totals = (2 * turns as u16).to_be_bytes().repeat(pairs);
        self.same(2, "a full twist", &bed, &[bobbins, totals].concat())
    }
}
