//! Cases of ways: listings from each of two of their words, areas that just hold them or just do not, and damaged images.
use super::{Case, Held};
use crate::guarded::Left;
use second::call::Call;
use second::image::{program_image, table_image};
use second::services;
use second::table::Table;
use second::tables::{any, braid, clearing, doubled, forward_word, growing, signed_word, walk};

/// Listings longer than this are only seen to be refused.
const LONGEST: usize = 4_096;

impl Case<'_> {
    pub(super) fn ways(&mut self) -> Held<()> {
        let table = match self.random.below(8) {
            0..=1 => any(&mut self.random),
            2..=3 => clearing(&mut self.random),
            4 => doubled(),
            5 => growing(2, 1),
            _ => {
                let moves = self.random.pick(&[1, 2, 3, 3, 4, 6, 16]);
                braid(moves)
            }
        };
        if self.random.once_in(3) {
            return self.damaged_ways(&table);
        }
        self.listings(&table)
    }

    /// The same listing from a word and from one that is joined to it.
    fn listings(&mut self, table: &Table) -> Held<()> {
        let length = self.random.pick(&[0, 1, 2, 3, 4, 5, 6, 8]);
        let first = forward_word(&mut self.random, table.moves, length);
        let swaps = self.random.pick(&[1, 4, 12]);
        let (_, second) = walk(&mut self.random, table, &first, swaps);
        let made = |word: &[i8]| Call::Ways { table: table_image(table), program: program_image(table.moves, word) };
        let exact =
            services::ways(&table_image(table), &program_image(table.moves, &first), LONGEST).map_or(LONGEST, |(_, listing)| listing.len());
        let Left { result, values, answer, .. } = self.held(&made(&first), 0, exact)?;
        let other = self.held(&made(&second), 0, exact)?;
        if (result, values) != (other.result, other.values) || (result == 0 && answer != other.answer) {
            return Err(format!("joined words have other listings: {first:?} and {second:?} under {table:?}"));
        }
        if result == 0 && values[0] > 1 {
            self.tally.listings[0] += 1;
            let lengths: Vec<usize> = answer.split(|byte| *byte == 0).map(<[u8]>::len).collect();
            self.tally.listings[1] += usize::from(lengths[..lengths.len() - 1].iter().any(|k| *k != lengths[0]));
        }
        for _ in 0..4 {
            let area = self.length(exact).min(2 * LONGEST);
            self.held(&made(&first), 0, area)?;
        }
        Ok(())
    }

    fn damaged_ways(&mut self, table: &Table) -> Held<()> {
        let length = self.random.pick(&[0, 1, 3, 5]);
        let word = if self.random.once_in(3) {
            signed_word(&mut self.random, table.moves, length)
        } else {
            forward_word(&mut self.random, table.moves, length)
        };
        let (image, program) = (table_image(table), program_image(table.moves, &word));
        for _ in 0..6 {
            let made = Call::Ways { table: self.perhaps(&image, 3), program: self.perhaps(&program, 3) };
            let area = self.random.below(200);
            self.held(&made, 0, area)?;
        }
        Ok(())
    }
}
