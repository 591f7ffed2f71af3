//! Random cases. A case is made from its seed alone: a table, words, images sound or damaged, and calls with allowances and areas of every
//! class.
mod bed;
mod enquiry;
mod import;
mod mirror;
mod signed;
mod tray;
mod ways;

use crate::guarded::{call, Left};
use crate::judge::{judge, listed_chain};
pub use enquiry::Enquired;
pub use import::Imported;
pub use mirror::Mirrored;
use second::call::Call;
use second::chain::follow;
use second::classes::class;
use second::expected::expected;
use second::image::{chain_bytes, chain_image, program_image, read_chain, read_forward, read_table, table_image, Entry};
use second::orders::{self, Order};
use second::plain::plain_table;
use second::random::Random;
use second::reversing::{Ending, Most};
use second::table::Table;
use second::tables::{any, clearing, forward_word, growing, signed_word, twins, walk, word_of_weight};
use second::word::{bytes, undoing, Word};
pub use signed::Signed;
use std::collections::BTreeMap;
pub use tray::Trayed;

/// What comes of weights where lengths alone would say otherwise.
#[derive(Clone, Copy, Debug, PartialEq, Eq, PartialOrd, Ord)]
pub enum Weighed {
    /// Same, though the programs are not equally long.
    SameOfUnequalLength,
    /// Different without a step, though the programs are equally long.
    DifferentOfEqualLength,
    /// Moves, or no move left, though the pattern has fewer moves than the part done.
    MovesOfShorterPattern,
    /// None without a step, though the pattern has at least as many moves as the part done.
    NoneOfLongerPattern,
    /// Cleared, though two completions of a pair weigh unequally.
    ClearedUnequalCompletions,
    /// 8, though the two completions of its pair weigh the same.
    RefusedEqualCompletions,
    /// A listed chain leads through a word longer than both programs.
    ListedThroughLongerWord,
    /// A listed chain has an offset above 4,095.
    ListedFarOffset,
    /// A given chain with an offset above 4,095 joins.
    JoinsAtFarOffset,
    /// A given chain leads through a word of 32,760 moves.
    LongestWord,
}

impl Weighed {
    pub const ALL: [Weighed; 10] = [
        Weighed::SameOfUnequalLength,
        Weighed::DifferentOfEqualLength,
        Weighed::MovesOfShorterPattern,
        Weighed::NoneOfLongerPattern,
        Weighed::ClearedUnequalCompletions,
        Weighed::RefusedEqualCompletions,
        Weighed::ListedThroughLongerWord,
        Weighed::ListedFarOffset,
        Weighed::JoinsAtFarOffset,
        Weighed::LongestWord,
    ];
}

/// What the lengths of listed chains and of their areas must come to.
#[derive(Clone, Copy, Debug, PartialEq, Eq, PartialOrd, Ord)]
pub enum Listed {
    /// 13 in an area one byte shorter than the chain's image.
    ByteShort,
    /// Answered in an area exactly as long as the image.
    ExactArea,
    /// Answered in a longer area.
    LongerArea,
    /// Answered in an area too short for an entry for each step.
    AreaShortOfSteps,
    /// Some entries, and fewer than steps, since moves vanished at the others.
    FewerThanSteps,
    /// No entry after some steps.
    NoneAfterSteps,
    /// An entry for each of some steps: two different moves vanished at the last one.
    AsManyAsSteps,
    /// A chain of 65,535 entries.
    MostEntries,
}

impl Listed {
    pub const ALL: [Listed; 8] = [
        Listed::ByteShort,
        Listed::ExactArea,
        Listed::LongerArea,
        Listed::AreaShortOfSteps,
        Listed::FewerThanSteps,
        Listed::NoneAfterSteps,
        Listed::AsManyAsSteps,
        Listed::MostEntries,
    ];
}

/// How often each service gave each result, an answer's first value apart.
#[derive(Default)]
pub struct Tally {
    pub calls: usize,
    pub searched: usize,
    /// Reversings in another order that finished, and that had to go without an end since ours met an open pair.
    pub orders: (usize, usize),
    /// Beds held against those of joined programs, of numerator and denominator, and of full twists.
    pub beds: [usize; 3],
    /// Listings of more than one word, held against each other from two of their words; and those with words of different lengths.
    pub listings: [usize; 2],
    pub results: BTreeMap<(&'static str, u8, u64), usize>,
    pub weighed: BTreeMap<Weighed, usize>,
    pub listed: BTreeMap<Listed, usize>,
    /// Left reversings held against right reversing under the mirror: answers, open pairs and stops.
    pub backward: [usize; 3],
    pub mirrored: BTreeMap<Mirrored, usize>,
    /// Commits held against reverse in areas of the same content: answers, open pairs, stops and 18.
    pub committed: [usize; 4],
    pub enquired: BTreeMap<Enquired, usize>,
    /// Answers of import held against those of their moves one by one, and of their text under a minus.
    pub imports: [usize; 2],
    pub imported: BTreeMap<Imported, usize>,
    pub signed: BTreeMap<Signed, usize>,
    /// Answers for logs held against compare of the same log: verdicts, and refusals of the log.
    pub logs: [usize; 2],
    pub trayed: BTreeMap<Trayed, usize>,
}

impl Tally {
    pub fn add(&mut self, other: &Tally) {
        self.calls += other.calls;
        self.searched += other.searched;
        self.orders.0 += other.orders.0;
        self.orders.1 += other.orders.1;
        for (total, more) in self.beds.iter_mut().chain(&mut self.backward).zip(other.beds.iter().chain(&other.backward)) {
            *total += more;
        }
        for (total, more) in self.listings.iter_mut().zip(other.listings) {
            *total += more;
        }
        for (total, more) in self.committed.iter_mut().zip(other.committed) {
            *total += more;
        }
        for (total, more) in self.imports.iter_mut().zip(other.imports) {
            *total += more;
        }
        for (key, count) in &other.results {
            *self.results.entry(*key).or_default() += count;
        }
        for (key, count) in &other.weighed {
            *self.weighed.entry(*key).or_default() += count;
        }
        for (key, count) in &other.listed {
            *self.listed.entry(*key).or_default() += count;
        }
        for (key, count) in &other.mirrored {
            *self.mirrored.entry(*key).or_default() += count;
        }
        for (key, count) in &other.enquired {
            *self.enquired.entry(*key).or_default() += count;
        }
        for (key, count) in &other.imported {
            *self.imported.entry(*key).or_default() += count;
        }
        for (key, count) in &other.signed {
            *self.signed.entry(*key).or_default() += count;
        }
        for (total, more) in self.logs.iter_mut().zip(other.logs) {
            *total += more;
        }
        for (key, count) in &other.trayed {
            *self.trayed.entry(*key).or_default() += count;
        }
    }

    fn note(&mut self, what: Weighed, holds: bool) {
        if holds {
            *self.weighed.entry(what).or_default() += 1;
        }
    }

    fn note_listed(&mut self, what: Listed, holds: bool) {
        if holds {
            *self.listed.entry(what).or_default() += 1;
        }
    }
}

struct Case<'a> {
    random: Random,
    tally: &'a mut Tally,
}

type Held<T> = Result<T, String>;

/// Runs the case of a seed; the error has all that is needed to see it again.
pub fn run(seed: u64, tally: &mut Tally) -> Held<()> {
    let mut case = Case { random: Random::new(seed), tally };
    let held = match case.random.below(130) {
        0..=15 => case.reversing(),
        16..=23 => case.clearing(),
        24..=36 => case.comparing(),
        37..=41 => case.remaining(),
        42..=49 => case.checking(),
        50..=62 => case.packing(),
        64..=71 => case.bed(),
        72..=87 => case.mirror(),
        88..=93 => case.ways(),
        94..=99 => case.enquiry(),
        100..=109 => case.import(),
        110..=119 => case.signed(),
        120..=129 => case.tray(),
        _ => match case.random.below(16) {
            0..=1 => case.many_steps(),
            2..=3 => case.given_growth(),
            4..=5 => case.listed_growth(),
            _ => case.long_words(),
        },
    };
    held.map_err(|what| format!("case {seed}\n{what}"))
}

impl Case<'_> {
    /// Calls the firmware with areas of random content and holds it against the second implementation.
    fn held(&mut self, made: &Call, workspace: usize, answer: usize) -> Held<Left> {
        let work = self.random.bytes(workspace);
        let out = self.random.bytes(answer);
        self.held_in(made, &work, &out)
    }

    /// The same with areas that hold these bytes.
    fn held_in(&mut self, made: &Call, work: &[u8], out: &[u8]) -> Held<Left> {
        let (workspace, answer) = (work.len(), out.len());
        let must = expected(made, workspace, answer, &mut Most::default());
        self.tally.calls += 1;
        let report = |what: String| format!("{what}\nworkspace of {workspace}, answer area of {answer} bytes; in hexadecimal\n{made:02x?}");
        let left = call(made, work, out).map_err(report)?;
        judge(made, &must, work, out, &left).map_err(report)?;
        *self.tally.results.entry((made.name(), left.result, made.told_apart(left.result, left.values))).or_default() += 1;
        Ok(left)
    }

    /// One of 0, 1, exactly so many, one less, some more, or many.
    fn length(&mut self, exact: usize) -> usize {
        match self.random.below(16) {
            0 => 0,
            1 => 1,
            2..=6 => exact,
            7..=9 => exact.saturating_sub(1),
            10..=12 => exact + self.random.between(1, 40),
            13..=14 => self.random.between(0, exact + 40),
            _ => 32_768,
        }
    }

    /// As `length`, for an allowance.
    fn allowance(&mut self, exact: usize) -> u16 {
        let steps = match self.random.below(16) {
            0 => 0,
            1 => 1,
            2..=6 => exact,
            7..=9 => exact.saturating_sub(1),
            10..=11 => exact + 1,
            12..=13 => self.random.between(0, exact + 100),
            14 => self.random.below(2_000),
            _ => self.random.pick(&[65_535, 65_534, 32_768, 256, 255]),
        };
        steps.min(65_535) as u16
    }

    /// What a call comes to under limits that keep the case short.
    fn most(&mut self, made: &Call) -> Most {
        let mut most = Most::default();
        expected(made, 3_000, 70_000, &mut most);
        most
    }

    fn damaged(&mut self, image: &[u8]) -> Vec<u8> {
        let mut image = image.to_vec();
        match self.random.below(7) {
            0 if !image.is_empty() => {
                let at = self.random.below(image.len());
                image[at] ^= 1 << self.random.below(8);
            }
            1 if !image.is_empty() => {
                let last = image.len() - 1;
                image[last] ^= 1 << self.random.below(8);
            }
            2 => image.truncate(self.random.below(image.len() + 1)),
            3 => {
                image.pop();
            }
            4 => image.push(0),
            5 => {
                let more = self.random.between(1, 9);
                image.extend(self.random.bytes(more));
            }
            _ => {
                let length = self.random.below(12);
                image = self.random.bytes(length);
            }
        }
        image
    }

    /// An image as it is, or damaged once in `times`.
    fn perhaps(&mut self, image: &[u8], times: usize) -> Vec<u8> {
        if self.random.once_in(times) {
            self.damaged(image)
        } else {
            image.to_vec()
        }
    }

    /// Moves of any signs, or back ones and then forward ones.
    fn word_to_reverse(&mut self, table: &Table) -> Word {
        let length = self.random.pick(&[0, 1, 2, 4, 8, 16, 30, 60]);
        let word = signed_word(&mut self.random, table.moves, length);
        if !self.random.once_in(3) {
            return word;
        }
        let u = forward_word(&mut self.random, table.moves, length / 2);
        let v = forward_word(&mut self.random, table.moves, length / 2);
        [undoing(&u), v].concat()
    }

    fn reversing(&mut self) -> Held<()> {
        let table = any(&mut self.random);
        let word = self.word_to_reverse(&table);
        let image = table_image(&table);
        let program = program_image(table.moves, &word);
        let sound = Call::Reverse { table: image.clone(), program: program.clone(), allowance: 3_000 };
        let most = self.most(&sound);
        let whole = self.held(&sound, most.bytes, 70_000)?;
        self.other_orders(&table, &word, &whole)?;
        let exact = (whole.values[0] + whole.values[1]) as usize;
        for _ in 0..10 {
            let allowance = self.allowance(most.steps);
            let made = Call::Reverse { table: self.perhaps(&image, 12), program: self.perhaps(&program, 8), allowance };
            let (workspace, answer) = (self.length(most.bytes), self.length(exact));
            self.held(&made, workspace, answer)?;
        }
        Ok(())
    }

    /// Steps in other orders come to the firmware's N and D in as many steps, and to no end where it met an open pair.
    fn other_orders(&mut self, table: &Table, word: &[i8], whole: &Left) -> Held<()> {
        let [numerator, denominator, steps, _] = whole.values.map(|value| value as usize);
        for order in [Order::Rightmost, Order::Random(Random::new(self.random.bits())), Order::Random(Random::new(self.random.bits()))] {
            match whole.result {
                0 => {
                    let Ending::Finished { numerator: n, denominator: d, steps: k, .. } = orders::reverse(table, word, order, steps) else {
                        return Err(format!("another order doesn't finish in {steps} steps: {table:?} {word:?}"));
                    };
                    let same = (n.len(), d.len(), k) == (numerator, denominator, steps);
                    if !same || !whole.answer.starts_with(&[bytes(&n), bytes(&d)].concat()) {
                        return Err(format!("another order comes to {n:?}, {d:?} in {k} steps: {table:?} {word:?}"));
                    }
                    self.tally.orders.0 += 1;
                }
                10 => {
                    if let Ending::Finished { .. } = orders::reverse(table, word, order, 300) {
                        return Err(format!("another order finishes in spite of an open pair: {table:?} {word:?}"));
                    }
                    self.tally.orders.1 += 1;
                }
                _ => {}
            }
        }
        Ok(())
    }

    fn clearing(&mut self) -> Held<()> {
        let table = if self.random.once_in(2) { any(&mut self.random) } else { clearing(&mut self.random) };
        let image = table_image(&table);
        let most = self.most(&Call::Clear { table: image.clone(), allowance: 3_000 });
        for _ in 0..8 {
            let allowance = self.allowance(most.steps);
            let workspace = self.length(most.bytes);
            let given = self.perhaps(&image, 12);
            let made = Call::Clear { table: given.clone(), allowance };
            let left = self.held(&made, workspace, 0)?;
            self.completions(&given, &left);
        }
        Ok(())
    }

    /// Notes where the completions alone would have led to another outcome of clear than the sides.
    fn completions(&mut self, image: &[u8], left: &Left) {
        let Ok(table) = read_table(image) else {
            return;
        };
        let weight = |a: u8, b: u8| table.completion(a, b).map(|word| table.weight(word));
        let unequal = Table::pair_order(table.moves).iter().any(|(a, b)| weight(*a, *b) != weight(*b, *a));
        let [_, a, b, _] = left.values.map(|value| value as u8);
        self.tally.note(Weighed::ClearedUnequalCompletions, left.result == 0 && unequal);
        self.tally.note(Weighed::RefusedEqualCompletions, left.result == 8 && weight(a, b) == weight(b, a));
    }

    /// A second word for a comparison: joined to the first, joined and then changed, or any.
    fn other(&mut self, table: &Table, first: &[i8]) -> Word {
        let swaps = self.random.pick(&[0, 1, 3, 10, 30]);
        let (_, mut second) = walk(&mut self.random, table, first, swaps);
        match self.random.below(8) {
            0 if !second.is_empty() => {
                let at = self.random.below(second.len());
                second[at] = self.random.between(1, table.moves as usize) as i8;
            }
            1 => second = forward_word(&mut self.random, table.moves, first.len()),
            2 => {
                let length = self.random.below(first.len() + 3);
                second = forward_word(&mut self.random, table.moves, length);
            }
            3 => second = self.as_heavy(table, table.weight(first)).unwrap_or(second),
            _ => {}
        }
        second
    }

    /// A program of that weight, if one is met.
    fn as_heavy(&mut self, table: &Table, weight: usize) -> Option<Word> {
        word_of_weight(&mut self.random, &table.weights, weight).filter(|word| word.len() <= 4_095)
    }

    /// A forward program's image; once in a while a move is turned back.
    fn forward_image(&mut self, table: &Table, word: &[i8]) -> Vec<u8> {
        let mut word = word.to_vec();
        if self.random.once_in(24) && !word.is_empty() {
            let at = self.random.below(word.len());
            word[at] = -word[at];
        }
        let image = program_image(table.moves, &word);
        self.perhaps(&image, 16)
    }

    fn comparing(&mut self) -> Held<()> {
        let table = if self.random.once_in(8) { any(&mut self.random) } else { clearing(&mut self.random) };
        let length = self.random.pick(&[0, 1, 2, 3, 4, 6, 8, 12, 25]);
        let first = forward_word(&mut self.random, table.moves, length);
        let second = self.other(&table, &first);
        let (t, f, s) = (table_image(&table), program_image(table.moves, &first), program_image(table.moves, &second));
        let sound = Call::Chain { table: t.clone(), first: f.clone(), second: s.clone(), allowance: 3_000 };
        let most = self.most(&sound);
        let left = self.held(&sound, most.bytes, 70_000)?;
        self.search(&table, &first, &second, &left)?;
        let steps = left.values[1] as usize;
        let (answered, equally_long) = (left.result == 0, first.len() == second.len());
        self.tally.note(Weighed::SameOfUnequalLength, answered && left.values[0] == 0 && !equally_long);
        self.tally
            .note(Weighed::DifferentOfEqualLength, answered && left.values[..2] == [1, 0] && equally_long && !self.open_at_once(&sound));
        let same = answered && left.values[0] == 0;
        let exact = if same { left.values[3] as usize } else { chain_bytes(table.moves, steps) };
        if same {
            self.listed(&sound, &left)?;
            self.around_image(&sound, most.bytes, exact)?;
        }
        for _ in 0..5 {
            let near = self.random.pick(&[most.steps, most.steps, steps]);
            let allowance = self.allowance(near);
            let (workspace, answer) = (self.length(most.bytes), self.length(exact));
            let damaged = self.perhaps(&t, 24);
            let (one, two) = (self.forward_image(&table, &first), self.forward_image(&table, &second));
            let compare = Call::Compare { table: damaged.clone(), first: one.clone(), second: two.clone(), allowance };
            self.held(&compare, workspace, 0)?;
            let chain = Call::Chain { table: damaged, first: one, second: two, allowance };
            let left = self.held(&chain, workspace, answer)?;
            if left.result == 0 && left.values[0] == 0 {
                self.listed(&chain, &left)?;
            }
        }
        Ok(())
    }

    /// A verdict against a search of all words joined to the first, where the words are short.
    fn search(&mut self, table: &Table, first: &[i8], second: &[i8], left: &Left) -> Held<()> {
        if left.result != 0 || first.len() > 8 {
            return Ok(());
        }
        let Some(joined) = class(table, first, 3_000) else {
            return Ok(());
        };
        self.tally.searched += 1;
        if joined.contains(second) == (left.values[0] == 0) {
            return Ok(());
        }
        Err(format!("the verdict {} is wrong by search: {table:?} {first:?} {second:?}", left.values[0]))
    }

    /// A pattern for a part done: one that it begins, up to swaps, one that it ends up to them, one as long of the lightest move, or any.
    fn pattern(&mut self, table: &Table, done: &[i8]) -> Word {
        let more = self.random.pick(&[0, 1, 2, 4, 9]);
        let rest = forward_word(&mut self.random, table.moves, more);
        let swaps = self.random.pick(&[0, 1, 3, 10, 30]);
        match self.random.below(8) {
            0 => self.other(table, done),
            1 => walk(&mut self.random, table, &[rest, done.to_vec()].concat(), swaps).1,
            2 => forward_word(&mut self.random, table.moves, done.len() + more),
            3 => {
                let weight = table.weight(done) + table.weight(&rest);
                self.as_heavy(table, weight).unwrap_or(rest)
            }
            4 => {
                let lightest = (1..=table.moves).min_by_key(|m| table.weight(&[*m as i8])).unwrap();
                vec![lightest as i8; done.len()]
            }
            _ => walk(&mut self.random, table, &[done.to_vec(), rest].concat(), swaps).1,
        }
    }

    /// A part done of a pattern: all but at most two moves of a word joined to it, which may be more moves than the pattern has.
    fn begun(&mut self, table: &Table, pattern: &[i8]) -> Word {
        let swaps = self.random.pick(&[1, 3, 10, 30]);
        let (_, mut word) = walk(&mut self.random, table, pattern, swaps);
        word.truncate(word.len().saturating_sub(self.random.below(3)));
        word
    }

    fn remaining(&mut self) -> Held<()> {
        let table = if self.random.once_in(8) { any(&mut self.random) } else { clearing(&mut self.random) };
        let length = self.random.pick(&[0, 1, 2, 3, 4, 6, 12, 25]);
        let word = forward_word(&mut self.random, table.moves, length);
        let (done, pattern) = if self.random.once_in(4) {
            (self.begun(&table, &word), word)
        } else {
            let pattern = self.pattern(&table, &word);
            (word, pattern)
        };
        let (t, d, p) = (table_image(&table), program_image(table.moves, &done), program_image(table.moves, &pattern));
        let sound = Call::Remainder { table: t.clone(), done: d.clone(), pattern: p.clone(), allowance: 3_000 };
        let most = self.most(&sound);
        let left = self.held(&sound, most.bytes, 70_000)?;
        self.search_rest(&table, &done, &pattern, &left)?;
        let [none, exact, steps, _] = left.values.map(|value| value as usize);
        let (answered, shorter) = (left.result == 0, pattern.len() < done.len());
        self.tally.note(Weighed::MovesOfShorterPattern, answered && none == 0 && shorter);
        self.tally.note(Weighed::NoneOfLongerPattern, answered && (none, steps) == (1, 0) && !shorter && !self.open_at_once(&sound));
        for _ in 0..8 {
            let near = self.random.pick(&[most.steps, most.steps, steps]);
            let allowance = self.allowance(near);
            let (workspace, answer) = (self.length(most.bytes), self.length(exact));
            let (one, two) = (self.forward_image(&table, &done), self.forward_image(&table, &pattern));
            let made = Call::Remainder { table: self.perhaps(&t, 24), done: one, pattern: two, allowance };
            self.held(&made, workspace, answer)?;
        }
        Ok(())
    }

    /// The moves that are left against a search of all words joined to the pattern, where it is short: those which begin with the part done. Moves
    /// come exactly if there is one, and then all that go on in it are joined to them.
    fn search_rest(&mut self, table: &Table, done: &[i8], pattern: &[i8], left: &Left) -> Held<()> {
        if left.result != 0 || pattern.len() > 8 {
            return Ok(());
        }
        let Some(joined) = class(table, pattern, 3_000) else {
            return Ok(());
        };
        let rests: Vec<Word> = joined.iter().filter(|word| word.starts_with(done)).map(|word| word[done.len()..].to_vec()).collect();
        self.tally.searched += 1;
        let report = |what: &str| Err(format!("{what}: {table:?} {done:?} {pattern:?} {:?}", left.values));
        if left.values[0] == 1 {
            return if rests.is_empty() { Ok(()) } else { report("none, but moves are found by search") };
        }
        let moves: Word = left.answer[..left.values[1] as usize].iter().map(|byte| *byte as i8).collect();
        if !rests.contains(&moves) {
            return report("the moves don't finish the pattern");
        }
        match class(table, &moves, 3_000) {
            Some(others) if !rests.iter().all(|rest| others.contains(rest)) => {
                report("other moves that finish the pattern are not joined to these")
            }
            _ => Ok(()),
        }
    }

    /// Whether the reversing of a call meets an open pair before any step.
    fn open_at_once(&self, made: &Call) -> bool {
        let (Call::Chain { table, first, second, .. } | Call::Remainder { table, done: first, pattern: second, .. }) = made else {
            return false;
        };
        let read = |image: &[u8], table: &Table| read_forward(image, table.moves).ok();
        let meeting = |table: &Table| Some((*read(first, table)?.first()? as u8, *read(second, table)?.first()? as u8));
        read_table(table).is_ok_and(|table| meeting(&table).is_some_and(|(a, b)| table.completion(a, b).is_none()))
    }

    /// Areas around the end of a chain's image: a byte less than it has is 13, as many suffice, and so do more.
    fn around_image(&mut self, made: &Call, workspace: usize, bytes: usize) -> Held<()> {
        let more = bytes + self.random.between(1, 40);
        for (answer, result) in [(bytes - 1, 13), (bytes, 0), (more, 0)] {
            let left = self.held(made, workspace, answer)?;
            if left.result != result {
                return Err(format!("{} for a chain of {bytes} bytes in an area of {answer}: {made:02x?}", left.result));
            }
            self.tally.note_listed(Listed::ByteShort, result == 13);
            if result == 0 {
                self.listed(made, &left)?;
            }
        }
        Ok(())
    }

    /// Notes what a listed chain's entries are to the steps, and its bytes to the area.
    fn listed_lengths(&mut self, moves: u8, left: &Left) {
        let [_, steps, entries, bytes] = left.values.map(|value| value as usize);
        let area = left.answer.len();
        self.tally.note_listed(Listed::ExactArea, area == bytes);
        self.tally.note_listed(Listed::LongerArea, area > bytes);
        self.tally.note_listed(Listed::AreaShortOfSteps, area < chain_bytes(moves, steps));
        self.tally.note_listed(Listed::FewerThanSteps, 0 < entries && entries < steps);
        self.tally.note_listed(Listed::NoneAfterSteps, 0 == entries && entries < steps);
        self.tally.note_listed(Listed::AsManyAsSteps, 0 < entries && entries == steps);
        self.tally.note_listed(Listed::MostEntries, entries == 65_535);
    }

    /// Both implementations follow a listed chain to the second program: the bytes that were told, and no others. As many bytes of workspace as the first
    /// one weighs are enough, and as many as the longest word has moves are needed.
    fn listed(&mut self, made: &Call, left: &Left) -> Held<()> {
        let Call::Chain { table, first, second, .. } = made else {
            return Err("no chain was asked for".into());
        };
        let image = listed_chain(made, left.values[2] as usize, left.values[3] as usize, &left.answer)?;
        let refused = |r| format!("{r:?}");
        let read = read_table(table).map_err(refused)?;
        self.listed_lengths(read.moves, left);
        let (from, to) = (read_forward(first, read.moves).map_err(refused)?, read_forward(second, read.moves).map_err(refused)?);
        let entries = read_chain(&image, read.moves).map_err(refused)?;
        let mut longest = 0;
        follow(&read, &from, &to, &entries, usize::MAX, &mut longest).map_err(refused)?;
        self.tally.note(Weighed::ListedThroughLongerWord, longest > from.len().max(to.len()));
        self.tally.note(Weighed::ListedFarOffset, entries.iter().any(|entry| entry.offset > 4_095));
        let check = Call::Check { table: table.clone(), first: first.clone(), second: second.clone(), entries: image };
        let checked = self.held(&check, read.weight(&from), 0)?;
        if (checked.result, checked.values[0]) != (0, 0) {
            return Err(format!("the firmware doesn't accept its own chain: {check:02x?}"));
        }
        if longest > 0 && self.random.once_in(8) {
            self.held(&check, longest, 0)?;
            self.held(&check, longest - 1, 0)?;
        }
        Ok(())
    }

    /// A chain as it is, or with entries changed, left out or added.
    fn changed(&mut self, moves: u8, entries: &[Entry]) -> Vec<Entry> {
        let mut entries = entries.to_vec();
        let letter = |random: &mut Random| random.between(1, moves as usize) as u8;
        match self.random.below(6) {
            0 if !entries.is_empty() => {
                let at = self.random.below(entries.len());
                let entry = &mut entries[at];
                match self.random.below(4) {
                    0 => entry.offset = (entry.offset + 1) % 32_768,
                    1 => entry.offset = self.random.below(32_768),
                    2 => entry.a = letter(&mut self.random),
                    _ => entry.b = letter(&mut self.random),
                }
            }
            1 if !entries.is_empty() => {
                entries.remove(self.random.below(entries.len()));
            }
            2 => {
                let at = self.random.below(entries.len() + 1);
                let offset = self.random.below(20);
                let (a, b) = (letter(&mut self.random), letter(&mut self.random));
                entries.insert(at, Entry { offset, a, b });
            }
            _ => {}
        }
        entries
    }

    fn checking(&mut self) -> Held<()> {
        let table = any(&mut self.random);
        let length = self.random.pick(&[0, 1, 2, 4, 8, 16, 40]);
        let first = forward_word(&mut self.random, table.moves, length);
        let swaps = self.random.pick(&[0, 1, 2, 5, 20]);
        let (entries, second) = walk(&mut self.random, &table, &first, swaps);
        let image = table_image(&table);
        for _ in 0..8 {
            let changed = self.changed(table.moves, &entries);
            let sound = chain_image(table.moves, &changed);
            let other = if self.random.once_in(6) { self.other(&table, &first) } else { second.clone() };
            let made = Call::Check {
                table: self.perhaps(&image, 24),
                first: self.forward_image(&table, &first),
                second: self.forward_image(&table, &other),
                entries: self.perhaps(&sound, 12),
            };
            let most = self.most(&made);
            let workspace = self.length(most.bytes);
            self.held(&made, workspace, 0)?;
        }
        Ok(())
    }

    fn packing(&mut self) -> Held<()> {
        let table = any(&mut self.random);
        let image = table_image(&table);
        let plain = plain_table(&table);
        let count = self.random.pick(&[0, 1, 2, 3, 5, 7, 8, 20, 100, 400]);
        let word = signed_word(&mut self.random, table.moves, count);
        let program = program_image(table.moves, &word);
        for _ in 0..4 {
            let made = Call::PackTable { plain: self.perhaps(&plain, 3) };
            let answer = self.length(image.len());
            self.held(&made, 0, answer)?;
            let made = Call::UnpackTable { table: self.perhaps(&image, 3) };
            let answer = self.length(plain.len());
            self.held(&made, 0, answer)?;
            let moves = bytes(&word);
            let made = Call::PackProgram { table: self.perhaps(&image, 24), plain: self.perhaps(&moves, 4) };
            let answer = self.length(program.len());
            self.held(&made, 0, answer)?;
            let made = Call::UnpackProgram { table: self.perhaps(&image, 24), program: self.perhaps(&program, 4) };
            let answer = self.length(word.len());
            self.held(&made, 0, answer)?;
        }
        Ok(())
    }

    /// A given chain from q times 2 that turns each 2 into 1s, from either end on, and all back again. The words on the way have up to 32,760 moves.
    fn given_growth(&mut self) -> Held<()> {
        let power = self.random.pick(&[2, 8, 8, 8]);
        let table = growing(power, 1);
        let q = self.random.pick(&[1, 7, 600, 2_100, 4_095, 4_095]);
        let first = vec![2; q];
        let mut entries = Vec::new();
        let from_left = self.random.once_in(2);
        for k in 0..q {
            let offset = if from_left { k * usize::from(power) } else { q - 1 - k };
            entries.push(Entry { offset, a: 2, b: 1 });
        }
        for k in 0..q {
            let offset = if from_left { k } else { (q - 1 - k) * usize::from(power) };
            entries.push(Entry { offset, a: 1, b: 2 });
        }
        let program = program_image(table.moves, &first);
        let entries = if self.random.once_in(2) { self.changed(table.moves, &entries) } else { entries };
        let far = entries.iter().any(|entry| entry.offset > 4_095);
        let made = Call::Check {
            table: table_image(&table),
            first: program.clone(),
            second: program,
            entries: chain_image(table.moves, &entries),
        };
        let grown = table.weight(&first);
        for workspace in [grown, grown - 1, self.random.between(0, grown + 9)] {
            let left = self.held(&made, workspace, 0)?;
            let joins = (left.result, left.values[0]) == (0, 0);
            self.tally.note(Weighed::JoinsAtFarOffset, joins && far);
            self.tally.note(Weighed::LongestWord, joins && grown == 32_760);
        }
        Ok(())
    }

    /// q times 2, then 3 3, is 3 3, then q times 2, in (2 p + 1) q + 2 steps where 2 is p times 1. The first 3 leaves 1s behind, past which the second is
    /// then brought. Two 3s vanish, and p - 1 times 1 for each 2 on the other side: (p + 2) q steps are on two different moves.
    fn listed_growth(&mut self) -> Held<()> {
        let power = self.random.pick(&[2, 5, 8, 8]);
        let third = self.random.between(1, 8) as u8;
        let table = growing(power, third);
        let q = self.random.pick(&[1, 4, 60, 520, 700, 1_000]);
        let (twos, threes) = (vec![2; q], vec![3, 3]);
        let [first, second] = [[twos.clone(), threes.clone()], [threes, twos]].map(|words| program_image(table.moves, &words.concat()));
        let steps = (2 * usize::from(power) + 1) * q + 2;
        let entries = (usize::from(power) + 2) * q;
        let exact = chain_bytes(table.moves, entries);
        let sound = Call::Chain { table: table_image(&table), first: first.clone(), second: second.clone(), allowance: steps as u16 };
        let left = self.held(&sound, 32_768, exact)?;
        if left.values != [0, steps, entries, exact].map(|value| value as u64) {
            return Err(format!("not the same after {steps} steps by {entries} entries: {table:?} {q}"));
        }
        self.listed(&sound, &left)?;
        let answer = self.random.pick(&[exact, exact - 1, exact + 9]);
        let workspace = self.random.between(2 * q, 10 * q + 9);
        let allowance = self.allowance(steps);
        self.held(&Call::Chain { table: table_image(&table), first, second, allowance }, workspace, answer)?;
        Ok(())
    }

    /// Under commuting moves, k times 1 then k times 2 is k times 2 then k times 1, in k * k + 2 * k steps: 65,535 for k = 255. At 2 * k of them two equal
    /// moves vanish; where the second program has 3 for 1 and 4 for 2, they are different, and every step has its entry.
    fn many_steps(&mut self) -> Held<()> {
        let k = self.random.pick(&[60, 200, 254, 255, 255, 256]);
        let (one, two) = (self.random.between(1, 8) as u8, self.random.between(1, 8) as u8);
        let steps = k * k + 2 * k;
        let twin = self.random.once_in(2);
        let (table, first_again, second_again, entries) = if twin {
            (twins(one, two), 3, 4, steps)
        } else {
            (Table::light(2, vec![Some((vec![2], vec![1]))]).weighing(vec![one, two]), 1, 2, k * k)
        };
        let exact = chain_bytes(table.moves, entries);
        let words = [[vec![1; k], vec![2; k]], [vec![second_again; k], vec![first_again; k]]];
        let [first, second] = words.map(|words| program_image(table.moves, &words.concat()));
        let of = |allowance| Call::Chain { table: table_image(&table), first: first.clone(), second: second.clone(), allowance };
        if steps <= 65_535 {
            let sound = of(steps as u16);
            let left = self.held(&sound, 4 * k, exact)?;
            if left.values != [0, steps, entries, exact].map(|value| value as u64) {
                return Err(format!("not the same after {steps} steps by {entries} entries: {table:?} {k}"));
            }
            self.listed(&sound, &left)?;
        }
        let made = of(self.allowance(steps));
        let answer = self.random.pick(&[exact, exact - 1, exact + 9]);
        let workspace = self.random.pick(&[4 * k, 4 * k - 1, 32_768]);
        let left = self.held(&made, workspace, answer)?;
        if left.result == 0 {
            self.listed(&made, &left)?;
        }
        Ok(())
    }

    /// Programs of up to 4,095 moves, and more to be packed.
    fn long_words(&mut self) -> Held<()> {
        let table = if self.random.once_in(4) { any(&mut self.random) } else { clearing(&mut self.random) };
        let length = self.random.pick(&[4_095, 4_095, 4_094, 2_048, 1_000]);
        let image = table_image(&table);
        match self.random.below(3) {
            0 => {
                let word = signed_word(&mut self.random, table.moves, length);
                let program = program_image(table.moves, &word);
                let allowance = self.random.pick(&[65_535, 20_000, 5_000]);
                let (workspace, answer) = (self.random.pick(&[32_768, 8_192, 4_095]), self.random.pick(&[32_768, 4_095]));
                self.held(&Call::Reverse { table: image.clone(), program: program.clone(), allowance }, workspace, answer)?;
                self.held(&Call::UnpackProgram { table: image, program }, 0, length)?;
            }
            1 => {
                let first = forward_word(&mut self.random, table.moves, length);
                let (entries, second) = walk(&mut self.random, &table, &first, 40);
                let (one, two) = (program_image(table.moves, &first), program_image(table.moves, &second));
                let workspace = self.random.pick(&[32_768, 8_190, 8_189]);
                let chain = Call::Chain { table: image.clone(), first: one.clone(), second: two.clone(), allowance: 65_535 };
                let left = self.held(&chain, workspace, 70_000 * 3)?;
                if left.result == 0 && left.values[0] == 0 {
                    self.listed(&chain, &left)?;
                    let exact = left.values[3] as usize;
                    let answer = self.random.pick(&[exact, exact - 1]);
                    self.held(&chain, workspace, answer)?;
                }
                let entries = chain_image(table.moves, &entries);
                self.held(&Call::Check { table: image.clone(), first: one, second: two.clone(), entries }, 4_095, 0)?;
                let done = program_image(table.moves, &first[..length / 2]);
                let answer = self.random.pick(&[32_768, length - length / 2, length - length / 2 - 1]);
                self.held(&Call::Remainder { table: image, done, pattern: two, allowance: 65_535 }, workspace, answer)?;
            }
            _ => {
                let count = self.random.pick(&[4_094, 4_095, 4_096, 4_097, 5_000]);
                let mut plain = bytes(&signed_word(&mut self.random, table.moves, count));
                if self.random.once_in(2) {
                    plain[count / 2] = self.random.pick(&[0, 128, 17, 255]);
                }
                let answer = self.random.pick(&[2_561, 2_560, 4_095]);
                self.held(&Call::PackProgram { table: image, plain }, 0, answer)?;
            }
        }
        Ok(())
    }
}
