//! Cases of import: texts of random patterns in areas around their moves, counts around 4,095 and far above it, numbers above n, deep brackets, and texts that
//! are damaged, faulty or any bytes. An answer is also held against those of its own moves, one after another, and of the text under a minus.
use super::{Case, Held};
use crate::guarded::Left;
use second::call::Call;
use second::image::table_image;
use second::notation::{depth, highest, meaning, read, size, text, Body, Item, Pattern, BYTES, DEEPEST};
use second::patterns::{bracket, damaged, deep, emptied, faulty, letter, scattered, sized, tower, tree, with_number};
use second::tables::any;

/// What the cases must lead to, beside each result.
#[derive(Clone, Copy, Debug, PartialEq, Eq, PartialOrd, Ord)]
pub enum Imported {
    /// The empty text, and no moves from another one.
    EmptyText,
    NoMoves,
    /// 13 in an area one byte too short, an answer in one that just suffices, and in a longer one.
    ByteShort,
    ExactArea,
    LongerArea,
    /// 4,095 moves, and 20 for 4,096.
    MostMoves,
    MoveTooMany,
    /// 20 in an area that is too short as well, and in one that would hold the moves.
    TooManyShortArea,
    TooManyLongArea,
    /// 20 for a number of moves that is at most 4,095 in its lowest 16 bits, in its lowest 32 and in its lowest 64.
    RightIn16Bits,
    RightIn32Bits,
    RightIn64Bits,
    /// No moves, or some, though more than 2^64 stand under a count of 0.
    HugeUnderZero,
    /// 5 for a number that stands only under counts of 0.
    NumberUnderZero,
    /// 5 though there are too many moves as well, and though the area is too short.
    NumberBeforeTooMany,
    NumberBeforeShortArea,
    /// 19 though a number above n stands before the fault.
    FaultBeforeNumber,
    /// An answer to brackets that nest eight deep, and 19 for nine that are sound otherwise.
    Deepest,
    TooDeep,
    /// An answer in which a minus stands before a bracket of several moves with a count above 1.
    CountThenMinus,
    /// A damaged text that is still a pattern, and one that is none.
    DamagedRead,
    DamagedRefused,
    /// A random text of three bytes or more that is a pattern.
    RandomRead,
    /// 19 for random bytes.
    RandomBytes,
    /// An answer to a text of more than 65,535 bytes.
    LongText,
}

impl Imported {
    pub const ALL: [Imported; 25] = [
        Imported::EmptyText,
        Imported::NoMoves,
        Imported::ByteShort,
        Imported::ExactArea,
        Imported::LongerArea,
        Imported::MostMoves,
        Imported::MoveTooMany,
        Imported::TooManyShortArea,
        Imported::TooManyLongArea,
        Imported::RightIn16Bits,
        Imported::RightIn32Bits,
        Imported::RightIn64Bits,
        Imported::HugeUnderZero,
        Imported::NumberUnderZero,
        Imported::NumberBeforeTooMany,
        Imported::NumberBeforeShortArea,
        Imported::FaultBeforeNumber,
        Imported::Deepest,
        Imported::TooDeep,
        Imported::CountThenMinus,
        Imported::DamagedRead,
        Imported::DamagedRefused,
        Imported::RandomRead,
        Imported::RandomBytes,
        Imported::LongText,
    ];
}

/// The most moves that an area ever has to hold.
const MOST: usize = 4_095;

/// Whether a minus stands before a bracket of several moves with a count above 1, not under a 0.
fn undoes_several(pattern: &[Item]) -> bool {
    pattern.iter().filter(|item| item.count != Some(0)).any(|item| match &item.body {
        Body::Bracket(inside) => (item.back && item.count > Some(1) && size(inside) > 1) || undoes_several(inside),
        Body::Move(_) => false,
    })
}

/// The largest number of moves of any bracket, also of those under a 0.
fn largest(pattern: &[Item]) -> u128 {
    let of_item = |item: &Item| match &item.body {
        Body::Bracket(inside) => largest(inside),
        Body::Move(_) => 0,
    };
    pattern.iter().map(of_item).max().unwrap_or(0).max(size(pattern))
}

impl Case<'_> {
    pub(super) fn import(&mut self) -> Held<()> {
        let table = any(&mut self.random);
        let (image, n) = (table_image(&table), table.moves);
        match self.random.below(24) {
            0..=6 => {
                let pattern = self.any_pattern(n);
                self.pattern_in_areas(&image, n, &pattern)
            }
            7..=8 => {
                let (moves, levels) =
                    (self.random.pick(&[4_000, 4_094, 4_095, 4_095, 4_096, 4_096, 4_097, 5_000]), self.random.between(0, DEEPEST));
                let pattern = sized(&mut self.random, n, moves, levels);
                self.pattern_in_areas(&image, n, &pattern)
            }
            9..=11 => {
                let pattern = self.huge_pattern(n);
                self.pattern_in_areas(&image, n, &pattern)
            }
            12 => self.numbers_above(&image, n),
            13..=16 => self.faulty_texts(&image, n),
            17..=18 => self.deep_texts(&image, n),
            19..=20 => self.random_texts(&image),
            21 => self.long_text(&image, n),
            _ => self.damaged_tables(&image, n),
        }
    }

    fn note_imported(&mut self, what: Imported, holds: bool) {
        if holds {
            *self.tally.imported.entry(what).or_default() += 1;
        }
    }

    fn imported(&mut self, table: &[u8], text: &[u8], area: usize) -> Held<Left> {
        self.held(&Call::Import { table: table.to_vec(), text: text.to_vec() }, 0, area)
    }

    /// A pattern of any family with numbers up to n.
    fn any_pattern(&mut self, n: u8) -> Pattern {
        let levels = self.random.between(0, DEEPEST);
        match self.random.below(8) {
            0 => deep(&mut self.random, n, levels),
            1 => {
                let moves = self.random.below(300);
                sized(&mut self.random, n, moves, levels)
            }
            2 => Pattern::new(),
            _ => {
                let items = self.random.pick(&[1, 2, 3, 4, 6]);
                tree(&mut self.random, n, levels, items)
            }
        }
    }

    /// A tower, at times with one count 0; or a power of two, so that few or no moves are left in the lowest bits of its number.
    fn huge_pattern(&mut self, n: u8) -> Pattern {
        let number = self.random.between(1, n.into()) as u8;
        let around = |inside: Item, counts: &[u8]| counts.iter().fold(vec![inside], |inside, count| vec![bracket(inside, Some(*count))]);
        let pattern = match self.random.below(8) {
            0 => around(letter(number, Some(64)), &[64, 16]),
            1 => around(letter(number, Some(4)), &[64; 5]),
            2 => tower(number, 1_024, 64),
            // Without the outermost count, 2,000 items mean more than 2^64 moves.
            3 => emptied(tower(number, 2_000, 99), 0),
            _ => tower(number, self.random.pick(&[0, 1, 20, 21, 22, 40]), 99),
        };
        let pattern = if self.random.once_in(3) { emptied(pattern, self.random.below(9)) } else { pattern };
        let (before, behind) = (tree(&mut self.random, n, 1, 2), tree(&mut self.random, n, 1, 2));
        [before, pattern, behind].concat()
    }

    /// A sound pattern in areas around its moves.
    fn pattern_in_areas(&mut self, table: &[u8], n: u8, pattern: &[Item]) -> Held<()> {
        let (written, moves) = (text(pattern), size(pattern));
        let exact = moves.min(MOST as u128 + 1) as usize;
        for area in [exact, exact.saturating_sub(1), self.length(exact), self.length(exact)] {
            let left = self.imported(table, &written, area)?;
            self.note_area(&left, area, moves);
            if left.result == 0 {
                self.note_answer(&written, pattern);
                self.told_otherwise(table, pattern, &left)?;
            }
        }
        let left = self.imported(table, &written, MOST)?;
        let must = if moves > MOST as u128 { 20 } else { 0 };
        if highest(pattern) > n || left.result == must {
            return Ok(());
        }
        Err(format!("{} for {moves} moves in {MOST} bytes", left.result))
    }

    fn note_area(&mut self, left: &Left, area: usize, moves: u128) {
        let answered = left.result == 0;
        self.note_imported(Imported::ByteShort, left.result == 13 && area as u128 + 1 == moves);
        self.note_imported(Imported::ExactArea, answered && moves > 0 && area as u128 == moves);
        self.note_imported(Imported::LongerArea, answered && moves > 0 && area as u128 > moves);
        self.note_imported(Imported::MostMoves, answered && moves == MOST as u128);
        let too_many = left.result == 20;
        self.note_imported(Imported::MoveTooMany, too_many && moves == MOST as u128 + 1);
        self.note_imported(Imported::TooManyShortArea, too_many && (area as u128) < moves);
        self.note_imported(Imported::TooManyLongArea, too_many && area as u128 >= moves);
        let few = |bits: u32| moves % (1 << bits) <= MOST as u128;
        self.note_imported(Imported::RightIn16Bits, too_many && few(16) && !few(32));
        self.note_imported(Imported::RightIn32Bits, too_many && few(32) && !few(64));
        self.note_imported(Imported::RightIn64Bits, too_many && few(64));
    }

    fn note_answer(&mut self, written: &[u8], pattern: &[Item]) {
        self.note_imported(Imported::EmptyText, written.is_empty());
        self.note_imported(Imported::NoMoves, !written.is_empty() && size(pattern) == 0);
        self.note_imported(Imported::HugeUnderZero, largest(pattern) > u128::from(u64::MAX));
        self.note_imported(Imported::Deepest, depth(pattern) == DEEPEST);
        self.note_imported(Imported::CountThenMinus, undoes_several(pattern));
        self.note_imported(Imported::LongText, written.len() > 65_535);
    }

    /// The answer is also that of its moves, written one after another. The text in a bracket under a minus means the undoing.
    fn told_otherwise(&mut self, table: &[u8], pattern: &[Item], left: &Left) -> Held<()> {
        let word = meaning(pattern);
        let single: Pattern = word.iter().map(|m| Item { back: *m < 0, ..letter(m.unsigned_abs(), None) }).collect();
        let undone = vec![Item { back: true, ..bracket(pattern.to_vec(), None) }];
        let moves = left.values[0] as usize;
        let again = self.imported(table, &text(&single), moves)?;
        if (again.result, again.values) != (0, left.values) || again.answer[..] != left.answer[..moves] {
            return Err(format!("the moves of a pattern, one by one, mean something else: {}", String::from_utf8_lossy(&text(pattern))));
        }
        self.tally.imports[0] += 1;
        if depth(pattern) == DEEPEST {
            return Ok(());
        }
        let back = self.imported(table, &text(&undone), moves)?;
        let turned: Vec<u8> = left.answer[..moves].iter().rev().map(|byte| byte ^ 128).collect();
        if (back.result, back.values) != (0, left.values) || back.answer != turned {
            return Err(format!("under a minus stands something else than the undoing: {}", String::from_utf8_lossy(&text(&undone))));
        }
        self.tally.imports[1] += 1;
        Ok(())
    }

    /// Numbers from n + 1 to 99, under a 0 or not, beside few moves or too many; at times with a fault behind them.
    fn numbers_above(&mut self, table: &[u8], n: u8) -> Held<()> {
        for _ in 0..4 {
            let mut pattern = match self.random.below(4) {
                0 => self.huge_pattern(n),
                1 => {
                    let moves = self.random.between(4_090, 4_100);
                    sized(&mut self.random, n, moves, 2)
                }
                _ => tree(&mut self.random, n, 4, 4),
            };
            let above = if self.random.once_in(2) { n + 1 } else { self.random.between(usize::from(n) + 1, 99) as u8 };
            let items = match self.random.below(4) {
                0 => letter(above, None),
                1 => letter(above, Some(0)),
                2 => bracket(vec![letter(above, None), letter(1, None)], Some(0)),
                _ => bracket(vec![bracket(vec![letter(above, Some(2))], Some(99))], Some(0)),
            };
            with_number(&mut self.random, &mut pattern, items);
            let (written, moves) = (text(&pattern), size(&pattern));
            for area in [0, 5_000] {
                let left = self.imported(table, &written, area)?;
                // with_number may have put the item under brackets that nest too deep already.
                let five = left.result == 5;
                let laid = moves <= MOST as u128 && meaning(&pattern).iter().any(|m| m.unsigned_abs() > n);
                self.note_imported(Imported::NumberUnderZero, five && moves <= MOST as u128 && !laid);
                self.note_imported(Imported::NumberBeforeTooMany, five && moves > MOST as u128);
                self.note_imported(Imported::NumberBeforeShortArea, five && area == 0 && moves > 0 && moves <= MOST as u128);
            }
            let fault = self.random.pick(&[" ", "(", ")", "x", "^", " 0", " 100", "\0"]);
            let left = self.imported(table, &[&written, fault.as_bytes()].concat(), 5_000)?;
            self.note_imported(Imported::FaultBeforeNumber, left.result == 19 && read(&written).is_some());
        }
        Ok(())
    }

    /// Texts with one byte changed, and with faults that a reader may overlook.
    fn faulty_texts(&mut self, table: &[u8], n: u8) -> Held<()> {
        let pattern = self.any_pattern(n);
        let sound = text(&pattern);
        for _ in 0..6 {
            let once = if self.random.once_in(2) { damaged(&mut self.random, &sound) } else { faulty(&mut self.random, &sound) };
            let given = if self.random.once_in(4) { damaged(&mut self.random, &once) } else { once };
            let left = self.imported(table, &given, MOST)?;
            self.note_imported(Imported::DamagedRefused, left.result == 19);
            self.note_imported(Imported::DamagedRead, left.result != 19);
            if let (0, Some(pattern)) = (left.result, read(&given)) {
                self.told_otherwise(table, &pattern, &left)?;
            }
        }
        Ok(())
    }

    /// Brackets that nest seven to ten deep: nine are refused, however sound the rest is.
    fn deep_texts(&mut self, table: &[u8], n: u8) -> Held<()> {
        for levels in [DEEPEST - 1, DEEPEST, DEEPEST + 1, DEEPEST + 2] {
            let shallow = tree(&mut self.random, n, 2, 2);
            let pattern = [shallow, deep(&mut self.random, n, levels)].concat();
            let left = self.imported(table, &text(&pattern), MOST)?;
            if (left.result == 19) != (levels > DEEPEST) {
                return Err(format!("{} for brackets {levels} deep: {}", left.result, String::from_utf8_lossy(&text(&pattern))));
            }
            self.note_imported(Imported::Deepest, left.result == 0 && levels == DEEPEST);
            self.note_imported(Imported::TooDeep, levels == DEEPEST + 1);
        }
        Ok(())
    }

    fn random_texts(&mut self, table: &[u8]) -> Held<()> {
        for _ in 0..8 {
            let length = self.random.below(8);
            let bytes = self.random.pick(&[BYTES, b" -()^012", b"12 ()", b"12 -^", b"12 "]);
            let given = scattered(&mut self.random, length, bytes);
            let left = self.imported(table, &given, 200)?;
            self.note_imported(Imported::RandomRead, left.result != 19 && length >= 3);
        }
        let length = self.random.below(40);
        let given = self.random.bytes(length);
        let left = self.imported(table, &given, 200)?;
        self.note_imported(Imported::RandomBytes, left.result == 19);
        Ok(())
    }

    /// Many items that mean little, at times with a fault or a few moves at the end.
    fn long_text(&mut self, table: &[u8], n: u8) -> Held<()> {
        let items = self.random.pick(&[100, 1_000, 17_000]);
        let item = self.random.pick(&["1^0", "()", "-(1)^0", "((1^99)^41)^0", "(() -()^99)"]);
        let end = self.any_pattern(n);
        let mut given = [vec![item; items].join(" ").as_bytes(), if end.is_empty() { b"" } else { b" " }, &text(&end)].concat();
        if self.random.once_in(2) {
            given = [b"-(", given.as_slice(), b")^1"].concat();
        }
        if self.random.once_in(4) {
            given.push(self.random.pick(b" (x^"));
        }
        let exact = size(&end).min(MOST as u128) as usize;
        for area in [exact, exact.saturating_sub(1)] {
            let left = self.imported(table, &given, area)?;
            self.note_imported(Imported::LongText, left.result == 0 && given.len() > 65_535);
        }
        Ok(())
    }

    fn damaged_tables(&mut self, table: &[u8], n: u8) -> Held<()> {
        for _ in 0..6 {
            let pattern = self.any_pattern(n);
            let given = if self.random.once_in(2) { text(&pattern) } else { faulty(&mut self.random, &text(&pattern)) };
            let (image, area) = (self.damaged(table), self.random.below(60));
            self.imported(&image, &given, area)?;
        }
        Ok(())
    }
}
