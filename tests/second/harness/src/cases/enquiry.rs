//! Cases of enquire and commit: the enquiry's own numbers in areas around its sizes, other numbers, stops, open pairs and damaged images. Each commit is
//! also held against what the firmware itself said to the enquiry, and against reverse in areas of the same content.
use super::{Case, Held};
use crate::guarded::Left;
use second::call::Call;
use second::image::{program_image, table_image};
use second::table::Table;
use second::tables::{any, clearing, forward_word, signed_word};
use second::word::undoing;

/// What the cases must lead to, beside each result.
#[derive(Clone, Copy, Debug, PartialEq, Eq, PartialOrd, Ord)]
pub enum Enquired {
    /// 18 where only the length of N is another.
    NumeratorAlone,
    /// 18 where only the length of D is.
    DenominatorAlone,
    /// 18 where only the steps are.
    StepsAlone,
    /// 18 for the lengths of N and D exchanged.
    LengthsExchanged,
    /// 18 for other lengths of the same sum, not exchanged.
    SameSum,
    /// 18 for numbers that are right in the lowest 16 bits, and not in the lowest 32.
    RightIn16Bits,
    /// .. in the lowest 32, and not in the lowest 63.
    RightIn32Bits,
    /// .. in all but the highest.
    RightIn63Bits,
    /// 18 for three zeros.
    ThreeZeros,
    /// 18 in an area that is too short as well.
    OtherNumbersShortArea,
    /// 13 for the enquiry's own numbers in an area one byte too short.
    ByteShort,
    /// An answer to them in an area that just suffices, and in a longer one.
    ExactArea,
    LongerArea,
    /// 10, whatever the numbers are.
    OpenPair,
    /// 11 and 12 for the numbers that the reversing comes to within larger limits.
    AllowanceBeforeNumbers,
    WorkspaceBeforeNumbers,
    /// A program's or table's fault, whatever the numbers are.
    FaultBeforeNumbers,
    /// An answered enquiry of some steps, committed as reverse answers.
    CommittedAfterSteps,
    /// .. without a step.
    CommittedWithoutStep,
    /// .. of a program of 4,095 moves, after steps.
    LongestProgram,
    /// .. with a numerator of more than 65,535 moves.
    NumeratorAbove16Bits,
}

impl Enquired {
    pub const ALL: [Enquired; 21] = [
        Enquired::NumeratorAlone,
        Enquired::DenominatorAlone,
        Enquired::StepsAlone,
        Enquired::LengthsExchanged,
        Enquired::SameSum,
        Enquired::RightIn16Bits,
        Enquired::RightIn32Bits,
        Enquired::RightIn63Bits,
        Enquired::ThreeZeros,
        Enquired::OtherNumbersShortArea,
        Enquired::ByteShort,
        Enquired::ExactArea,
        Enquired::LongerArea,
        Enquired::OpenPair,
        Enquired::AllowanceBeforeNumbers,
        Enquired::WorkspaceBeforeNumbers,
        Enquired::FaultBeforeNumbers,
        Enquired::CommittedAfterSteps,
        Enquired::CommittedWithoutStep,
        Enquired::LongestProgram,
        Enquired::NumeratorAbove16Bits,
    ];
}

/// What an enquiry, its commits and reverse have in common.
struct Setting {
    table: Vec<u8>,
    program: Vec<u8>,
    allowance: u16,
    workspace: usize,
}

impl Setting {
    fn enquire(&self) -> Call {
        Call::Enquire { table: self.table.clone(), program: self.program.clone(), allowance: self.allowance }
    }

    fn commit(&self, numbers: [u64; 3]) -> Call {
        Call::Commit { table: self.table.clone(), program: self.program.clone(), allowance: self.allowance, numbers }
    }

    fn reverse(&self) -> Call {
        Call::Reverse { table: self.table.clone(), program: self.program.clone(), allowance: self.allowance }
    }
}

/// The three numbers of an answered enquiry.
fn told(enquiry: &Left) -> [u64; 3] {
    let [numerator, denominator, steps, _] = enquiry.values;
    [numerator, denominator, steps]
}

/// The bytes of an area that just suffices for an answered enquiry; 0 after a refusal.
fn needed(enquiry: &Left) -> usize {
    match enquiry.result {
        0 => (enquiry.values[0] + enquiry.values[1]) as usize,
        _ => 0,
    }
}

impl Case<'_> {
    pub(super) fn enquiry(&mut self) -> Held<()> {
        match self.random.below(48) {
            0 => self.wide_enquiry(),
            1..=2 => self.long_enquiry(),
            _ => self.enquiries(),
        }
    }

    fn note_enquired(&mut self, what: Enquired, holds: bool) {
        if holds {
            *self.tally.enquired.entry(what).or_default() += 1;
        }
    }

    fn enquiries(&mut self) -> Held<()> {
        let table = any(&mut self.random);
        let word = self.word_to_reverse(&table);
        let (image, program) = (table_image(&table), program_image(table.moves, &word));
        let sound = Setting { table: image.clone(), program: program.clone(), allowance: 3_000, workspace: 3_000 };
        let most = self.most(&sound.enquire());
        let sound = Setting { workspace: most.bytes, ..sound };
        let whole = self.enquired(&sound)?;
        for _ in 0..3 {
            self.other_numbers_committed(&sound, &whole)?;
        }
        for _ in 0..4 {
            let (allowance, workspace) = (self.allowance(most.steps), self.length(most.bytes));
            let setting = Setting { table: self.perhaps(&image, 12), program: self.perhaps(&program, 8), allowance, workspace };
            let enquiry = self.enquired(&setting)?;
            self.stopped(&setting, &enquiry, &whole)?;
        }
        Ok(())
    }

    /// Programs of up to 4,095 moves: any, or so few back moves before forward ones that the allowance may suffice.
    fn long_enquiry(&mut self) -> Held<()> {
        let table = if self.random.once_in(4) { any(&mut self.random) } else { clearing(&mut self.random) };
        let length = self.random.pick(&[4_095, 4_095, 4_094, 2_048]);
        let back = self.random.between(1, 9);
        let word = if self.random.once_in(4) {
            signed_word(&mut self.random, table.moves, length)
        } else {
            let u = forward_word(&mut self.random, table.moves, back);
            let v = forward_word(&mut self.random, table.moves, length - back);
            [undoing(&u), v].concat()
        };
        let (allowance, workspace) = (self.random.pick(&[20_000, 5_000]), self.random.pick(&[32_768, 8_192, 4_095]));
        let setting = Setting { table: table_image(&table), program: program_image(table.moves, &word), allowance, workspace };
        let enquiry = self.enquired(&setting)?;
        self.note_enquired(Enquired::LongestProgram, enquiry.result == 0 && enquiry.values[2] > 0 && length == 4_095);
        self.other_numbers_committed(&setting, &enquiry)
    }

    /// Under C(3,1) and C(3,2) of 15 times 1, the first 3 of -3 -3 2 2 .. makes 15 1s of each of k 2s, and the second one 15 of each of these: N is 225 k
    /// times 1 and D is 3 3, in 16 k steps, and no word is longer than the last.
    fn wide_enquiry(&mut self) -> Held<()> {
        let ones = vec![1; 15];
        let table = Table::light(3, vec![None, Some((vec![3], ones.clone())), Some((vec![3], ones))]);
        let k = self.random.pick(&[1, 20, 291, 292, 292, 300]);
        let word = [vec![-3, -3], vec![2; k]].concat();
        let (n, d, steps) = (225 * k, 2, 16 * k);
        let (allowance, workspace) = (steps + self.random.below(3) - 1, n + d + self.random.below(3) - 1);
        let program = program_image(table.moves, &word);
        let setting = Setting { table: table_image(&table), program, allowance: allowance as u16, workspace };
        let enquiry = self.enquired(&setting)?;
        let answered = allowance >= steps && workspace >= n + d;
        if answered != (enquiry.result == 0) || (answered && told(&enquiry) != [n, d, steps].map(|number| number as u64)) {
            return Err(format!("{} {:?} to {k} times 2", enquiry.result, enquiry.values));
        }
        self.note_enquired(Enquired::NumeratorAbove16Bits, answered && n > 65_535);
        self.other_numbers_committed(&setting, &enquiry)
    }

    /// An enquiry says what reverse does in a long enough area. If it is answered, it is committed with its own numbers in areas one byte too short, just
    /// long enough and longer.
    fn enquired(&mut self, setting: &Setting) -> Held<Left> {
        let enquiry = self.held(&setting.enquire(), setting.workspace, 0)?;
        if enquiry.result != 0 {
            let numbers = [0; 3].map(|_| self.random.bits() >> self.random.below(64));
            self.committed(setting, &enquiry, numbers, 40)?;
            return Ok(enquiry);
        }
        let (numbers, exact) = (told(&enquiry), needed(&enquiry));
        let more = exact + self.random.between(1, 40);
        for answer in exact.checked_sub(1).into_iter().chain([exact, more]) {
            let left = self.committed(setting, &enquiry, numbers, answer)?;
            self.note_enquired(Enquired::ByteShort, left.result == 13);
            self.note_enquired(Enquired::ExactArea, left.result == 0 && answer == exact);
            self.note_enquired(Enquired::LongerArea, left.result == 0 && answer > exact);
            self.note_enquired(Enquired::CommittedAfterSteps, left.result == 0 && numbers[2] > 0);
            self.note_enquired(Enquired::CommittedWithoutStep, left.result == 0 && numbers[2] == 0);
        }
        Ok(enquiry)
    }

    /// A commit of any numbers: what comes of it is known from the firmware's own enquiry, and from reverse in areas of the same content.
    fn committed(&mut self, setting: &Setting, enquiry: &Left, numbers: [u64; 3], answer: usize) -> Held<Left> {
        let (work, out) = (self.random.bytes(setting.workspace), self.random.bytes(answer));
        let made = setting.commit(numbers);
        let left = self.held_in(&made, &work, &out)?;
        let reversed = self.held_in(&setting.reverse(), &work, &out)?;
        let other = enquiry.result == 0 && numbers != told(enquiry);
        let short = enquiry.result == 0 && answer < needed(enquiry);
        let (of_commit, of_reverse) = match (enquiry.result, other, short) {
            (0, true, false) => (18, 0),
            (0, true, true) => (18, 13),
            (0, false, true) => (13, 13),
            (result, ..) => (result, result),
        };
        let report = |what: &str| {
            let told = (enquiry.result, enquiry.values, left.result, left.values, reversed.result, reversed.values);
            Err(format!("{what}: enquire, commit and reverse with {answer} bytes gave {told:?}: {made:02x?}"))
        };
        if (left.result, reversed.result) != (of_commit, of_reverse) {
            return report("not what the enquiry led to");
        }
        if !other && left != reversed {
            return report("commit left something else than reverse");
        }
        if reversed.result != 13 && reversed.values != enquiry.values {
            return report("enquire told something else than reverse");
        }
        if let Some(kind) = [&[0][..], &[10], &[11, 12, 13], &[18]].iter().position(|results| results.contains(&left.result)) {
            self.tally.committed[kind] += 1;
        }
        self.note_enquired(Enquired::OpenPair, left.result == 10);
        self.note_enquired(Enquired::FaultBeforeNumbers, (1..=6).contains(&left.result));
        if left.result == 18 {
            self.note_other(told(enquiry), numbers, short);
        }
        Ok(left)
    }

    /// Notes how the numbers of a commit that was refused with 18 are to the enquiry's own.
    fn note_other(&mut self, own: [u64; 3], numbers: [u64; 3], short: bool) {
        let differing: Vec<usize> = (0..3).filter(|k| own[*k] != numbers[*k]).collect();
        self.note_enquired(Enquired::NumeratorAlone, differing == [0]);
        self.note_enquired(Enquired::DenominatorAlone, differing == [1]);
        self.note_enquired(Enquired::StepsAlone, differing == [2]);
        let exchanged = numbers == [own[1], own[0], own[2]];
        let same_sum = differing == [0, 1] && numbers[0].checked_add(numbers[1]) == Some(own[0] + own[1]);
        self.note_enquired(Enquired::LengthsExchanged, exchanged);
        self.note_enquired(Enquired::SameSum, same_sum && !exchanged);
        let lowest = differing.iter().map(|k| (own[*k] ^ numbers[*k]).trailing_zeros()).min();
        self.note_enquired(Enquired::RightIn16Bits, lowest.is_some_and(|bit| (16..32).contains(&bit)));
        self.note_enquired(Enquired::RightIn32Bits, lowest.is_some_and(|bit| (32..63).contains(&bit)));
        self.note_enquired(Enquired::RightIn63Bits, lowest == Some(63));
        self.note_enquired(Enquired::ThreeZeros, numbers == [0; 3]);
        self.note_enquired(Enquired::OtherNumbersShortArea, short);
    }

    /// Numbers near those of an enquiry, or far from them; at times its own after all, such as lengths that are equal, exchanged.
    fn other_numbers(&mut self, own: [u64; 3]) -> [u64; 3] {
        let mut numbers = own;
        let at = self.random.below(3);
        match self.random.below(16) {
            0..=2 => numbers[at] = own[at].wrapping_add(1),
            3..=5 => numbers[at] = own[at].wrapping_sub(1),
            6 => numbers.swap(0, 1),
            7 => numbers.rotate_left(self.random.between(1, 2)),
            8 => {
                let sum = own[0] + own[1];
                numbers[0] = self.random.below(sum as usize + 1) as u64;
                numbers[1] = sum - numbers[0];
            }
            9..=11 => {
                let more = self.random.pick(&[1 << 8, 1 << 16, 1 << 32, 1 << 63]);
                numbers[at] = own[at].wrapping_add(more);
            }
            12 => {
                let bits = self.random.pick(&[16, 32, 63]);
                numbers = own.map(|number| number.wrapping_add(self.random.bits() << bits));
            }
            13 => numbers = [0; 3],
            14 => numbers[at] = self.random.bits() >> self.random.below(64),
            _ => numbers = own.map(|_| self.random.bits()),
        }
        numbers
    }

    /// Other numbers in an area that suffices, and in one that does not.
    fn other_numbers_committed(&mut self, setting: &Setting, enquiry: &Left) -> Held<()> {
        if enquiry.result != 0 {
            return Ok(());
        }
        let numbers = self.other_numbers(told(enquiry));
        let exact = needed(enquiry);
        let enough = exact + self.random.pick(&[0, 1, 30]);
        self.committed(setting, enquiry, numbers, enough)?;
        if exact > 0 {
            let short = self.random.pick(&[0, exact - 1, exact / 2]);
            self.committed(setting, enquiry, numbers, short)?;
        }
        Ok(())
    }

    /// The numbers that the whole reversing comes to, handed in under other limits or with other images.
    fn stopped(&mut self, setting: &Setting, enquiry: &Left, whole: &Left) -> Held<()> {
        if whole.result != 0 {
            return Ok(());
        }
        let answer = self.length(needed(whole));
        let left = self.committed(setting, enquiry, told(whole), answer)?;
        self.note_enquired(Enquired::AllowanceBeforeNumbers, left.result == 11);
        self.note_enquired(Enquired::WorkspaceBeforeNumbers, left.result == 12);
        Ok(())
    }
}
