//! Cases of compare_signed: programs of any signs that are the same by steps on signed words, or nearly so; tables whose set closes, is too large, meets
//! an open pair or is stopped; limits around what each part of the work needs. A verdict is also held against those steps, against compare, and against
//! the action of braids on a free group.
use super::{Case, Held};
use crate::guarded::Left;
use second::call::Call;
use second::free::{act_alike, as_braids};
use second::image::{program_image, read_program, read_table, table_image};
use second::mirror::{mirror, offending};
use second::outcome::Place;
use second::reversing::{reverse, Ending, Limits, Most};
use second::services::{cleared, cubes_hold, weights_agree};
use second::signed::{decide, grow, signed_walk};
use second::table::Table;
use second::tables::mirror::mirrorless;
use second::tables::signed::{comparable, costly_mirror, dihedral, largest, multiple};
use second::tables::{braid, forward_word, signed_word};
use second::word::{undoing, Word};

/// What the cases must lead to, beside each result.
#[derive(Clone, Copy, Debug, PartialEq, Eq, PartialOrd, Ord)]
pub enum Signed {
    /// Same after steps of both reversings, of two programs that differ, and of two that are not equally long.
    SameAfterBoth,
    SameOfUnequalLength,
    /// Same, N and D being empty.
    SameWithoutSecond,
    /// Different since N and D weigh differently: no step of a second reversing; after steps of the first, and without any.
    DifferentByWeight,
    DifferentWithoutStep,
    /// Different after steps of a second reversing.
    DifferentAfterBoth,
    /// Programs with back moves that steps on signed words join: same.
    JoinedBySteps,
    /// Programs of forward moves only: the verdict is that of compare.
    ForwardSame,
    ForwardDifferent,
    /// Verdicts alike with the action on a free group.
    ActAlike,
    ActApart,
    /// .. under a table that is no braid table.
    ActAlikeAsBraids,
    ActApartAsBraids,
    /// A full twist commutes with every program.
    FullTwist,
    /// Stops of the first reversing of the programs, and of the second.
    AllowanceInFirst,
    AllowanceInSecond,
    WorkspaceInFirst,
    WorkspaceInSecond,
    /// 12 with the set where its first words alone are longer than the workspace, and where they fill it just.
    FirstWordsTooLong,
    FirstWordsFill,
    /// 12 with the set in a workspace one byte too short for it, and an answer in one that just suffices.
    ByteShortOfSet,
    SetJustFits,
    /// An answer after a set of 256 words, and 22 for one of 257.
    LargestSet,
    WordTooMany,
    /// 12 after the 256th word and before the 257th.
    WorkspaceBeforeWordTooMany,
    /// 21 with a pair that is not the first open one of the table in the order of 4.1.
    OpenPairOfEarlierWord,
    /// 16, though the table's weights are unequal; a program's fault, though the table has no mirror.
    MirrorBeforeWeights,
    ProgramBeforeMirror,
    /// An answer with a numerator of more than 4,095 moves.
    LongNumerator,
}

impl Signed {
    pub const ALL: [Signed; 29] = [
        Signed::SameAfterBoth,
        Signed::SameOfUnequalLength,
        Signed::SameWithoutSecond,
        Signed::DifferentByWeight,
        Signed::DifferentWithoutStep,
        Signed::DifferentAfterBoth,
        Signed::JoinedBySteps,
        Signed::ForwardSame,
        Signed::ForwardDifferent,
        Signed::ActAlike,
        Signed::ActApart,
        Signed::ActAlikeAsBraids,
        Signed::ActApartAsBraids,
        Signed::FullTwist,
        Signed::AllowanceInFirst,
        Signed::AllowanceInSecond,
        Signed::WorkspaceInFirst,
        Signed::WorkspaceInSecond,
        Signed::FirstWordsTooLong,
        Signed::FirstWordsFill,
        Signed::ByteShortOfSet,
        Signed::SetJustFits,
        Signed::LargestSet,
        Signed::WordTooMany,
        Signed::WorkspaceBeforeWordTooMany,
        Signed::OpenPairOfEarlierWord,
        Signed::MirrorBeforeWeights,
        Signed::ProgramBeforeMirror,
        Signed::LongNumerator,
    ];
}

/// Limits that keep a case short.
const SHORT: Limits = Limits { allowance: 3_000, workspace: 3_000 };

/// Two programs, and whether they were made by steps that join them.
struct Programs {
    first: Word,
    second: Word,
    joined: bool,
}

/// What the parts of the work come to, one by one: both cube checks, the set and the programs.
fn parts(table: &Table, programs: &Programs) -> [Most; 4] {
    let mut parts = [Most::default(); 4];
    let _ = cleared(table, SHORT, &mut parts[0]);
    if let Ok(mirror) = mirror(table) {
        let _ = cubes_hold(&mirror, 17, Place::MirrorTriple, SHORT, &mut parts[1]);
    }
    let _ = grow(table, SHORT, &mut parts[2]);
    let _ = decide(table, &programs.first, &programs.second, SHORT, &mut parts[3]);
    parts
}

impl Case<'_> {
    pub(super) fn signed(&mut self) -> Held<()> {
        match self.random.below(600) {
            // The dearest ones, by far.
            0 => self.largest_set(),
            1..=2 => self.long_numerator(),
            3..=8 => self.braids_of_five(),
            9..=70 => self.costly_mirrors(),
            71..=110 => self.full_twists(),
            111..=180 => self.damaged_signed(),
            181..=260 => self.around_set(),
            261..=290 => self.second_grows(),
            _ => self.signed_comparing(),
        }
    }

    fn note_signed(&mut self, what: Signed, holds: bool) {
        if holds {
            *self.tally.signed.entry(what).or_default() += 1;
        }
    }

    /// A word of the length with few changes of sign, or any signs.
    fn signed_program(&mut self, table: &Table) -> Word {
        let length = self.random.pick(&[0, 1, 1, 2, 2, 3, 4, 6, 8, 12, 20]);
        match self.random.below(6) {
            0 => forward_word(&mut self.random, table.moves, length),
            1 => undoing(&forward_word(&mut self.random, table.moves, length)),
            2 => {
                let (u, v) =
                    (forward_word(&mut self.random, table.moves, length / 2), forward_word(&mut self.random, table.moves, length / 2));
                [u, undoing(&v)].concat()
            }
            _ => signed_word(&mut self.random, table.moves, length),
        }
    }

    /// A program, and one that is joined to it, one that nearly is, or any.
    fn programs(&mut self, table: &Table) -> Programs {
        let first = self.signed_program(table);
        let steps = self.random.pick(&[0, 1, 2, 4, 8, 16]);
        let longest = first.len() + self.random.pick(&[0, 2, 4, 8]);
        let mut second = signed_walk(&mut self.random, table, &first, steps, longest);
        let changed = self.random.below(10);
        match changed {
            0 if !second.is_empty() => {
                let at = self.random.below(second.len());
                second[at] = self.random.between(1, table.moves as usize) as i8 * second[at].signum();
            }
            1 if !second.is_empty() => {
                let (one, two) = (self.random.below(second.len()), self.random.below(second.len()));
                second.swap(one, two);
            }
            2 => second = self.signed_program(table),
            3 => second = undoing(&second),
            // Numerator and denominator at once, which often grow against each other.
            9 => {
                let [u, v] = [(); 2].map(|()| forward_word(&mut self.random, table.moves, first.len() / 2));
                return Programs { first: Word::new(), second: [u, undoing(&v)].concat(), joined: false };
            }
            // Forward programs alone, for compare.
            4 => {
                let first: Word = first.iter().map(|m| m.abs()).collect();
                let second = self.other(table, &first);
                return Programs { first, second, joined: false };
            }
            _ => {}
        }
        Programs { first, second, joined: changed >= 5 }
    }

    fn call_signed(table: &Table, programs: &Programs, allowance: u16) -> Call {
        let [first, second] = [&programs.first, &programs.second].map(|word| program_image(table.moves, word));
        Call::CompareSigned { table: table_image(table), first, second, allowance }
    }

    fn signed_comparing(&mut self) -> Held<()> {
        let table = comparable(&mut self.random);
        let programs = self.programs(&table);
        let sound = Self::call_signed(&table, &programs, 3_000);
        let most = self.most(&sound);
        let left = self.signed_held(&sound, most.bytes)?;
        self.verdict_holds(&table, &programs, &left)?;
        let parts = parts(&table, &programs);
        for _ in 0..4 {
            let (steps, bytes) = (self.random.pick(&parts).steps, self.random.pick(&parts).bytes);
            // Where one of the limits is wide, the other decides.
            let wide = self.random.below(3);
            let allowance = if wide == 0 { 3_000 } else { self.allowance(steps).min(3_000) };
            let workspace = if wide == 1 { 3_000 } else { self.length(bytes).min(3_000) };
            self.signed_held(&Self::call_signed(&table, &programs, allowance), workspace)?;
        }
        Ok(())
    }

    /// Calls, and notes what the outcome shows.
    fn signed_held(&mut self, made: &Call, workspace: usize) -> Held<Left> {
        let left = self.held(made, workspace, 0)?;
        let Call::CompareSigned { table, first, second, allowance } = made else {
            return Err("no programs of any signs were to be compared".into());
        };
        let Ok(table) = read_table(table) else {
            return Ok(left);
        };
        self.note_signed(Signed::ProgramBeforeMirror, matches!(left.result, 4..=6) && offending(&table).is_some());
        self.note_signed(Signed::MirrorBeforeWeights, left.result == 16 && weights_agree(&table).is_err());
        let open = Table::pair_order(table.moves).into_iter().find(|(a, b)| table.completion(*a, *b).is_none());
        let named = (left.values[1] as u8, left.values[2] as u8);
        self.note_signed(Signed::OpenPairOfEarlierWord, left.result == 21 && open != Some(named));
        let (Ok(first), Ok(second)) = (read_program(first, table.moves), read_program(second, table.moves)) else {
            return Ok(left);
        };
        let [place, steps, more, _] = left.values;
        if left.result == 0 {
            let (same, differ) = (place == 0, first != second);
            self.note_signed(Signed::SameAfterBoth, same && steps > 0 && more > 0 && differ);
            self.note_signed(Signed::SameOfUnequalLength, same && first.len() != second.len());
            self.note_signed(Signed::SameWithoutSecond, same && steps > 0 && more == 0);
            self.note_signed(Signed::DifferentByWeight, !same && steps > 0 && more == 0);
            self.note_signed(Signed::DifferentWithoutStep, !same && steps == 0 && more == 0);
            self.note_signed(Signed::DifferentAfterBoth, !same && steps > 0 && more > 0);
        }
        let limits = Limits { allowance: usize::from(*allowance), workspace };
        if matches!(left.result, 11 | 12) && place == 0 {
            let ending = reverse(&table, [undoing(&first), second].concat(), 0, limits, &mut Most::default());
            let in_second = matches!(ending, Ending::Finished { .. });
            self.note_signed(Signed::AllowanceInFirst, left.result == 11 && !in_second);
            self.note_signed(Signed::AllowanceInSecond, left.result == 11 && in_second);
            self.note_signed(Signed::WorkspaceInFirst, left.result == 12 && !in_second);
            self.note_signed(Signed::WorkspaceInSecond, left.result == 12 && in_second);
        }
        // The empty word takes a byte, a move two.
        let beginning = 1 + 2 * usize::from(table.moves);
        self.note_signed(Signed::FirstWordsTooLong, left.result == 12 && place == 4 && workspace < beginning);
        self.note_signed(Signed::FirstWordsFill, left.result == 12 && place == 4 && workspace == beginning);
        Ok(left)
    }

    /// A verdict against what is known of the programs without any reversing of signed words.
    fn verdict_holds(&mut self, table: &Table, programs: &Programs, left: &Left) -> Held<()> {
        let Programs { first, second, joined } = programs;
        if left.result != 0 {
            return Ok(());
        }
        let same = left.values[0] == 0;
        let report = |what: &str| Err(format!("{what}: {table:?} {first:?} {second:?} {:?}", left.values));
        if *joined && !same {
            return report("different, though steps on signed words join the programs");
        }
        let back = |word: &[i8]| word.iter().any(|m| *m < 0);
        self.note_signed(Signed::JoinedBySteps, *joined && first != second && back(first) && back(second));
        if let Some(alike) = act_alike(table, first, second) {
            if alike != same {
                return report("the verdict is not that of the action on a free group");
            }
            let single = as_braids(table).is_some_and(|(_, braids)| braids.iter().all(|braid| braid.len() == 1));
            self.note_signed(Signed::ActAlike, alike && single && first != second);
            self.note_signed(Signed::ActApart, !alike && single && left.values[2] > 0);
            self.note_signed(Signed::ActAlikeAsBraids, alike && !single && first != second);
            self.note_signed(Signed::ActApartAsBraids, !alike && !single && left.values[2] > 0);
        }
        if back(first) || back(second) {
            return Ok(());
        }
        let [one, two] = [first, second].map(|word| program_image(table.moves, word));
        let compare = Call::Compare { table: table_image(table), first: one, second: two, allowance: 3_000 };
        let other = self.held(&compare, 3_000, 0)?;
        if other.result == 0 && other.values[0] != left.values[0] {
            return report("the verdict is not that of compare");
        }
        self.note_signed(Signed::ForwardSame, other.result == 0 && same && first != second);
        self.note_signed(Signed::ForwardDifferent, other.result == 0 && !same && left.values[2] > 0);
        Ok(())
    }

    /// Workspaces around what the set needs, with programs that need little.
    fn around_set(&mut self) -> Held<()> {
        let table = comparable(&mut self.random);
        let mut most = Most::default();
        let closes = grow(&table, SHORT, &mut most).is_ok();
        let word = signed_word(&mut self.random, table.moves, 1);
        let programs = Programs { first: word.clone(), second: word, joined: true };
        let made = Self::call_signed(&table, &programs, 3_000);
        let beginning = 1 + 2 * usize::from(table.moves);
        let within = self.random.between(beginning, most.bytes.max(beginning));
        for workspace in [beginning - 1, beginning, within, most.bytes.saturating_sub(1), most.bytes] {
            let left = self.signed_held(&made, workspace)?;
            self.verdict_holds(&table, &programs, &left)?;
            let in_set = (left.result, left.values[0]) == (12, 4);
            self.note_signed(Signed::ByteShortOfSet, closes && in_set && workspace + 1 == most.bytes);
            self.note_signed(Signed::SetJustFits, closes && left.result == 0 && workspace == most.bytes);
        }
        let allowance = self.random.between(0, most.steps).min(3_000) as u16;
        self.signed_held(&Self::call_signed(&table, &programs, allowance), 3_000)?;
        Ok(())
    }

    /// A table that clears with less than its mirror: limits from what the one needs to what the other does.
    fn costly_mirrors(&mut self) -> Held<()> {
        let Some(table) = costly_mirror(&mut self.random) else {
            return Ok(());
        };
        let programs = self.programs(&table);
        let [own, of_mirror, ..] = parts(&table, &programs);
        let between = |low: usize, high: usize| (low.min(high), low.max(high));
        let (steps, bytes) = (between(own.steps, of_mirror.steps), between(own.bytes, of_mirror.bytes));
        for _ in 0..3 {
            let allowance = self.random.between(steps.0, steps.1) as u16;
            self.signed_held(&Self::call_signed(&table, &programs, allowance), 3_000)?;
            let workspace = self.random.between(bytes.0, bytes.1);
            self.signed_held(&Self::call_signed(&table, &programs, 3_000), workspace)?;
        }
        Ok(())
    }

    /// A full twist before a program and after it.
    fn full_twists(&mut self) -> Held<()> {
        let moves = self.random.pick(&[1, 2, 2, 2, 3]);
        let table = braid(moves);
        let twist: Word = (0..=moves).flat_map(|_| 1..=moves as i8).collect();
        let twist = if self.random.once_in(2) { undoing(&twist) } else { twist };
        let length = self.random.between(1, 8);
        let word = signed_word(&mut self.random, moves, length);
        let programs = Programs { first: [&twist[..], &word].concat(), second: [&word[..], &twist].concat(), joined: true };
        let left = self.signed_held(&Self::call_signed(&table, &programs, 3_000), 3_000)?;
        self.verdict_holds(&table, &programs, &left)?;
        self.note_signed(Signed::FullTwist, left.result == 0 && left.values[2] > 0);
        Ok(())
    }

    /// Programs whose second reversing has longer words than the set and the first, in workspaces that suffice for these alone.
    fn second_grows(&mut self) -> Held<()> {
        let table = dihedral(self.random.between(3, 5));
        let length = self.random.between(6, 10);
        let [u, v] = [1, 2].map(|m| vec![m; length]);
        let programs = Programs { first: Word::new(), second: [u, undoing(&v)].concat(), joined: false };
        let [.., set, of_programs] = parts(&table, &programs);
        let enough = set.bytes.max(2 * length);
        let within = self.random.between(enough, of_programs.bytes.max(enough));
        for workspace in [within, of_programs.bytes - 1, of_programs.bytes] {
            let left = self.signed_held(&Self::call_signed(&table, &programs, 3_000), workspace)?;
            self.verdict_holds(&table, &programs, &left)?;
        }
        Ok(())
    }

    /// Images that are damaged, under tables with and without a mirror.
    fn damaged_signed(&mut self) -> Held<()> {
        let table = if self.random.once_in(3) { mirrorless(&mut self.random) } else { comparable(&mut self.random) };
        let programs = self.programs(&table);
        let Call::CompareSigned { table: image, first, second, .. } = Self::call_signed(&table, &programs, 0) else {
            return Ok(());
        };
        for _ in 0..5 {
            let (one, two) = (self.perhaps(&first, 3), self.perhaps(&second, 3));
            let made = Call::CompareSigned { table: self.perhaps(&image, 4), first: one, second: two, allowance: 300 };
            let workspace = self.random.below(400);
            self.signed_held(&made, workspace)?;
        }
        Ok(())
    }

    /// A set of 256 words, or of 257, in workspaces that suffice or that are just too short.
    fn largest_set(&mut self) -> Held<()> {
        let one_more = self.random.once_in(2);
        let table = largest(one_more);
        let mut most = Most::default();
        let _ = grow(&table, SHORT, &mut most);
        let first = signed_word(&mut self.random, table.moves, 4);
        let second = signed_walk(&mut self.random, &table, &first, 6, 8);
        let programs = Programs { first, second, joined: true };
        let made = Self::call_signed(&table, &programs, 3_000);
        let workspace = self.random.pick(&[most.bytes, 3_000]);
        let left = self.signed_held(&made, workspace)?;
        self.verdict_holds(&table, &programs, &left)?;
        self.note_signed(Signed::LargestSet, left.result == 0 && !one_more);
        self.note_signed(Signed::WordTooMany, left.result == 22 && one_more);
        let left = self.signed_held(&made, most.bytes - 1)?;
        self.note_signed(Signed::WorkspaceBeforeWordTooMany, (left.result, left.values[0]) == (12, 4) && one_more);
        Ok(())
    }

    /// The braid table of 4 moves, whose set is too large.
    fn braids_of_five(&mut self) -> Held<()> {
        let table = braid(4);
        let programs = self.programs(&table);
        let mut most = Most::default();
        let _ = grow(&table, SHORT, &mut most);
        for workspace in [3_000, most.bytes, most.bytes - 1] {
            let left = self.signed_held(&Self::call_signed(&table, &programs, 3_000), workspace)?;
            self.note_signed(Signed::WorkspaceBeforeWordTooMany, (left.result, left.values[0]) == (12, 4));
        }
        Ok(())
    }

    /// -2 1 again and again, where 2 is a multiple of 1: N and D have more moves than any program.
    fn long_numerator(&mut self) -> Held<()> {
        let power = self.random.between(6, 8) as u8;
        let (table, times) = (multiple(power), self.random.between(600, 1_200));
        let word: Word = (0..times).flat_map(|_| [-2, 1]).collect();
        let programs = Programs { first: word.clone(), second: word, joined: true };
        let numerator = (usize::from(power) - 1) * times;
        let workspace = self.random.pick(&[2 * numerator, 2 * numerator - 1, 32_768]);
        let made = Self::call_signed(&table, &programs, 65_535);
        let left = self.signed_held(&made, workspace)?;
        self.verdict_holds(&table, &programs, &left)?;
        if left.result == 0 && left.values[2] != numerator as u64 {
            return Err(format!("{} steps and not {numerator}: {made:02x?}", left.values[2]));
        }
        self.note_signed(Signed::LongNumerator, left.result == 0 && numerator > 4_095);
        Ok(())
    }
}
