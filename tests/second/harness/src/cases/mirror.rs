//! Cases of left_reverse and mirror_clear: tables with and without a mirror, and what the services say of the mirror as a table of its own.
use super::{Case, Held};
use crate::guarded::Left;
use second::call::Call;
use second::image::{program_image, read_program, read_table, table_image};
use second::mirror::{backward, mirror, offending, relations};
use second::services::weights_agree;
use second::table::Table;
use second::tables::mirror::{mirrored, mirrorless, one_way};
use second::tables::{any, clearing, forward_word, signed_word};
use second::word::{undoing, Word};

/// What the cases must lead to, beside each result.
#[derive(Clone, Copy, Debug, PartialEq, Eq, PartialOrd, Ord)]
pub enum Mirrored {
    /// 16 for a relation whose sides end in the same move.
    OneLastMove,
    /// 16 for a relation with the last moves of one before it, in the same order.
    SharedInOrder,
    /// .. in the opposite order.
    SharedCrossed,
    /// 16 of a table in which there are relations of both kinds.
    BothReasons,
    /// A program's fault, though the table has no mirror.
    ProgramBeforeMirror,
    /// 16, though the table's weights are unequal.
    MirrorBeforeWeights,
    /// 8 with a pair that is not the first unequal one of the mirror.
    OwnPair,
    /// The table clears and its mirror breaks the cube rule.
    TableClearsAlone,
    /// The mirror clears and the table breaks the cube rule.
    MirrorClearsAlone,
    /// An answer of left_reverse after a step, under a table that is not its own mirror.
    AnswerUnderOtherMirror,
    /// .. of a program of 4,095 moves.
    LongestProgram,
    /// Verdicts same, and different, alike under the table and, read backward, under its mirror.
    JoinedBackward,
    ApartBackward,
}

impl Mirrored {
    pub const ALL: [Mirrored; 13] = [
        Mirrored::OneLastMove,
        Mirrored::SharedInOrder,
        Mirrored::SharedCrossed,
        Mirrored::BothReasons,
        Mirrored::ProgramBeforeMirror,
        Mirrored::MirrorBeforeWeights,
        Mirrored::OwnPair,
        Mirrored::TableClearsAlone,
        Mirrored::MirrorClearsAlone,
        Mirrored::AnswerUnderOtherMirror,
        Mirrored::LongestProgram,
        Mirrored::JoinedBackward,
        Mirrored::ApartBackward,
    ];
}

impl Case<'_> {
    pub(super) fn mirror(&mut self) -> Held<()> {
        match self.random.below(32) {
            0..=14 => self.left_reversing(),
            15..=22 => self.mirror_clearing(),
            23..=25 => self.clearing_one_way(),
            26..=29 => self.joined_backward(),
            _ => self.long_left_reversing(),
        }
    }

    fn note_mirrored(&mut self, what: Mirrored, holds: bool) {
        if holds {
            *self.tally.mirrored.entry(what).or_default() += 1;
        }
    }

    fn table_for_mirror(&mut self) -> Table {
        match self.random.below(16) {
            0..=10 => mirrored(&mut self.random),
            11..=13 => mirrorless(&mut self.random),
            14 => any(&mut self.random),
            _ => clearing(&mut self.random),
        }
    }

    /// Forward moves, then as many back ones as are named.
    fn fraction(&mut self, moves: u8, length: usize, back: usize) -> Word {
        let u = forward_word(&mut self.random, moves, length - back);
        let v = forward_word(&mut self.random, moves, back);
        [u, undoing(&v)].concat()
    }

    fn left_reversing(&mut self) -> Held<()> {
        let table = self.table_for_mirror();
        let length = self.random.pick(&[0, 1, 2, 2, 4, 8, 16, 30, 60]);
        let word = if self.random.once_in(3) {
            self.fraction(table.moves, length, length / 2)
        } else {
            signed_word(&mut self.random, table.moves, length)
        };
        let (image, program) = (table_image(&table), program_image(table.moves, &word));
        let sound = Call::LeftReverse { table: image.clone(), program: program.clone(), allowance: 3_000 };
        let most = self.most(&sound);
        let whole = self.left_reversed(&sound, most.bytes, 70_000)?;
        let exact = if whole.result == 0 { (whole.values[0] + whole.values[1]) as usize } else { 0 };
        for _ in 0..6 {
            let allowance = self.allowance(most.steps);
            let made = Call::LeftReverse { table: self.perhaps(&image, 12), program: self.perhaps(&program, 8), allowance };
            let (workspace, answer) = (self.length(most.bytes), self.length(exact));
            self.left_reversed(&made, workspace, answer)?;
        }
        Ok(())
    }

    fn long_left_reversing(&mut self) -> Held<()> {
        let table = mirrored(&mut self.random);
        let length = self.random.pick(&[4_095, 4_095, 4_094, 2_048, 1_000]);
        // So few back moves that the allowance may suffice.
        let back = self.random.between(1, 15);
        let word = if self.random.once_in(2) {
            self.fraction(table.moves, length, back)
        } else {
            signed_word(&mut self.random, table.moves, length)
        };
        let allowance = self.random.pick(&[65_535, 20_000, 5_000]);
        let (workspace, answer) = (self.random.pick(&[32_768, 8_192, 4_095]), self.random.pick(&[32_768, 4_095]));
        let made = Call::LeftReverse { table: table_image(&table), program: program_image(table.moves, &word), allowance };
        let left = self.left_reversed(&made, workspace, answer)?;
        self.note_mirrored(Mirrored::LongestProgram, left.result == 0 && left.values[2] > 0 && length == 4_095);
        Ok(())
    }

    fn left_reversed(&mut self, made: &Call, workspace: usize, answer: usize) -> Held<Left> {
        let left = self.held(made, workspace, answer)?;
        self.reasons(made, &left);
        self.read_backward(made, &left)?;
        Ok(left)
    }

    /// Left reversing is right reversing of the program read backward under the mirror, with both words read backward again.
    fn read_backward(&mut self, made: &Call, left: &Left) -> Held<()> {
        let Call::LeftReverse { table, program, allowance } = made else {
            return Err("no left reversing was asked for".into());
        };
        let kind = match left.result {
            0 => 0,
            10 => 1,
            11..=13 => 2,
            _ => return Ok(()),
        };
        let refused = |r| format!("{r:?}");
        let table = read_table(table).map_err(refused)?;
        let word = read_program(program, table.moves).map_err(refused)?;
        let mirror = mirror(&table).map_err(|pair| format!("no mirror: {pair:?}"))?;
        let program = program_image(table.moves, &backward(&word));
        let right = Call::Reverse { table: table_image(&mirror), program, allowance: *allowance };
        let right = self.held(&right, left.workspace.len(), left.answer.len())?;
        let report = || format!("right reversing under the mirror comes to {} {:?}: {made:02x?}", right.result, right.values);
        if (right.result, right.values) != (left.result, left.values) {
            return Err(report());
        }
        if right.result == 0 {
            let (n, d) = (right.values[0] as usize, right.values[1] as usize);
            let (numerator, denominator) = right.answer[..n + d].split_at(n);
            if !left.answer.starts_with(&[backward(numerator), backward(denominator)].concat()) {
                return Err(report());
            }
        }
        self.tally.backward[kind] += 1;
        self.note_mirrored(Mirrored::AnswerUnderOtherMirror, kind == 0 && left.values[2] > 0 && mirror != table);
        Ok(())
    }

    /// Notes for which reason there is no mirror, and what that comes before and after.
    fn reasons(&mut self, made: &Call, left: &Left) {
        let (Call::LeftReverse { table, .. } | Call::MirrorClear { table, .. }) = made else {
            return;
        };
        let Ok(table) = read_table(table) else {
            return;
        };
        self.note_mirrored(Mirrored::ProgramBeforeMirror, (4..=6).contains(&left.result) && offending(&table).is_some());
        if left.result != 16 {
            return;
        }
        let all = relations(&table);
        let named = all.iter().position(|r| u64::from(r.pair.0) == left.values[1] && u64::from(r.pair.1) == left.values[2]);
        let Some((before, named)) = named.map(|k| (&all[..k], &all[k])) else {
            return;
        };
        let one_end = named.p == named.q;
        self.note_mirrored(Mirrored::OneLastMove, one_end);
        self.note_mirrored(Mirrored::SharedInOrder, !one_end && before.iter().any(|r| (r.p, r.q) == (named.p, named.q)));
        self.note_mirrored(Mirrored::SharedCrossed, !one_end && before.iter().any(|r| (r.q, r.p) == (named.p, named.q)));
        let mut ends: Vec<(u8, u8)> = all.iter().filter(|r| r.p != r.q).map(|r| (r.p.min(r.q), r.p.max(r.q))).collect();
        let different = ends.len();
        ends.sort();
        ends.dedup();
        self.note_mirrored(Mirrored::BothReasons, different < all.len() && ends.len() < different);
        let clearing = matches!(made, Call::MirrorClear { .. });
        self.note_mirrored(Mirrored::MirrorBeforeWeights, clearing && weights_agree(&table).is_err());
    }

    fn mirror_clearing(&mut self) -> Held<()> {
        let table = if self.random.once_in(4) { one_way(&mut self.random) } else { self.table_for_mirror() };
        let image = table_image(&table);
        let most = self.most(&Call::MirrorClear { table: image.clone(), allowance: 3_000 });
        for _ in 0..6 {
            let allowance = self.allowance(most.steps);
            let workspace = self.length(most.bytes);
            let made = Call::MirrorClear { table: self.perhaps(&image, 12), allowance };
            self.mirror_cleared(&made, workspace)?;
        }
        Ok(())
    }

    fn mirror_cleared(&mut self, made: &Call, workspace: usize) -> Held<Left> {
        let left = self.held(made, workspace, 0)?;
        self.reasons(made, &left);
        self.clears_as_table(made, &left)?;
        Ok(left)
    }

    /// The mirror clears as the table that it is, 17 being its 9, and the table is the mirror's mirror. Only the pair of 8 is the table's own.
    fn clears_as_table(&mut self, made: &Call, left: &Left) -> Held<()> {
        let Call::MirrorClear { table, allowance } = made else {
            return Err("no clearing of a mirror was asked for".into());
        };
        if matches!(left.result, 1..=3 | 16) {
            return Ok(());
        }
        let table = read_table(table).map_err(|r| format!("{r:?}"))?;
        let other = mirror(&table).map_err(|pair| format!("no mirror: {pair:?}"))?;
        if mirror(&other).as_ref() != Ok(&table) {
            return Err(format!("the mirror's mirror is another table: {made:02x?}"));
        }
        let clear = Call::Clear { table: table_image(&other), allowance: *allowance };
        let cleared = self.held(&clear, left.workspace.len(), 0)?;
        let result = if cleared.result == 9 { 17 } else { cleared.result };
        if left.result != result || (result != 8 && left.values[1..] != cleared.values[1..]) {
            return Err(format!("the mirror as a table comes to {} {:?}: {made:02x?}", cleared.result, cleared.values));
        }
        self.note_mirrored(Mirrored::OwnPair, result == 8 && left.values != cleared.values);
        Ok(())
    }

    /// Clears a table and its mirror, of which one often fails.
    fn clearing_one_way(&mut self) -> Held<()> {
        let image = table_image(&one_way(&mut self.random));
        let made = Call::MirrorClear { table: image.clone(), allowance: 3_000 };
        let workspace = self.random.pick(&[60, 3_000]);
        let of_mirror = self.mirror_cleared(&made, workspace)?.result;
        let of_table = self.held(&Call::Clear { table: image, allowance: 3_000 }, workspace, 0)?.result;
        self.note_mirrored(Mirrored::TableClearsAlone, (of_table, of_mirror) == (0, 17));
        self.note_mirrored(Mirrored::MirrorClearsAlone, (of_table, of_mirror) == (9, 0));
        Ok(())
    }

    /// Programs are joined under a table exactly if, read backward, they are under its mirror.
    fn joined_backward(&mut self) -> Held<()> {
        let table = mirrored(&mut self.random);
        let Ok(mirror) = mirror(&table) else {
            return Ok(());
        };
        let length = self.random.pick(&[1, 2, 3, 4, 6, 8, 12]);
        let first = forward_word(&mut self.random, table.moves, length);
        let second = self.other(&table, &first);
        let [one, two] = [&first, &second].map(|word| program_image(table.moves, word));
        let [one_backward, two_backward] = [&first, &second].map(|word| program_image(table.moves, &backward(word)));
        let compare = Call::Compare { table: table_image(&table), first: one, second: two, allowance: 3_000 };
        let left = self.held(&compare, 3_000, 0)?;
        let compare = Call::Compare { table: table_image(&mirror), first: one_backward, second: two_backward, allowance: 3_000 };
        let right = self.held(&compare, 3_000, 0)?;
        if (left.result, right.result) != (0, 0) {
            return Ok(());
        }
        if left.values[0] != right.values[0] {
            return Err(format!("read backward, the verdict is {}, not {}: {compare:02x?}", right.values[0], left.values[0]));
        }
        self.note_mirrored(Mirrored::JoinedBackward, left.values[0] == 0 && first != second);
        self.note_mirrored(Mirrored::ApartBackward, left.values[0] == 1);
        Ok(())
    }
}
