//! That the comparison of the two implementations can fail: each change of what a sound call left is noticed.
use harness::guarded::{call, Left};
use harness::judge::judge;
use second::call::Call;
use second::expected::expected;
use second::image::{chain_image, program_image, table_image, Entry};
use second::outcome::Passage;
use second::plain::plain_table;
use second::reversing::Most;
use second::services::check;
use second::table::Table;
use second::tables::mirror::clears_alone;
use second::tables::{braid, doubled, growing};
use second::tray::laid;

fn signed(table: &Table, first: &[i8], second: &[i8], allowance: u16) -> Call {
    let [first, second] = [first, second].map(|word| program_image(table.moves, word));
    Call::CompareSigned { table: table_image(table), first, second, allowance }
}

fn tray(table: &[u8], logs: &[&[u8]], pattern: &[u8], allowance: u16) -> Call {
    let logs: Vec<Vec<u8>> = logs.iter().map(|log| log.to_vec()).collect();
    Call::Tray { table: table.to_vec(), tray: laid(&logs), pattern: pattern.to_vec(), allowance }
}

/// A call, and whether it is refused with the workspace as found.
fn calls() -> Vec<(Call, bool)> {
    let table = table_image(&braid(3));
    let program = program_image(3, &[-3, 1, -2, 1, 2]);
    let [first, second] = [[1, 2, 1], [2, 1, 2]].map(|word| program_image(3, &word));
    let entries = vec![0x00, 0x01, 0x00, 0x00, 0x20];
    let (t, f, s) = (table.clone(), first.clone(), second.clone());
    let heavy = table_image(&doubled());
    // Both sides of 1 2 = 2 2 end in 2.
    let mirrorless = vec![0x10, 0x23, 0x18];
    let one_way = table_image(&clears_alone());
    let back_last = program_image(3, &[2, 1, -2, 1, -3]);
    let [longer, shorter, lighter] = [vec![1, 2, 1], vec![2, 2], vec![1, 1]].map(|word| program_image(2, &word));
    vec![
        (Call::Compare { table: heavy.clone(), first: longer.clone(), second: shorter.clone(), allowance: 100 }, false),
        (Call::Compare { table: heavy.clone(), first: lighter.clone(), second: shorter.clone(), allowance: 100 }, false),
        (Call::Chain { table: heavy.clone(), first: shorter.clone(), second: longer.clone(), allowance: 100 }, false),
        (Call::Chain { table: heavy.clone(), first: shorter.clone(), second: lighter.clone(), allowance: 100 }, false),
        (Call::Remainder { table: heavy.clone(), done: shorter, pattern: lighter, allowance: 100 }, false),
        (Call::UnpackTable { table: heavy }, true),
        (Call::PackTable { plain: vec![2, 1, 9, 255] }, true),
        (Call::Reverse { table: t.clone(), program: program.clone(), allowance: 5 }, false),
        (Call::Reverse { table: t.clone(), program: program.clone(), allowance: 4 }, false),
        (Call::Reverse { table: vec![], program: program.clone(), allowance: 5 }, true),
        (Call::Enquire { table: t.clone(), program: program.clone(), allowance: 5 }, false),
        (Call::Enquire { table: t.clone(), program: program.clone(), allowance: 4 }, false),
        (Call::Enquire { table: t.clone(), program: vec![], allowance: 5 }, true),
        (Call::Commit { table: t.clone(), program: program.clone(), allowance: 5, numbers: [4, 3, 5] }, false),
        (Call::Commit { table: t.clone(), program: program.clone(), allowance: 5, numbers: [3, 4, 5] }, false),
        (Call::Commit { table: t.clone(), program: program.clone(), allowance: 4, numbers: [4, 3, 5] }, false),
        (Call::Commit { table: vec![], program: program.clone(), allowance: 5, numbers: [4, 3, 5] }, true),
        (Call::Clear { table: t.clone(), allowance: 100 }, false),
        (Call::LeftReverse { table: t.clone(), program: back_last.clone(), allowance: 5 }, false),
        (Call::LeftReverse { table: t.clone(), program: back_last.clone(), allowance: 4 }, false),
        (Call::LeftReverse { table: one_way.clone(), program: program_image(3, &[1, -2]), allowance: 5 }, false),
        (Call::LeftReverse { table: mirrorless.clone(), program: vec![0x00, 0x00], allowance: 5 }, true),
        (Call::MirrorClear { table: t.clone(), allowance: 100 }, false),
        (Call::MirrorClear { table: t.clone(), allowance: 4 }, false),
        (Call::MirrorClear { table: one_way, allowance: 100 }, false),
        (Call::MirrorClear { table: mirrorless.clone(), allowance: 100 }, true),
        (Call::MirrorClear { table: vec![0x10, 0x25, 0x0C], allowance: 100 }, true),
        (Call::Compare { table: t.clone(), first: f.clone(), second: s.clone(), allowance: 100 }, false),
        (Call::Compare { table: t.clone(), first: program.clone(), second: s.clone(), allowance: 100 }, true),
        (signed(&braid(2), &[1, 2, -1], &[-2, 1, 2], 100), false),
        (signed(&braid(2), &[1, -2], &[-2, 1], 100), false),
        (signed(&braid(2), &[1], &[], 100), false),
        (signed(&braid(2), &[-1; 9], &[2; 9], 5), false),
        (signed(&braid(2), &[1], &[2], 2), false),
        (signed(&braid(2), &[-1; 20], &[2; 21], 100), false),
        (signed(&braid(3), &[1], &[2], 100), false),
        (signed(&braid(3), &[1], &[2], 4), false),
        (signed(&Table::light(2, vec![None]), &[1], &[2], 100), false),
        (signed(&clears_alone(), &[1], &[2], 100), false),
        (signed(&doubled().weighing(vec![1, 1]), &[1], &[2], 100), true),
        (Call::CompareSigned { table: mirrorless, first: vec![0x00, 0x00], second: vec![0x00, 0x00], allowance: 100 }, true),
        (Call::CompareSigned { table: t.clone(), first: f.clone(), second: vec![], allowance: 100 }, true),
        (Call::Chain { table: t.clone(), first: f.clone(), second: s.clone(), allowance: 100 }, false),
        (Call::Remainder { table: t.clone(), done: program_image(3, &[2]), pattern: f.clone(), allowance: 100 }, false),
        (Call::Remainder { table: t.clone(), done: f.clone(), pattern: program_image(3, &[2]), allowance: 100 }, false),
        (Call::Remainder { table: t.clone(), done: f.clone(), pattern: program.clone(), allowance: 100 }, true),
        (tray(&t, &[&f, &s, &[]], &s, 100), false),
        (tray(&t, &[&f, &program], &s, 5), false),
        (tray(&t, &[], &s, 100), false),
        (tray(&t, &[&f], &s, 4), false),
        (tray(&t, &[&f[..]; 22], &s, 100), false),
        (tray(&t, &[&f], &program, 100), true),
        (tray(&[], &[&f], &s, 100), true),
        (tray(&[0x10, 0x25, 0x0C], &[&f], &[0x00, 0x00], 100), true),
        (tray(&t, &[&f[..]; 65], &s, 100), true),
        (Call::Tray { table: t.clone(), tray: vec![0x01, 0x00], pattern: s.clone(), allowance: 100 }, true),
        (Call::Check { table: t.clone(), first: f, second: s, entries }, false),
        (Call::PackTable { plain: plain_table(&braid(3)) }, true),
        (Call::UnpackTable { table: t.clone() }, true),
        (Call::PackProgram { table: t.clone(), plain: vec![131, 1, 130, 1, 2] }, true),
        (Call::Bed { table: t.clone(), program: program.clone(), moves: 5 }, true),
        (Call::Bed { table: vec![0x10, 0x00], program: program.clone(), moves: 5 }, true),
        (Call::Ways { table: t.clone(), program: program_image(3, &[1, 2, 1]) }, true),
        (Call::Ways { table: t.clone(), program: program.clone() }, true),
        (Call::Import { table: t.clone(), text: b"-(1 2)^2".to_vec() }, true),
        (Call::Import { table: t.clone(), text: b"(1 2)^0".to_vec() }, true),
        (Call::Import { table: t.clone(), text: b"(1 2)^33".to_vec() }, true),
        (Call::Import { table: t.clone(), text: b"(1 2)^99 (1^99)^99".to_vec() }, true),
        (Call::Import { table: t.clone(), text: b"4^0".to_vec() }, true),
        (Call::Import { table: t.clone(), text: b"1 ".to_vec() }, true),
        (Call::Import { table: vec![], text: b"1".to_vec() }, true),
        (Call::UnpackProgram { table: t, program }, true),
    ]
}

fn changed(left: &Left, change: impl FnOnce(&mut Left)) -> Left {
    let mut other = Left { result: left.result, values: left.values, workspace: left.workspace.clone(), answer: left.answer.clone() };
    change(&mut other);
    other
}

#[test]
fn every_change_is_noticed() {
    let (workspace, answer) = (vec![0x5A; 40], vec![0x77; 64]);
    for (made, kept) in calls() {
        let must = expected(&made, workspace.len(), answer.len(), &mut Most::default());
        let left = call(&made, &workspace, &answer).unwrap();
        let judged = |left: &Left| judge(&made, &must, &workspace, &answer, left);
        assert_eq!(judged(&left), Ok(()), "{made:?}");
        assert_eq!(left.workspace == workspace, kept, "{made:?}");
        assert!(judged(&changed(&left, |l| l.result ^= 1)).is_err());
        for k in 0..4 {
            assert!(judged(&changed(&left, |l| l.values[k] += 1)).is_err(), "value {k} of {made:?}");
        }
        for k in 0..workspace.len() {
            assert!(judged(&changed(&left, |l| l.workspace[k] ^= 4)).is_err(), "byte {k} of the workspace of {made:?}");
        }
        for k in 0..answer.len() {
            assert!(judged(&changed(&left, |l| l.answer[k] ^= 4)).is_err(), "byte {k} of the answer area of {made:?}");
        }
    }
}

/// A table, two programs, the values that chain tells of them, and the entries of another chain.
type OtherChain = (Table, [Vec<i8>; 2], [u64; 4], Vec<Entry>);

/// Programs with the values that chain tells of them, and another chain between them, which is longer or shorter than the listed one.
fn other_chains() -> Vec<OtherChain> {
    let chain = |entries: &[(usize, u8, u8)]| entries.iter().map(|(offset, a, b)| Entry { offset: *offset, a: *a, b: *b }).collect();
    let one_move = Table::from_pairs(3, |_, _| Some((vec![], vec![])));
    vec![
        // A swap, its opposite, and the swap again.
        (braid(3), [vec![1, 2, 1], vec![2, 1, 2]], [0, 5, 1, 5], chain(&[(0, 1, 2), (0, 2, 1), (0, 1, 2)])),
        (doubled(), [vec![2, 2], vec![1, 2, 1]], [0, 4, 1, 5], chain(&[(0, 2, 1), (0, 1, 2), (0, 2, 1)])),
        // A swap and its opposite between equal programs.
        (braid(3), [vec![1, 2, 1], vec![1, 2, 1]], [0, 3, 0, 2], chain(&[(0, 1, 2), (0, 2, 1)])),
        // One entry more: from 1 to 2 by way of 3.
        (one_move, [vec![1], vec![2]], [0, 1, 1, 5], chain(&[(0, 1, 3), (0, 3, 2)])),
        // One entry less: the second 3 is brought past a 2 and not past three 1s.
        (growing(3, 1), [vec![2, 3, 3], vec![3, 3, 2]], [0, 9, 5, 14], chain(&[(0, 2, 3), (1, 1, 2), (1, 2, 3), (2, 1, 2)])),
    ]
}

#[test]
fn a_chain_of_another_length_is_noticed() {
    let (workspace, answer) = (vec![0x5A; 40], vec![0x77; 64]);
    for (table, words, values, entries) in other_chains() {
        let image = table_image(&table);
        let [first, second] = words.map(|word| program_image(table.moves, &word));
        let other = chain_image(table.moves, &entries);
        assert_eq!(check(&image, &first, &second, &other, 40, &mut 0), Ok(Passage::Joins), "{entries:?}");
        let made = Call::Chain { table: image, first, second, allowance: 100 };
        let must = expected(&made, workspace.len(), answer.len(), &mut Most::default());
        let left = call(&made, &workspace, &answer).unwrap();
        let judged = |left: &Left| judge(&made, &must, &workspace, &answer, left);
        assert_eq!((judged(&left), left.values), (Ok(()), values), "{made:?}");
        let relisted = changed(&left, |l| l.answer = [&other, &answer[other.len()..]].concat());
        assert!(judged(&relisted).is_err(), "{entries:?}");
        let told = [0, values[1], entries.len() as u64, other.len() as u64];
        assert_ne!(told, values);
        assert!(judged(&changed(&relisted, |l| l.values = told)).is_err(), "{entries:?}, as it is told");
        assert!(judged(&changed(&left, |l| l.values[2] = values[2] + 1)).is_err());
        assert!(judged(&changed(&left, |l| l.values[3] = values[3] + 1)).is_err());
        assert!(judged(&changed(&left, |l| l.values[3] = values[3] - 1)).is_err());
        assert!(judged(&changed(&left, |l| l.values[2..].fill(0))).is_err());
    }
}
