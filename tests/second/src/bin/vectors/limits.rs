//! Allowances and areas around what each stage of a call needs (specification 3.2, 4.5, 6.1, 6.18): one short, exact and one more, and none.
use crate::book::Book;
use crate::inputs::{section, Inputs, CALLS};
use second::expected::expected;
use second::image::Entry;
use second::mirror::mirror;
use second::random::Random;
use second::reversing::Most;
use second::table::Table;
use second::tables::signed::{costly_mirror, cyclic, dihedral, multiple};
use second::tables::{braid, doubled};
use second::tray::laid;

/// What a call comes to at most, and the bytes of its answer, where it is not limited.
fn needs(name: &str, inputs: &Inputs) -> (Most, usize) {
    let mut most = Most::default();
    let mut wide = inputs.clone();
    wide.allowance = 5_000;
    let must = expected(&wide.call(name), 5_000, 20_000, &mut most);
    (most, must.listed.map_or(must.written.len(), |(_, bytes)| bytes))
}

/// None, one short, exact, one more.
fn around(exact: usize) -> [usize; 4] {
    [0, exact.saturating_sub(1), exact, exact + 1]
}

/// A call at lengths of its answer area around what it writes.
fn areas(book: &mut Book, name: &str, what: &str, inputs: &Inputs) {
    let (_, exact) = needs(name, inputs);
    for answer in around(exact) {
        book.add(section(name), &format!("{what}: {exact} bytes in an area of {answer}"), inputs.call(name), inputs.workspace, answer);
    }
}

/// A call at every allowance and every workspace from none to one more than it needs, or at chosen ones where that is much.
fn stages(book: &mut Book, name: &str, what: &str, inputs: &Inputs) {
    let (most, answer) = needs(name, inputs);
    let places = |exact: usize| -> Vec<usize> {
        if exact <= 12 {
            (0..=exact + 1).collect()
        } else {
            vec![0, 1, 2, 5, 6, 10, 11, exact / 2, exact - 1, exact, exact + 1]
        }
    };
    for allowance in places(most.steps) {
        let limited = Inputs { allowance: allowance as u16, ..inputs.clone() };
        let what = format!("{what}: allowance {allowance} where {} is just enough", most.steps);
        book.add(section(name), &what, limited.call(name), most.bytes, answer);
    }
    for workspace in places(most.bytes) {
        let limited = Inputs { allowance: most.steps as u16, ..inputs.clone() };
        let what = format!("{what}: workspace of {workspace} where {} is just enough", most.bytes);
        book.add(section(name), &what, limited.call(name), workspace, answer);
    }
}

/// x y x .. of a length.
fn alternating(x: i8, y: i8, length: usize) -> Vec<i8> {
    (0..length).map(|k| if k % 2 == 0 { x } else { y }).collect()
}

/// Three moves that commute but for one pair, which has 1 2 1 2 = 2 1 2 1 or the like. One reversing of the triple 1 2 3 needs more than those before it: the
/// first and the fourth for the pair 1, 2, the second for 1, 3, the fifth for 2, 3.
fn one_long_pair(long: (u8, u8)) -> Table {
    Table::from_pairs(3, |a, b| {
        let (x, y) = (a as i8, b as i8);
        let length = if (a, b) == long { 3 } else { 1 };
        Some((alternating(y, x, length), alternating(x, y, length)))
    })
}

/// 1 = 2, 1 4 5 4 = 3, 2 5 4 5 = 3 and 4 5 4 = 5 4 5: of the triple 1 2 3 the seventh reversing needs the most, since L and R are joined and not equal.
fn last_reversing_longest() -> Table {
    let table = Table::from_pairs(5, |a, b| match (a, b) {
        (1, 2) => Some((vec![], vec![])),
        (1, 3) => Some((vec![4, 5, 4], vec![])),
        (2, 3) => Some((vec![5, 4, 5], vec![])),
        (4, 5) => Some((vec![5, 4], vec![4, 5])),
        _ => None,
    });
    table.weighing(vec![1, 1, 4, 1, 1])
}

/// The tables of which each reversing of a triple is the one that needs the most so far, by name.
fn by_reversing() -> Vec<(&'static str, Table)> {
    vec![
        ("3 and 6 of a triple", braid(3)),
        ("1 and 4 of a triple", one_long_pair((1, 2))),
        ("2 of a triple", one_long_pair((1, 3))),
        ("5 of a triple", one_long_pair((2, 3))),
        ("7 of a triple", last_reversing_longest()),
    ]
}

fn clearing(book: &mut Book) {
    for (which, table) in by_reversing() {
        let inputs = Inputs::new(&table, &[], &[], &[]);
        for name in ["clear", "mirror_clear"] {
            stages(book, name, &format!("reversing {which}"), &inputs);
        }
        for name in ["compare", "tray"] {
            let (most, _) = needs("clear", &inputs);
            let limited = Inputs { allowance: most.steps as u16 - 1, ..inputs.clone() };
            book.add(section(name), &format!("reversing {which}, one step short"), limited.call(name), most.bytes, 9);
            book.add(section(name), &format!("reversing {which}, one byte short"), inputs.call(name), most.bytes - 1, 9);
        }
    }
    let mut random = Random::new(7);
    let costly = std::iter::repeat_with(|| costly_mirror(&mut random)).flatten().take(3);
    for table in costly {
        let inputs = Inputs::new(&table, &[], &[], &[]);
        for name in ["clear", "mirror_clear", "compare_signed"] {
            stages(book, name, "a mirror that needs more than its table", &inputs);
        }
        let other = Inputs::new(&mirror(&table).expect("it has one"), &[], &[], &[]);
        for name in ["clear", "mirror_clear", "compare_signed"] {
            stages(book, name, "a mirror that needs less than its table", &other);
        }
    }
}

/// Programs under tables of few steps, so that the programs need more than the clearing does.
fn programs(book: &mut Book) {
    let long = [1, 2, 1, 1, 2, 2, 1];
    let same = [2, 1, 2, 2, 1, 1, 2];
    let table = dihedral(4);
    let heavy = doubled();
    let cases: [(&str, Table, &[i8], &[i8]); 6] = [
        ("programs of 7 moves that are the same", braid(2), &[1, 2, 1, 1, 2, 1, 1], &[2, 1, 2, 2, 1, 2, 1]),
        ("programs of 7 moves that are different", braid(2), &long, &same),
        ("the example's table, 1 2 1 3 2 1 and 3 2 3 1 2 3", braid(3), &[1, 2, 1, 3, 2, 1], &[3, 2, 3, 1, 2, 3]),
        ("under 1 2 1 2 = 2 1 2 1", table, &[1, 2, 1, 2, 1, 2], &[2, 1, 2, 1, 1, 2]),
        ("under 1 2 1 = 2 2 with weights", heavy, &[1, 2, 1, 2], &[2, 2, 2]),
        ("an open pair after a step", Table::light(2, vec![None]), &[1, 1, 2], &[1, 2, 1]),
    ];
    for (what, table, first, second) in cases {
        let inputs = Inputs::new(&table, first, second, &[]);
        for name in ["compare", "chain", "tray", "remainder"] {
            stages(book, name, what, &inputs);
        }
        let begun = Inputs::new(&table, &first[..2], second, &[]);
        stages(book, "remainder", &format!("two moves done, {what}"), &begun);
        let back: Vec<i8> = first.iter().rev().map(|m| -m).chain(second.iter().copied()).collect();
        for name in ["reverse", "enquire", "commit"] {
            let mut inputs = Inputs::new(&table, &back, &[], &[]);
            inputs.numbers = [0, 0, needs(name, &inputs).0.steps as u64];
            stages(book, name, what, &inputs);
        }
        let forward: Vec<i8> = first.iter().copied().chain(second.iter().rev().map(|m| -m)).collect();
        stages(book, "left_reverse", what, &Inputs::new(&table, &forward, &[], &[]));
    }
}

fn sets(book: &mut Book) {
    let cases: [(&str, Table, &[i8], &[i8]); 7] = [
        ("the set of 1 1 1 = 2", multiple(3), &[1, 1, 1, -2, 1], &[1]),
        ("the set of the braid table of 2 moves", braid(2), &[1, 2, -1], &[-2, 1, 2]),
        ("the set of 1 2 1 2 = 2 1 2 1", dihedral(4), &[1, 2, 1, -2], &[-1, 2, 1, 2]),
        ("the set of 1 2 = 2 3 = 3 1", cyclic(3), &[1, -3, 2], &[2, 2, -1]),
        ("the set of 1 2 1 = 2 2", doubled(), &[1, 2, -1, 2], &[2, 1, -1, 2]),
        ("the set of one move", braid(1), &[1, -1, -1, 1, 1], &[1]),
        ("the set of the braid table of 3 moves", braid(3), &[1, 2, -1], &[-2, 1, 2]),
    ];
    for (what, table, first, second) in cases {
        stages(book, "compare_signed", what, &Inputs::new(&table, first, second, &[]));
    }
    // The second reversing needs more than the first, and both more than the set.
    let first: Vec<i8> = alternating(1, -2, 16);
    let second: Vec<i8> = alternating(-2, 1, 16);
    for table in [braid(2), dihedral(3), doubled()] {
        stages(book, "compare_signed", "programs of 16 moves", &Inputs::new(&table, &first, &second, &[]));
    }
    let longer: Vec<i8> = [vec![1; 20], vec![2; 20]].concat();
    let other: Vec<i8> = [vec![2; 20], vec![1; 20]].concat();
    stages(book, "compare_signed", "programs of 40 moves", &Inputs::new(&braid(2), &longer, &other, &[]));
}

fn answer_areas(book: &mut Book) {
    for name in CALLS {
        if !Inputs::example().call(name).has_answer() {
            continue;
        }
        let mut inputs = Inputs::example();
        inputs.first = second::image::program_image(3, &[-3, 1, -2, 1, 2]);
        inputs.numbers = [4, 3, 5];
        if ["chain", "remainder", "ways", "tray"].contains(&name) {
            inputs = Inputs::example();
        }
        areas(book, name, "the example", &inputs);
        let mut longer = Inputs::new(&doubled(), &[2, 2, 2, 1], &[1, 2, 1, 2, 1], &[]);
        longer.numbers = [4, 0, 0];
        longer.text = b"-(1 2^3)^4".to_vec();
        areas(book, name, "under 1 2 1 = 2 2", &longer);
        let mut empty = Inputs::new(&braid(1), &[], &[], &[]);
        empty.text = Vec::new();
        empty.tray = vec![0];
        areas(book, name, "nothing to write, or the least", &empty);
    }
    let mut faulty = Inputs::example();
    faulty.tray = laid(&[vec![], faulty.first.clone(), vec![0x00]]);
    areas(book, "tray", "three logs, two of them faulty", &faulty);
    let begun = Inputs::new(&braid(3), &[2], &[1, 2, 1, 3], &[]);
    areas(book, "remainder", "2 done of 1 2 1 3", &begun);
    areas(book, "remainder", "none", &Inputs::new(&braid(3), &[1], &[2, 2], &[]));
    areas(book, "chain", "different", &Inputs::new(&braid(3), &[1], &[2], &[]));
    areas(book, "chain", "a program and itself", &Inputs::new(&braid(3), &[1, 2, 3], &[1, 2, 3], &[]));
}

/// Chains through words of several lengths, in workspaces around the longest word.
fn checked_chains(book: &mut Book) {
    let there = [Entry { offset: 0, a: 2, b: 1 }, Entry { offset: 3, a: 2, b: 1 }];
    let and_back = [there[0], there[1], Entry { offset: 0, a: 1, b: 2 }, Entry { offset: 2, a: 1, b: 2 }];
    let table = doubled();
    let word = [2, 2, 2, 2];
    for (what, entries, second) in [
        ("to the longest word", &there[..], &[1, 2, 1, 1, 2, 1][..]),
        ("through longer words and back", &and_back[..], &word[..]),
        ("that breaks at its last entry", &[there[0], Entry { offset: 9, a: 2, b: 1 }][..], &word[..]),
        ("with an entry on an open side", &[Entry { offset: 0, a: 1, b: 2 }][..], &word[..]),
        ("with an entry of equal moves", &[Entry { offset: 0, a: 2, b: 2 }][..], &word[..]),
        ("that ends at another program", &there[..1], &word[..]),
        ("of no entry", &[][..], &word[..]),
    ] {
        let inputs = Inputs::new(&table, &word, second, entries);
        let (most, _) = needs("check", &inputs);
        for workspace in around(most.bytes) {
            let what = format!("a chain {what}, in {workspace} bytes where the longest word has {}", most.bytes);
            book.add("6.7", &what, inputs.call("check"), workspace, 0);
        }
    }
    let open = Inputs::new(&Table::light(2, vec![None]), &[1, 2], &[2, 1], &[Entry { offset: 0, a: 1, b: 2 }]);
    book.add("6.7", "an entry of an open pair does not fit", open.call("check"), 9, 0);
}

pub fn add(book: &mut Book) {
    for part in [clearing, programs, sets, answer_areas, checked_chains] {
        part(book);
    }
}
