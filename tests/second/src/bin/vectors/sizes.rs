//! Tables of 1 to 16 moves with every weight, the largest images, words of 0, 1 and 4,095 moves, and words that grow to the largest workspace
//! (specification 1.3, 5.10).
use crate::book::Book;
use crate::inputs::{section, Inputs};
use second::call::Call;
use second::expected::expected;
use second::image::{chain_image, program_image, table_image, Entry};
use second::plain::plain_table;
use second::random::Random;
use second::reversing::Most;
use second::table::Table;
use second::tables::mirror::{mirrored, mirrorless};
use second::tables::signed::{commuting, cyclic, largest};
use second::tables::{braid, forward_word, growing, signed_word, twins, unrelated, walk};
use second::tray::laid;
use second::word::{bytes, Word};

/// Weights from 1 to 8 in turn, from a number on.
fn weights(moves: u8, from: u8) -> Vec<u8> {
    (0..moves).map(|m| (from + m) % 8 + 1).collect()
}

/// Every call under the braid table of each number of moves.
fn every_number_of_moves(book: &mut Book) {
    let mut random = Random::new(16);
    for moves in 1..=16 {
        let table = braid(moves);
        let first = forward_word(&mut random, moves, 9);
        let (entries, second) = walk(&mut random, &table, &first, 6);
        let mut inputs = Inputs::new(&table, &first, &second, &entries);
        let what = format!("the braid table of {moves} moves");
        inputs.text = format!("-({moves} 1)^2 {moves}").into_bytes();
        for name in [
            "clear",
            "compare",
            "chain",
            "check",
            "remainder",
            "unpack_table",
            "pack_table",
            "pack_program",
            "unpack_program",
            "bed",
            "ways",
            "import",
        ] {
            if name == "clear" || moves <= 8 || moves == 16 || moves % 3 == 0 {
                book.add(section(name), &what, inputs.call(name), 300, 1_400);
            }
        }
        let logs = [first.clone(), second.clone(), forward_word(&mut random, moves, 9)].map(|word| program_image(moves, &word));
        inputs.tray = laid(&logs);
        book.add("6.19", &what, inputs.call("tray"), 300, 9);
        book.add("6.13", &what, inputs.call("mirror_clear"), 300, 0);
        let word = signed_word(&mut random, moves, 12);
        inputs.first = program_image(moves, &word);
        for name in ["reverse", "left_reverse", "enquire"] {
            book.add(section(name), &what, inputs.call(name), 1_000, 1_000);
        }
        let told = expected(&inputs.call("enquire"), 1_000, 0, &mut Most::default());
        inputs.numbers = [told.values[0], told.values[1], told.values[2]];
        book.add("6.16", &what, inputs.call("commit"), 1_000, 1_000);
        for k in if moves <= 4 { vec![0, 1, 6, 12, 13] } else { vec![12] } {
            inputs.moves = k;
            book.add("6.11", &format!("{what}, {k} moves of 12"), inputs.call("bed"), 0, 300);
        }
        if moves <= 5 {
            inputs.second = program_image(moves, &signed_word(&mut random, moves, 6));
            book.add("6.18", &what, inputs.call("compare_signed"), 4_000, 0);
        }
    }
}

fn every_weight(book: &mut Book) {
    for moves in [1, 2, 3, 5, 8, 16] {
        for from in 0..8 {
            let table = if moves > 5 { unrelated(moves) } else { commuting(moves) };
            let inputs = Inputs::new(&table.weighing(weights(moves, from)), &[1], &[moves as i8], &[]);
            let what = format!("{moves} moves with weights from {} on", from + 1);
            book.add("5.4", &what, inputs.call("unpack_table"), 0, 600);
            if moves <= 8 {
                book.add("5.7", &what, inputs.call("pack_table"), 0, 600);
                book.add("4.2", &what, inputs.call("compare"), 60, 0);
            }
        }
    }
    for weight in 1..=8u8 {
        // Move 2 is so many times move 1, if its weight says so.
        for power in [weight, weight % 8 + 1] {
            let table = Table::light(2, vec![Some((vec![1; usize::from(power) - 1], vec![]))]).weighing(vec![1, weight]);
            let inputs = Inputs::new(&table, &vec![1; power.into()], &[2], &[]);
            for name in ["clear", "compare", "remainder", "ways"] {
                book.add("4.2", &format!("2 of weight {weight} is {power} times 1"), inputs.call(name), 60, 60);
            }
        }
    }
}

fn largest_images(book: &mut Book) {
    let mut random = Random::new(15);
    let full =
        Table::from_pairs(16, |_, _| Some((forward_word(&mut random, 16, 15), forward_word(&mut random, 16, 15)))).weighing(vec![8; 16]);
    let (image, plain) = (table_image(&full), plain_table(&full));
    assert_eq!((image.len(), plain.len()), (1_942, 3_857));
    book.add("5.10", "the longest table image", Call::UnpackTable { table: image }, 0, 3_857);
    book.add("5.10", "the longest plain table", Call::PackTable { plain }, 0, 1_942);
    let empty = Table::from_pairs(16, |_, _| Some((vec![], vec![])));
    book.add("5.4", "16 moves, all completions empty", Call::UnpackTable { table: table_image(&empty) }, 0, 300);
    book.add("4.4", "16 moves, all completions empty", Call::Clear { table: table_image(&empty), allowance: 1 }, 2, 0);
    let open = Table::from_pairs(16, |_, _| None);
    book.add("5.4", "16 moves, all pairs open", Call::UnpackTable { table: table_image(&open) }, 0, 200);
    book.add("4.4", "16 moves, all pairs open", Call::Clear { table: table_image(&open), allowance: 0 }, 0, 0);
}

/// Words of no move, one, and as many as an image holds.
fn long_words(book: &mut Book) {
    let mut random = Random::new(40);
    for moves in [1, 2, 3, 4, 16] {
        let table = table_image(&unrelated(moves));
        for length in [0, 1, 4_095] {
            let words: [Word; 2] = [vec![moves as i8; length], vec![-(moves as i8); length]];
            for word in words {
                let program = program_image(moves, &word);
                let what = format!("{length} times {}{moves}", if word.first() < Some(&0) { "-" } else { "" });
                book.add("5.5", &what, Call::UnpackProgram { table: table.clone(), program }, 0, length);
                book.add("5.8", &what, Call::PackProgram { table: table.clone(), plain: bytes(&word) }, 0, 2_561);
            }
        }
        book.add("5.8", "4,096 moves", Call::PackProgram { table: table.clone(), plain: vec![1; 4_096] }, 0, 2_600);
    }
    let word = signed_word(&mut random, 16, 4_095);
    let (table, program) = (table_image(&unrelated(16)), program_image(16, &word));
    book.add("5.10", "the longest program image", Call::UnpackProgram { table: table.clone(), program }, 0, 4_095);
    let plain = bytes(&word);
    for area in [2_561, 2_560] {
        book.add(
            "5.10",
            &format!("the longest program in an area of {area}"),
            Call::PackProgram { table: table.clone(), plain: plain.clone() },
            0,
            area,
        );
    }
    let one = table_image(&braid(1));
    let (ones, backs) = (program_image(1, &[1; 4_095]), program_image(1, &[-1; 4_095]));
    let half = program_image(1, &[vec![-1; 2_047], vec![1; 2_048]].concat());
    for allowance in [2_046, 2_047] {
        for workspace in [4_094, 4_095] {
            let call = Call::Reverse { table: one.clone(), program: half.clone(), allowance };
            book.add("6.2", &format!("4,095 moves, allowance {allowance}, workspace {workspace}"), call, workspace, 4);
        }
    }
    for workspace in [8_189, 8_190] {
        let what = format!("4,095 moves each, in {workspace} bytes");
        let call = Call::Compare { table: one.clone(), first: ones.clone(), second: ones.clone(), allowance: 4_095 };
        book.add("6.4", &what, call, workspace, 0);
        let call = Call::Chain { table: one.clone(), first: ones.clone(), second: ones.clone(), allowance: 4_095 };
        book.add("6.6", &what, call, workspace, 2);
        let call = Call::CompareSigned { table: one.clone(), first: backs.clone(), second: ones.clone(), allowance: 4_095 };
        book.add("6.18", &what, call, workspace, 0);
        let call = Call::Tray { table: one.clone(), tray: laid(&[ones.clone(), half.clone()]), pattern: ones.clone(), allowance: 4_095 };
        book.add("6.19", &what, call, workspace, 6);
    }
    for area in [4_095, 4_096] {
        book.add("6.14", &format!("4,095 moves in an area of {area}"), Call::Ways { table: one.clone(), program: ones.clone() }, 0, area);
    }
    for area in [2_046, 2_047, 2_048] {
        let done = program_image(1, &[1; 2_048]);
        let call = Call::Remainder { table: one.clone(), done, pattern: ones.clone(), allowance: 4_095 };
        book.add("6.10", &format!("2,048 moves done of 4,095, in an area of {area}"), call, 8_190, area);
    }
    let braid3 = table_image(&braid(3));
    let word = signed_word(&mut random, 3, 400);
    for name in ["reverse", "left_reverse"] {
        let mut inputs = Inputs::new(&braid(3), &word, &[], &[]);
        inputs.allowance = 60_000;
        book.add(section(name), "400 moves of any signs under the example's table", inputs.call(name), 32_768, 32_768);
    }
    let first = forward_word(&mut random, 3, 600);
    let (entries, second) = walk(&mut random, &braid(3), &first, 60);
    let [first, second] = [first, second].map(|word| program_image(3, &word));
    let call = Call::Chain { table: braid3.clone(), first: first.clone(), second: second.clone(), allowance: 65_535 };
    book.add("6.6", "600 moves joined by 60 swaps", call, 32_768, 40_000);
    book.add(
        "6.7",
        "600 moves joined by 60 swaps",
        Call::Check { table: braid3, first, second, entries: chain_image(3, &entries) },
        600,
        0,
    );
}

/// Words that grow, chains of the most entries, and reversings of the most steps.
fn growth(book: &mut Book) {
    let table = growing(8, 1);
    let image = table_image(&table);
    let q = 4_095;
    let program = program_image(3, &vec![2; q]);
    let there: Vec<Entry> = (0..q).map(|k| Entry { offset: 8 * k, a: 2, b: 1 }).collect();
    let back: Vec<Entry> = (0..q).map(|k| Entry { offset: k, a: 1, b: 2 }).collect();
    let check = |entries: &[Entry]| Call::Check {
        table: image.clone(),
        first: program.clone(),
        second: program.clone(),
        entries: chain_image(3, entries),
    };
    book.add("6.6", "through a word of 32,760 moves and back", check(&[there, back].concat()), 32_760, 0);
    let words: [Word; 2] = [[vec![2; 1_000], vec![3, 3]].concat(), [vec![3, 3], vec![2; 1_000]].concat()];
    let [first, second] = words.map(|word| program_image(3, &word));
    let exact = (16 + 10_000 * 19_usize).div_ceil(8);
    for area in [exact, exact - 1] {
        let call = Call::Chain { table: image.clone(), first: first.clone(), second: second.clone(), allowance: 17_002 };
        book.add("6.6", &format!("10,000 entries with offsets above 4,095, in an area of {area}"), call, 32_768, area);
    }
    let twin = twins(1, 1);
    let words: [Word; 2] = [[vec![1; 255], vec![2; 255]].concat(), [vec![4; 255], vec![3; 255]].concat()];
    let [first, second] = words.map(|word| program_image(4, &word));
    let most = (16 + 65_535 * 19_usize).div_ceil(8);
    for (allowance, area) in [(65_535, most), (65_535, most - 1), (65_534, most)] {
        let call = Call::Chain { table: table_image(&twin), first: first.clone(), second: second.clone(), allowance };
        book.add("6.6", &format!("65,535 steps and entries: allowance {allowance}, an area of {area}"), call, 1_020, area);
    }
    let endless = Table::from_pairs(3, |a, b| Some((vec![b as i8, a as i8], vec![a as i8, b as i8])));
    let program = program_image(3, &[-1, -2, 3, 1]);
    for (allowance, workspace) in [(16_381, 32_768), (16_382, 32_768), (16_383, 32_768), (65_535, 32_768), (16_382, 32_767)] {
        let call = Call::Reverse { table: table_image(&endless), program: program.clone(), allowance };
        book.add("6.2", &format!("a word that grows for ever: allowance {allowance}, workspace {workspace}"), call, workspace, 0);
    }
}

/// Tables that are the braid table but for one completion: a move changed, left out or put behind, or the pair open.
fn nearly_braid(book: &mut Book) {
    for moves in [2, 3] {
        let whole = braid(moves);
        for (k, (a, b)) in Table::pair_order(moves).into_iter().enumerate() {
            let mut add = |what: &str, pair: Option<(Word, Word)>| {
                let mut table = whole.clone();
                table.pairs[k] = pair;
                let what = format!("the braid table of {moves} moves but for the pair {a}, {b}: {what}");
                book.add("6.11", &what, Call::Bed { table: table_image(&table), program: program_image(moves, &[]), moves: 0 }, 0, 16);
            };
            add("it is open", None);
            let (there, back) = whole.pairs[k].clone().expect("no pair of a braid table is open");
            let changes = |word: &Word| {
                let mut words = vec![[word.clone(), vec![1]].concat(), word[1..].to_vec(), word[..word.len() - 1].to_vec()];
                for at in 0..word.len() {
                    let mut other = word.clone();
                    other[at] = other[at] % moves as i8 + 1;
                    words.push(other);
                }
                words
            };
            for other in changes(&there) {
                add(&format!("C({a},{b}) is {other:?}"), Some((other, back.clone())));
            }
            for other in changes(&back) {
                add(&format!("C({b},{a}) is {other:?}"), Some((there.clone(), other)));
            }
        }
    }
}

/// Sets that close, sets that do not, and the largest that does.
fn sets(book: &mut Book) {
    let signed = |table: &Table| Inputs::new(table, &[1, -2], &[-2, 1], &[]).call("compare_signed");
    for (what, table) in [("a set of exactly 256 words", largest(false)), ("a set that would have a 257th word", largest(true))] {
        book.add("6.18", what, signed(&table), 32_768, 0);
    }
    for moves in 2..=16 {
        book.add("6.18", &format!("{moves} commuting moves"), signed(&commuting(moves)), 3_000, 0);
        book.add("6.18", &format!("1 2 = 2 3 = .. = {moves} 1"), signed(&cyclic(moves)), 3_000, 0);
    }
    // 1 2 1 1 2 1 1 2 = 2 1 1 1 2 1 2 1.
    let long = Table::light(2, vec![Some((vec![2, 1, 1, 2, 1, 1, 2], vec![1, 1, 1, 2, 1, 2, 1]))]);
    let inputs = Inputs { allowance: 16_000, ..Inputs::new(&long, &[], &[], &[]) };
    book.add("6.18", "a set with words of more than 128 moves, some as long as one another", inputs.call("compare_signed"), 4_000, 0);
}

/// Tables with a mirror and without one, drawn.
fn mirrors(book: &mut Book) {
    let mut random = Random::new(38);
    for k in 0..24 {
        let table = if k % 2 == 0 { mirrored(&mut random) } else { mirrorless(&mut random) };
        if table.moves > 6 {
            continue;
        }
        let word = signed_word(&mut random, table.moves, 10);
        let inputs = Inputs::new(&table, &word, &[], &[]);
        let what = format!("a drawn table of {} moves {} a mirror", table.moves, if k % 2 == 0 { "with" } else { "without" });
        for name in ["left_reverse", "mirror_clear", "compare_signed"] {
            book.add("3.8", &what, inputs.call(name), 300, 300);
        }
    }
}

pub fn add(book: &mut Book) {
    for part in [every_number_of_moves, every_weight, largest_images, long_words, growth, nearly_braid, sets, mirrors] {
        part(book);
    }
}
