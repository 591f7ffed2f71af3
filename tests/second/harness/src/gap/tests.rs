//! The Rust side refuses and answers as the firmware does, on whole images and on such as are cut or changed.
use crate::firmware::Told;
use crate::library::{Library, FIRMWARE, RUST};
use crate::measures::Areas;
use second::image::{program_image, table_image};
use second::plain::plain_table;
use second::random::Random;
use second::table::Table;
use second::tables::{any, braid, clearing, forward_word, signed_word, walk};
use second::tray::laid;
use second::word::bytes;

/// The number of a result, its values after an answer, and all bytes of both areas.
fn outcome(library: &Library, rooms: [usize; 2], call: &dyn Fn(&Library, &mut Areas) -> Told) -> (Told, Areas) {
    let [workspace, answer] = rooms.map(|room| vec![0x5A; room]);
    let mut areas = Areas { workspace, answer };
    let (result, values) = call(library, &mut areas);
    ((result, if result == 0 { values } else { [0; 4] }), areas)
}

fn same(what: &str, rooms: [usize; 2], call: &dyn Fn(&Library, &mut Areas) -> Told) -> u8 {
    let (ours, rust) = (outcome(&FIRMWARE, rooms, call), outcome(&RUST, rooms, call));
    assert_eq!(ours.0, rust.0, "{what}");
    assert!(ours.1 == rust.1, "{what}: the areas differ");
    ours.0 .0
}

/// Bytes as they are, cut, with bytes behind them, or with one of them changed.
fn spoilt(random: &mut Random, mut bytes: Vec<u8>) -> Vec<u8> {
    match random.below(6) {
        0 => bytes.truncate(random.below(bytes.len() + 1)),
        1 => bytes.extend(vec![0; random.between(1, 9)]),
        2 if !bytes.is_empty() => {
            let at = random.below(bytes.len());
            bytes[at] ^= 1 << random.below(8);
        }
        _ => {}
    }
    bytes
}

/// A word as far as such tables are run, often joined to the pattern.
fn log(random: &mut Random, table: &Table, pattern: &[i8]) -> Vec<i8> {
    let length = random.below(60);
    match random.below(4) {
        0 => signed_word(random, table.moves, length),
        1 => forward_word(random, table.moves, length),
        _ => walk(random, table, pattern, 5).1,
    }
}

fn table(random: &mut Random) -> Table {
    match random.below(3) {
        0 => any(random),
        1 => clearing(random),
        _ => braid(random.between(1, 16) as u8),
    }
}

/// Every call that is measured, on one table and its programs; the results.
fn all_calls(random: &mut Random) -> [u8; 8] {
    let table = table(random);
    let length = random.below(60);
    let pattern = forward_word(random, table.moves, length);
    let logs: Vec<_> = (0..random.below(4)).map(|_| log(random, &table, &pattern)).collect();
    let images: Vec<_> = logs.iter().map(|word| spoilt(random, program_image(table.moves, word))).collect();
    let word = log(random, &table, &pattern);
    let [program, image, second, tray, plain, moves] = [
        program_image(table.moves, &word),
        table_image(&table),
        program_image(table.moves, &pattern),
        laid(&images),
        plain_table(&table),
        bytes(&word),
    ]
    .map(|bytes| spoilt(random, bytes));
    let allowance = [65, 2_000][random.below(2)];
    let rooms = [(); 2].map(|()| [5, 300, 4_000][random.below(3)]);
    [
        same("reverse", rooms, &|by, areas| (by.reverse)(&image, &program, allowance, &mut areas.workspace, &mut areas.answer)),
        same("compare", rooms, &|by, areas| (by.compare)(&image, &program, &second, allowance, &mut areas.workspace)),
        same("tray", rooms, &|by, areas| (by.tray)(&image, &tray, &second, allowance, &mut areas.workspace, &mut areas.answer)),
        same("clear", rooms, &|by, areas| (by.clear)(&image, allowance, &mut areas.workspace)),
        same("pack_table", rooms, &|by, areas| (by.pack_table)(&plain, &mut areas.answer)),
        same("unpack_table", rooms, &|by, areas| (by.unpack_table)(&image, &mut areas.answer)),
        same("pack_program", rooms, &|by, areas| (by.pack_program)(&image, &moves, &mut areas.answer)),
        same("unpack_program", rooms, &|by, areas| (by.unpack_program)(&image, &program, &mut areas.answer)),
    ]
}

#[test]
fn rust_beside_the_firmware() {
    let (mut random, mut met) = (Random::new(42), [[0; 25]; 8]);
    for _ in 0..20_000 {
        for (call, result) in all_calls(&mut random).into_iter().enumerate() {
            met[call][usize::from(result)] += 1;
        }
    }
    let must: [&[usize]; 8] = [
        &[0, 1, 2, 3, 4, 5, 6, 10, 11, 12, 13],
        &[0, 1, 2, 3, 4, 5, 6, 7, 8, 9, 11, 12],
        &[0, 1, 2, 3, 4, 5, 6, 7, 8, 9, 11, 12, 13, 23, 24],
        &[0, 1, 2, 3, 8, 9, 11, 12],
        &[0, 1, 2, 3, 13],
        &[0, 1, 2, 3, 13],
        &[0, 1, 2, 3, 5, 13],
        &[0, 1, 2, 3, 4, 5, 6, 13],
    ];
    for (met, must) in met.iter().zip(must) {
        for result in must {
            assert!(met[*result] > 0, "no result {result} in {met:?}");
        }
    }
}
