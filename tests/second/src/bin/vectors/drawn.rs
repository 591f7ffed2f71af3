//! Cases drawn from seeds, some of each outcome that a call can have: tables of several families, programs that are joined or not, images sound or damaged, limits
//! around what is needed.
use crate::book::Book;
use crate::inputs::{section, Inputs, CALLS};
use second::call::Call;
use second::expected::expected;
use second::outcome::outcomes;
use second::random::Random;
use second::reversing::Most;
use second::table::Table;
use second::tables::mirror::{mirrored, one_way};
use second::tables::signed::comparable;
use second::tables::{any, clearing, forward_word, signed_word, walk};
use second::word::undoing;
use std::collections::BTreeMap;

/// Cases of each outcome.
const EACH: usize = 4;
/// Longer cases are left out: the larger sizes have cases of their own.
const LONGEST: usize = 900;

fn table(random: &mut Random, name: &str) -> Table {
    match name {
        "compare_signed" => comparable(random),
        "left_reverse" | "mirror_clear" if random.once_in(3) => one_way(random),
        "left_reverse" | "mirror_clear" => mirrored(random),
        "bed" => second::tables::braid(random.between(1, 16) as u8).weighing(second::tables::weights(random, 16)),
        _ if random.once_in(3) => any(random),
        _ => clearing(random),
    }
}

/// Zero, one, exact, one short, some more.
fn near(random: &mut Random, exact: usize) -> usize {
    match random.below(12) {
        0 => 0,
        1 => 1,
        2..=5 => exact,
        6..=8 => exact.saturating_sub(1),
        9 => exact + 1,
        _ => exact + random.between(1, 30),
    }
}

/// An image with a bit turned, cut, or with a byte behind.
fn damaged(random: &mut Random, image: &mut Vec<u8>) {
    match random.below(4) {
        0 if !image.is_empty() => {
            let at = random.below(image.len());
            image[at] ^= 1 << random.below(8);
        }
        1 if !image.is_empty() => image.truncate(random.below(image.len())),
        2 => image.push(0),
        _ => {
            if let Some(last) = image.last_mut() {
                *last ^= 1;
            }
        }
    }
}

fn inputs(random: &mut Random, name: &str) -> Inputs {
    let mut table = table(random, name);
    table.weights.truncate(table.moves.into());
    let length = random.pick(&[0, 1, 2, 3, 4, 6, 8, 12]);
    let forward = forward_word(random, table.moves, length);
    let swaps = random.pick(&[0, 1, 3, 10]);
    let (entries, mut joined) = walk(random, &table, &forward, swaps);
    let first = match name {
        "reverse" | "enquire" | "commit" if random.once_in(2) => [undoing(&forward), forward_word(random, table.moves, length)].concat(),
        "left_reverse" if random.once_in(2) => [forward, undoing(&joined)].concat(),
        "reverse" | "enquire" | "commit" | "left_reverse" | "compare_signed" | "unpack_program" | "bed" => {
            signed_word(random, table.moves, length)
        }
        "remainder" if random.once_in(2) => forward[..length / 2].to_vec(),
        _ => forward,
    };
    if name == "compare_signed" {
        joined = second::signed::signed_walk(random, &table, &first, swaps, 14);
    }
    match random.below(5) {
        0 if !joined.is_empty() => {
            let at = random.below(joined.len());
            joined[at] = random.between(1, table.moves.into()) as i8;
        }
        1 => joined = forward_word(random, table.moves, length),
        _ => {}
    }
    let mut made = Inputs::new(&table, &first, &joined, &entries);
    let logs = random.below(4);
    let logs: Vec<Vec<u8>> = (0..logs).map(|k| if k == 0 { made.first.clone() } else { made.second.clone() }).collect();
    made.tray = second::tray::laid(&logs);
    made.text = second::notation::text(&second::patterns::tree(random, table.moves, 2, 3));
    made.moves = random.below(length + 2) as u64;
    made
}

/// A call with its limits, and what it must leave.
fn drawn(random: &mut Random, name: &str) -> (Call, usize, usize) {
    let mut made = inputs(random, name);
    if random.once_in(4) {
        let place = random.below(made.call(name).images().len());
        damaged(random, made.image(name, place));
    }
    let mut most = Most::default();
    (made.allowance, made.workspace, made.answer) = (2_000, 2_000, 2_000);
    let must = expected(&made.call(name), made.workspace, made.answer, &mut most);
    let exact = must.listed.map_or(must.written.len(), |(_, bytes)| bytes);
    made.numbers = [must.values[0], must.values[1], must.values[2]];
    if name == "commit" {
        let told = expected(&made.call("enquire"), 2_000, 0, &mut Most::default());
        made.numbers = [told.values[0], told.values[1], told.values[2] + u64::from(random.once_in(4))];
    }
    made.allowance = near(random, most.steps).min(65_535) as u16;
    (made.call(name), near(random, most.bytes), near(random, exact))
}

/// An outcome in words.
fn told(name: &str, result: u8, value: u64) -> String {
    match (name, result, value) {
        ("compare" | "compare_signed" | "chain", 0, 0) => "same".into(),
        ("compare" | "compare_signed" | "chain", 0, _) => "different".into(),
        ("remainder", 0, 0) => "moves".into(),
        ("remainder", 0, _) => "none".into(),
        ("check", 0, 0) => "joins".into(),
        ("check", 0, 1) => "breaks".into(),
        ("check", 0, _) => "ends at another program".into(),
        (_, 0, _) => "an answer".into(),
        (_, 11 | 12, 2) => format!("{result} with a triple"),
        (_, 11 | 12, 3) => format!("{result} with a triple of the mirror"),
        (_, 11 | 12, 4) => format!("{result} with the set"),
        _ => result.to_string(),
    }
}

pub fn add(book: &mut Book) {
    let mut wanted: BTreeMap<(&str, u8, u64), usize> = outcomes().into_iter().map(|outcome| (outcome, EACH)).collect();
    for name in CALLS {
        for seed in 0..6_000 {
            let mut random = Random::new(1_000_000 + seed);
            let (call, workspace, answer) = drawn(&mut random, name);
            let must = expected(&call, workspace, answer, &mut Most::default());
            let value = call.told_apart(must.result, must.values);
            let size: usize = call.images().iter().map(|(_, image)| image.len()).sum::<usize>() + must.written.len();
            let Some(left) = wanted.get_mut(&(name, must.result, value)).filter(|left| **left > 0 && 3 * size <= LONGEST) else {
                continue;
            };
            *left -= 1;
            let what = format!("{}, drawn with seed {seed}", told(name, must.result, value));
            book.add(section(name), &what, call, workspace, answer);
        }
    }
}
