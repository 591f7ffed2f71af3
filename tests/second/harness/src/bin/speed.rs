//! The firmware's time beside that of the same gap algorithm in Rust, and beside the library before where one is linked, all in this process, turn by turn.
//!
//!     speed [--milliseconds M] [--steps S] [--words W] [--row TEXT]
//!
//! M is how long each side of a measure runs, in slices; the time shown is that of the fastest slice, which other work on the machine
//! disturbs least. The words of one length that are run in turn have S steps together, 100,000 without the flag: the last word's allowance
//! is what is left of them. W is the most words of one length. With TEXT only the rows are measured whose names have it. Every measure first looks that all
//! sides give the same result. Each row says its target and whether it is met; a missed one is no failure of the measure, different results are.

// Cargo knows no flag of this name. tests/speed.sh sets it for this program alone, with the archive that it then needs.
#![allow(unexpected_cfgs)]
use harness::firmware::{self, Told};
use harness::library::{Library, FIRMWARE, RUST};
use harness::measures::{Areas, Call, Measures, Times, AREA};
use second::image::{program_image, table_image};
use second::plain::plain_table;
use second::random::Random;
use second::reversing::{self, Ending, Limits, Most};
use second::table::Table;
use second::tables::{braid, forward_word, walk};
use second::tray::{laid, MOST_LOGS};
use second::word::{bytes, undoing, Word};
use std::hint::black_box;
use std::process::ExitCode;
use std::time::Instant;

#[cfg(before)]
#[path = "speed/before.rs"]
mod before;

/// The firmware's time may be that many times the time in Rust, in every row of these calls.
const BESIDE_RUST: f64 = 1.1;
const HELD_TO_RUST: [&str; 4] = ["reverse", "compare", "pack", "unpack"];
/// The firmware's time may be that many times the time of the library before, in these rows.
const BESIDE_BEFORE: [(&str, f64); 2] = [(EQUAL, 0.6), (CLEAR, 0.7)];
const EQUAL: &str = "compare, equal programs of 4,000 moves: the call";
const CLEAR: &str = "clear the braid table of 16 moves: the call";
/// The moves of the words that reverse and compare are measured on step by step.
const LENGTHS: [usize; 3] = [50, 500, 4_000];
/// A listing in an area of 32,768 bytes, and one that does not fit there, may take that many milliseconds.
const LISTING: f64 = 500.0;
/// A tray of 64 equal logs may take that many times the time of 64 single compares of that log.
const TRAY: f64 = 0.2;
/// A step's cost at 4,000 moves may be that many times the cost at 50.
const FLAT: f64 = 1.3;

/// A target and whether it is met. A time below nothing meets none.
fn verdict(found: f64, most: f64) -> String {
    let met = found > 0.0 && found <= most;
    format!("{most}: {}", if met { "met" } else { "MISSED" })
}

/// Prints a target and whether it is met.
fn target(what: &str, found: f64, most: f64) {
    println!("{what}: {found:.3}, target {}", verdict(found, most));
}

struct Row {
    name: String,
    times: Times,
}

impl Row {
    /// The call that the row is of: its first word.
    fn call(&self) -> &str {
        self.name.split([' ', ',']).next().unwrap_or_default()
    }

    fn ratio(&self) -> f64 {
        self.times.firmware() / self.times.rust()
    }

    fn line(name: &str, firmware: f64, other: f64, most: Option<f64>) {
        let said = most.map_or("none".to_string(), |most| verdict(firmware / other, most));
        println!("| {name} | {firmware:.1} | {other:.1} | {:.3} | {said} |", firmware / other);
    }

    fn show(&self) {
        let most = HELD_TO_RUST.contains(&self.call()).then_some(BESIDE_RUST);
        Row::line(&self.name, self.times.firmware(), self.times.rust(), most);
    }

    fn show_before(&self, before: f64) {
        let most = BESIDE_BEFORE.iter().find(|(name, _)| *name == self.name).map(|(_, most)| *most);
        Row::line(&format!("{}, beside the library before", self.name), self.times.firmware(), before, most);
    }
}

struct Speed {
    measures: Measures,
    steps: u64,
    words: usize,
    /// What the name of a row must have to be measured.
    row: String,
    rows: Vec<Row>,
}

impl Speed {
    fn wanted(&self, name: &str) -> bool {
        name.contains(&self.row)
    }

    fn add(&mut self, name: String, times: Times) {
        let row = Row { name, times };
        row.show();
        self.rows.push(row);
    }

    /// Measures a call of one case.
    fn call(&mut self, name: &str, call: Call) {
        if self.wanted(name) {
            let times = self.measures.call(name, call);
            self.add(name.to_string(), times);
        }
    }

    /// The time of a step of the firmware in the row of this name.
    fn step(&self, name: &str) -> Option<f64> {
        self.rows.iter().find(|row| row.name == name).map(|row| row.times.firmware())
    }
}

/// Images, and the allowance that their call gets.
struct Case<T> {
    images: T,
    allowance: u16,
}

/// The cases that are run in turn. `steps` are those of all together, and `fixed` is the allowance under which the fixed part of a call is
/// measured: a call with it reads the same images and begins the same reversing.
struct Cases<T> {
    cases: Vec<Case<T>>,
    steps: u64,
    fixed: u16,
}

impl<T> Cases<T> {
    /// As many as have the measure's steps together, unless fewer words are asked for. `steps` are those of one case, unless its allowance
    /// is used up.
    fn new(speed: &mut Speed, fixed: u16, mut images: impl FnMut() -> T, steps: impl Fn(&mut Areas, &T, u16) -> Option<u64>) -> Cases<T> {
        let mut all = Cases { cases: Vec::new(), steps: 0, fixed };
        while all.steps + u64::from(fixed) < speed.steps && all.cases.len() < speed.words {
            let allowance = (speed.steps - all.steps).min(65_535) as u16;
            let images = images();
            all.steps += steps(&mut speed.measures.areas, &images, allowance).unwrap_or(allowance.into());
            all.cases.push(Case { images, allowance });
        }
        all
    }

    /// Measures a call, and a step: what a call costs beyond its fixed part.
    fn measure(&self, speed: &mut Speed, name: &str, call: impl Fn(&Library, &mut Areas, &T, u16) -> Told) {
        let of = |most: u16| {
            let call = &call;
            move |library: &Library, areas: &mut Areas, at: usize| {
                let case = &self.cases[at];
                call(library, areas, &case.images, case.allowance.min(most))
            }
        };
        let [whole, fixed] = speed.measures.calls(name, self.cases.len(), [&of(65_535), &of(self.fixed)]);
        let each = self.steps as f64 / self.cases.len() as f64;
        let step = whole.beyond(&fixed, each - f64::from(self.fixed));
        speed.add(format!("{name}, {each:.0} steps: the call"), whole);
        speed.add(format!("{name}: a step"), step);
    }
}

/// Reverse of words of that many moves, half of them back.
fn reverse(speed: &mut Speed, length: usize) {
    let name = format!("reverse, {length} moves");
    if !speed.wanted(&name) {
        return;
    }
    let mut random = Random::new(length as u64);
    let image = table_image(&braid(4));
    let program = || {
        let (u, v) = (forward_word(&mut random, 4, length / 2), forward_word(&mut random, 4, length / 2));
        program_image(4, &[undoing(&u), v].concat())
    };
    let cases = Cases::new(speed, 0, program, |areas, program, allowance| {
        let (result, values) = firmware::reverse(&image, program, allowance, &mut areas.workspace, &mut areas.answer);
        (result == 0).then_some(values[2])
    });
    cases.measure(speed, &name, |library, areas, program, allowance| {
        (library.reverse)(&image, program, allowance, &mut areas.workspace, &mut areas.answer)
    });
}

/// The least allowance that clears a table.
fn least_clearing(areas: &mut Areas, image: &[u8]) -> u16 {
    (0..=65_535).find(|&allowance| firmware::clear(image, allowance, &mut areas.workspace).0 == 0).expect("a table that clears")
}

/// Two joined words of that many moves, with as many steps between them as such words have: u (u\v) w and v (v\u) w.
fn joined(random: &mut Random, table: &Table, length: usize) -> [Word; 2] {
    let limits = Limits { allowance: 60_000, workspace: AREA };
    let mut longest = [Word::new(), Word::new()];
    for k in 1.. {
        let (u, v) = (forward_word(random, table.moves, k), forward_word(random, table.moves, k));
        let start = [undoing(&u), v.clone()].concat();
        let Ending::Finished { numerator, denominator, .. } = reversing::reverse(table, start, 0, limits, &mut Most::default()) else {
            break;
        };
        if u.len() + numerator.len() > length {
            break;
        }
        longest = [[u, numerator].concat(), [v, denominator].concat()];
    }
    let tail = forward_word(random, table.moves, length - longest[0].len());
    longest.map(|word| [word, tail.clone()].concat())
}

/// Compare of joined programs of that many moves.
fn compare(speed: &mut Speed, length: usize) {
    let name = format!("compare, {length} moves each");
    if !speed.wanted(&name) {
        return;
    }
    let mut random = Random::new(length as u64);
    let table = braid(4);
    let image = table_image(&table);
    let programs = || joined(&mut random, &table, length).map(|word| program_image(4, &word));
    let least = least_clearing(&mut speed.measures.areas, &image);
    let cases = Cases::new(speed, least, programs, |areas, [first, second], allowance| {
        let (result, values) = firmware::compare(&image, first, second, allowance, &mut areas.workspace);
        (result == 0).then_some(values[1])
    });
    cases.measure(speed, &name, |library, areas, [first, second], allowance| {
        (library.compare)(&image, first, second, allowance, &mut areas.workspace)
    });
}

/// The word that stands so many swaps from another.
fn swapped(random: &mut Random, table: &Table, word: &[i8], swaps: usize) -> Word {
    let (entries, end) = walk(random, table, word, swaps);
    assert_eq!(entries.len(), swaps, "a word with too few swaps");
    end
}

/// Compare of a log with a pattern that is equal to it or nearly so, under the braid table of 3 moves: the commonest call.
fn compare_near(speed: &mut Speed) {
    let (mut random, table) = (Random::new(3), braid(3));
    let image = table_image(&table);
    let pattern = forward_word(&mut random, 3, 4_000);
    let near = swapped(&mut random, &table, &pattern, 20);
    let second = program_image(3, &pattern);
    for (name, log) in [(EQUAL, &pattern), ("compare, programs of 4,000 moves with 20 swaps between them: the call", &near)] {
        let first = program_image(3, log);
        speed.call(name, &|library, areas, _| (library.compare)(&image, &first, &second, 65_535, &mut areas.workspace));
    }
}

/// A tray under the braid table of 3 moves. Every second log is equal to the pattern, and each of the others stands 20 swaps of its own from it.
fn tray(speed: &mut Speed) {
    let (mut random, table) = (Random::new(64), braid(3));
    let image = table_image(&table);
    let word = forward_word(&mut random, 3, 400);
    let logs: Vec<Vec<u8>> = (0..MOST_LOGS).map(|log| program_image(3, &swapped(&mut random, &table, &word, log % 2 * 20))).collect();
    let (tray, pattern) = (laid(&logs), program_image(3, &word));
    speed.call("tray of 64 logs of 400 moves: the call", &|library, areas, _| {
        (library.tray)(&image, &tray, &pattern, 65_535, &mut areas.workspace, &mut areas.answer)
    });
}

fn clear(speed: &mut Speed) {
    let image = table_image(&braid(16));
    speed.call(CLEAR, &|library, areas, _| (library.clear)(&image, 65_535, &mut areas.workspace));
}

fn packing(speed: &mut Speed) {
    let table = braid(16);
    let (image, plain) = (table_image(&table), plain_table(&table));
    speed.call("pack the braid table of 16 moves: the call", &|library, areas, _| (library.pack_table)(&plain, &mut areas.answer));
    speed.call("unpack the braid table of 16 moves: the call", &|library, areas, _| (library.unpack_table)(&image, &mut areas.answer));
    let word = forward_word(&mut Random::new(1), 16, 4_000);
    let (program, moves) = (program_image(16, &word), bytes(&word));
    speed.call("pack a program of 4,000 moves under it: the call", &|library, areas, _| {
        (library.pack_program)(&image, &moves, &mut areas.answer)
    });
    speed.call("unpack a program of 4,000 moves under it: the call", &|library, areas, _| {
        (library.unpack_program)(&image, &program, &mut areas.answer)
    });
}

/// The worst row of each call beside Rust; of reverse and compare also how many steps a second, and whether their cost grows with the length.
fn close(speed: &Speed) {
    for call in HELD_TO_RUST {
        let rows: Vec<&Row> = speed.rows.iter().filter(|row| row.call() == call).collect();
        let Some(slowest) = rows.iter().map(|row| row.ratio()).max_by(f64::total_cmp) else {
            continue;
        };
        target(&format!("{call}, the firmware's time beside Rust's, at most"), slowest, BESIDE_RUST);
        for row in rows.iter().filter(|row| !row.times.measured()) {
            println!("{}: a call took less time than its fixed part; run longer, by --milliseconds", row.name);
        }
        let steps = rows.iter().filter(|row| row.name.ends_with(": a step")).map(|row| 1_000.0 / row.times.firmware());
        if let Some(rate) = steps.min_by(f64::total_cmp) {
            println!("{call}: at least {rate:.0} million steps a second");
        }
    }
    for (call, short, long) in [
        ("reverse", "reverse, 50 moves: a step", "reverse, 4000 moves: a step"),
        ("compare", "compare, 50 moves each: a step", "compare, 4000 moves each: a step"),
    ] {
        if let (Some(short), Some(long)) = (speed.step(short), speed.step(long)) {
            target(&format!("{call}, a step at 4,000 moves beside one at 50"), long / short, FLAT);
        }
    }
}

/// All rows beside the library before, where one is linked.
fn beside_before(speed: &Speed) {
    if speed.rows.iter().all(|row| row.times.before().is_none()) {
        return;
    }
    println!("\n| measure | firmware, ns | before, ns | ratio | target |\n|---|---|---|---|---|");
    for row in &speed.rows {
        row.times.before().into_iter().for_each(|before| row.show_before(before));
    }
}

/// The middle of three times of a call of ways, in milliseconds, under four moves that all commute; what it told must be as said.
fn listing(areas: &mut Areas, program: &[i8], told: Told) -> f64 {
    let commuting = Table::from_pairs(4, |a, b| Some((vec![b as i8], vec![a as i8])));
    let (table, program) = (table_image(&commuting), program_image(4, program));
    let mut times = [0; 3].map(|_: u8| {
        let begun = Instant::now();
        let got = firmware::ways(&table, &program, &mut areas.answer);
        let time = begun.elapsed();
        assert_eq!(got, told);
        time.as_secs_f64() * 1_000.0
    });
    times.sort_by(f64::total_cmp);
    times[1]
}

/// Every way to lay 1 1 2 2 3 3 4 4, and one move more, which is too long for the area.
fn ways(areas: &mut Areas) {
    let whole = listing(areas, &[1, 1, 2, 2, 3, 3, 4, 4], (0, [2_520, 22_680, 0, 0]));
    let refused = listing(areas, &[1, 1, 2, 2, 3, 3, 4, 4, 4], (13, [0; 4]));
    target("ways, 2,520 words in 22,680 bytes, milliseconds", whole, LISTING);
    target("ways, refused with 13 in 32,768 bytes, milliseconds", refused, LISTING);
}

type Side<'a> = &'a dyn Fn(&mut Areas) -> Told;

/// The times of a tray of 64 times this log, and of 64 single compares of it with the pattern, both by the firmware, in milliseconds. The two take turns, three
/// turns of 20 rounds each, and the middle one counts. Each call reads its images and wipes the workspace of 32,768 bytes; that the tray says of each
/// log what compare does is looked at before.
fn tray_beside_compares(areas: &mut Areas, table: &Table, log: &[i8], pattern: &[i8]) -> [f64; 2] {
    let (image, moves) = (table_image(table), pattern.len());
    let [log, pattern] = [log, pattern].map(|word| program_image(table.moves, word));
    let tray = laid(&vec![log.clone(); MOST_LOGS]);
    let whole = |areas: &mut Areas| firmware::tray(&image, &tray, &pattern, 65_535, &mut areas.workspace, &mut areas.answer);
    let single = |areas: &mut Areas| firmware::compare(&image, &log, &pattern, 65_535, &mut areas.workspace);
    let (told, (result, [verdict, steps, ..])) = (whole(areas), single(areas));
    let [high, low] = (steps as u16).to_be_bytes();
    assert_eq!((told, result), ((0, [MOST_LOGS as u64, 0, 0, 0]), 0));
    assert!(areas.answer.starts_with(&[verdict as u8, high, low].repeat(MOST_LOGS)));
    let mut times = [[0.0; 3]; 2];
    for turn in 0..3 {
        let sides: [(Side, usize); 2] = [(&whole, 1), (&single, MOST_LOGS)];
        for (times, (call, calls)) in times.iter_mut().zip(sides) {
            let begun = Instant::now();
            for _ in 0..20 * calls {
                black_box(call(areas));
            }
            times[turn] = begun.elapsed().as_secs_f64() * 1_000.0 / 20.0;
        }
    }
    let middle = times.map(|mut times| {
        times.sort_by(f64::total_cmp);
        times[1]
    });
    println!("tray, {moves} moves, {steps} steps a log: {:.3} milliseconds, 64 compares {:.3}", middle[0], middle[1]);
    middle
}

/// 64 equal logs of 100 moves under the braid table of 15, beside as many single compares. Two logs, both the same as the pattern: one after 100 random swaps,
/// as of a machine that lays the pattern in another order, with few steps more than moves; and one with as many steps between as joined words of that length
/// have, the dearest for the tray, since it saves the clearing alone.
fn equal_tray(areas: &mut Areas) {
    let (mut random, table) = (Random::new(15), braid(15));
    let pattern = forward_word(&mut random, table.moves, 100);
    let (_, swapped) = walk(&mut random, &table, &pattern, 100);
    let [far, other] = joined(&mut random, &table, 100);
    for (name, log, pattern) in [("after 100 swaps", &swapped, &pattern), ("far from it", &far, &other)] {
        let [tray, compares] = tray_beside_compares(areas, &table, log, pattern);
        target(&format!("tray, 64 equal logs of the pattern {name}, beside 64 compares"), tray / compares, TRAY);
    }
}

/// The libraries that are measured: the firmware, Rust, and the library before where it is linked.
fn libraries() -> Vec<Library> {
    vec![
        FIRMWARE,
        RUST,
        #[cfg(before)]
        before::BEFORE,
    ]
}

/// What the flags ask for; nothing where one of them is wrong.
fn asked() -> Option<Speed> {
    let (mut milliseconds, mut steps, mut words, mut row) = (1_000, 100_000, usize::MAX, String::new());
    let mut arguments = std::env::args().skip(1);
    while let Some(flag) = arguments.next() {
        let value = arguments.next()?;
        match (flag.as_str(), value.parse::<u64>()) {
            ("--row", _) => row = value,
            ("--milliseconds", Ok(number)) => milliseconds = number,
            ("--steps", Ok(number)) if number >= 100 => steps = number,
            ("--words", Ok(number)) if number > 0 => words = number as usize,
            _ => return None,
        }
    }
    Some(Speed { measures: Measures::new(milliseconds, libraries()), steps, words, row, rows: Vec::new() })
}

fn main() -> ExitCode {
    let Some(mut speed) = asked() else {
        eprintln!("speed [--milliseconds M] [--steps S, 100 or more] [--words W] [--row TEXT]");
        return ExitCode::from(2);
    };
    println!("| measure | firmware, ns | Rust, ns | ratio | target |\n|---|---|---|---|---|");
    LENGTHS.into_iter().for_each(|length| reverse(&mut speed, length));
    LENGTHS.into_iter().for_each(|length| compare(&mut speed, length));
    compare_near(&mut speed);
    tray(&mut speed);
    clear(&mut speed);
    packing(&mut speed);
    beside_before(&speed);
    println!();
    close(&speed);
    if speed.row.is_empty() {
        ways(&mut speed.measures.areas);
        equal_tray(&mut speed.measures.areas);
    }
    if speed.measures.differences == 0 {
        ExitCode::SUCCESS
    } else {
        ExitCode::FAILURE
    }
}
