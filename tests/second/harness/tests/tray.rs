//! Tray of the firmware: the cases of specification 10, each log against the firmware's own compare, faulty logs of every kind in every place, trays cut at
//! every byte, numbers and lengths at their limits, and which of several faults is told. Every call is also held against the second implementation.
use harness::firmware;
use harness::guarded::{call, Left};
use harness::judge::judge;
use second::call::Call;
use second::expected::expected;
use second::image::{program_image, read_program, table_image};
use second::outcome::Refusal;
use second::random::Random;
use second::reversing::Most;
use second::table::Table;
use second::tables::{braid, clearing, doubled, forward_word, walk};
use second::tray::{images, laid};

const B: [u8; 8] = [0x20, 0x04, 0x90, 0x86, 0x30, 0x92, 0x92, 0x60];
const S: [u8; 1] = [0x00];
const O: [u8; 2] = [0x10, 0x00];
const K: [u8; 7] = [0x20, 0x04, 0x51, 0x23, 0x09, 0x10, 0x40];
const U: [u8; 3] = [0x10, 0x25, 0x0C];

fn bytes(hexadecimal: &str) -> Vec<u8> {
    hexadecimal.split_whitespace().map(|byte| u8::from_str_radix(byte, 16).unwrap()).collect()
}

/// Calls the firmware in areas of such lengths and holds it against the second implementation.
fn held(table: &[u8], tray: &[u8], pattern: &[u8], allowance: u16, workspace: usize, area: usize) -> Left {
    let made = Call::Tray { table: table.to_vec(), tray: tray.to_vec(), pattern: pattern.to_vec(), allowance };
    let (work, out) = (vec![0x5A; workspace], vec![0x77; area]);
    let must = expected(&made, workspace, area, &mut Most::default());
    let left = call(&made, &work, &out).unwrap_or_else(|what| panic!("{what}: {made:02x?}"));
    judge(&made, &must, &work, &out, &left).unwrap_or_else(|what| panic!("{what}: {made:02x?}"));
    left
}

/// An answer for each log, told as 3 bytes each; the rest of the area and the workspace are looked at here, too.
fn answered(left: &Left, must: &[u8]) {
    assert_eq!((left.result, left.values), (0, [must.len() as u64 / 3, 0, 0, 0]));
    assert_eq!(left.answer[..must.len()], *must);
    assert!(left.answer[must.len()..].iter().all(|byte| *byte == 0x77));
    assert!(left.workspace.iter().all(|byte| *byte == 0));
}

/// A refusal: result, values, whether the workspace is as found; the answer area is.
fn refused(left: &Left, result: u8, values: [u64; 4], found: bool) {
    assert_eq!((left.result, left.values), (result, values));
    assert!(left.answer.iter().all(|byte| *byte == 0x77));
    assert!(left.workspace.iter().all(|byte| *byte == if found { 0x5A } else { 0 }));
}

const AREA: usize = 32_768;
const WIDE: u16 = 65_535;

/// The three bytes that the firmware's compare of a log with the pattern comes to.
fn compared(table: &[u8], log: &[u8], pattern: &[u8], allowance: u16, workspace: usize) -> [u8; 3] {
    match firmware::compare(table, log, pattern, allowance, &mut vec![0x5A; workspace]) {
        (0, [verdict, steps, 0, 0]) => [verdict as u8, (steps >> 8) as u8, steps as u8],
        (result @ (4..=7 | 11 | 12), [0, 0, 0, 0]) => [result, 0, 0],
        other => panic!("compare gives {other:?}"),
    }
}

#[test]
fn cases_of_the_specification() {
    let pattern = bytes("00 32 08");
    let two = bytes("02 00 03 00 30 40 00 03 00 30 08");
    answered(&held(&B, &two, &pattern, WIDE, AREA, 6), &bytes("00 00 05 01 00 06"));
    answered(&held(&B, &two, &pattern, WIDE, AREA, AREA), &bytes("00 00 05 01 00 06"));
    refused(&held(&B, &two, &pattern, WIDE, AREA, 5), 13, [0; 4], false);
    answered(&held(&B, &[0], &pattern, WIDE, AREA, 0), &[]);
    refused(&held(&K, &[0], &pattern, WIDE, AREA, 0), 9, [2, 1, 2, 3], false);
    refused(&held(&U, &[0], &[0, 0], WIDE, AREA, 0), 8, [1, 1, 2, 0], true);
    for tray in ["", "02 00 03 00 30 40", "01", "01 00", "01 00 04 00 30 40", "00 00", "01 00 03 00 30 40 00", "40"] {
        refused(&held(&[], &bytes(tray), &pattern, WIDE, AREA, AREA), 24, [0; 4], true);
    }
    for tray in ["41", "FF 00"] {
        refused(&held(&[], &bytes(tray), &pattern, WIDE, AREA, AREA), 23, [0; 4], true);
    }
    answered(&held(&B, &laid(&vec![pattern.clone(); 64]), &pattern, WIDE, AREA, 192), &bytes("00 00 03").repeat(64));
    refused(&held(&B, &laid(&vec![pattern.clone(); 65]), &pattern, WIDE, AREA, AREA), 23, [0; 4], true);
    let faulty = bytes("06 00 03 00 30 40 00 00 00 02 00 36 00 03 00 30 41 00 02 00 18 00 03 00 32 08");
    answered(&held(&B, &faulty, &pattern, WIDE, AREA, AREA), &bytes("00 00 05 04 00 00 05 00 00 06 00 00 07 00 00 00 00 03"));
    let stops = bytes("04 00 03 00 42 0A 00 03 00 40 42 00 03 00 40 0A 00 02 00 10");
    answered(&held(&B, &stops, &bytes("00 42 0A"), 5, 11, AREA), &bytes("00 00 04 0B 00 00 0C 00 00 01 00 00"));
    let one = bytes("01 00 03 00 30 40");
    refused(&held(&B, &one, &bytes("00 18"), WIDE, AREA, AREA), 7, [0; 4], true);
    refused(&held(&B, &one, &[], WIDE, AREA, AREA), 4, [0; 4], true);
    refused(&held(&B, &one, &pattern, 4, AREA, 0), 11, [2, 1, 2, 3], false);
    refused(&held(&B, &one, &pattern, WIDE, 10, 0), 12, [2, 1, 2, 3], false);
    let long = [vec![0x10], vec![0; 33]].concat();
    answered(&held(&S, &[bytes("01 00 22"), long.clone()].concat(), &long, WIDE, AREA, AREA), &[0, 1, 0]);
    answered(&held(&S, &[bytes("01 FF FF"), vec![0; 65_535]].concat(), &long, WIDE, AREA, AREA), &[6, 0, 0]);
    answered(&held(&O, &bytes("02 00 02 00 14 00 02 00 10"), &bytes("00 10"), 1, 2, AREA), &bytes("01 00 00 00 00 01"));
}

/// Trays of random logs at random limits: whatever is answered, is what the firmware says of each log alone.
#[test]
fn each_log_as_compare_says() {
    let mut random = Random::new(14);
    let (mut met, mut answers) = ([0; 13], 0);
    for _ in 0..3_000 {
        let table = clearing(&mut random);
        let (length, count) = (random.pick(&[0, 1, 2, 4, 8, 15]), random.between(0, 9));
        let pattern = forward_word(&mut random, table.moves, length);
        let logs: Vec<Vec<u8>> = (0..count)
            .map(|_| {
                let swaps = random.below(8);
                let (_, mut word) = walk(&mut random, &table, &pattern, swaps);
                if random.once_in(3) && !word.is_empty() {
                    let at = random.below(word.len());
                    word[at] = random.between(1, table.moves.into()) as i8 * random.pick(&[1, 1, -1]);
                }
                let mut image = program_image(table.moves, &word);
                match random.below(12) {
                    0 => image.truncate(random.below(image.len())),
                    1 => image.push(0),
                    2 => image[1] ^= 1 << random.below(8),
                    _ => {}
                }
                image
            })
            .collect();
        let (image, pattern) = (table_image(&table), program_image(table.moves, &pattern));
        let (allowance, workspace) = (random.pick(&[5, 10, 20, 60, 65_535]), random.pick(&[12, 20, 40, 100, 1_000]));
        let area = 3 * count + random.below(4);
        let left = held(&image, &laid(&logs), &pattern, allowance, workspace, area);
        if left.result == 0 {
            answers += 1;
            let must: Vec<u8> = logs.iter().flat_map(|log| compared(&image, log, &pattern, allowance, workspace)).collect();
            answered(&left, &must);
            must.chunks(3).for_each(|three| met[usize::from(three[0])] += 1);
        }
    }
    assert!(answers > 1_000, "{answers}");
    for kind in [0, 1, 4, 5, 6, 7, 11, 12] {
        assert!(met[kind] > 20, "{kind}: {met:?}");
    }
}

/// Under the braid table of 3 moves, at an allowance of 5 and 11 bytes, against 2 1 2 3: a log for each first byte of an answer, and its answer.
fn kinds() -> Vec<(Vec<u8>, [u8; 3])> {
    let word = |word: &[i8]| program_image(3, word);
    vec![
        (word(&[2, 1, 2, 3]), [0, 0, 4]),
        (word(&[2, 1, 3, 2]), [1, 0, 5]),
        (word(&[1]), [1, 0, 0]),
        (vec![], [4, 0, 0]),
        (bytes("00 42"), [4, 0, 0]),
        (bytes("00 36"), [5, 0, 0]),
        (bytes("00 42 0A 00"), [6, 0, 0]),
        (bytes("00 11"), [6, 0, 0]),
        (word(&[2, 1, 2, -3]), [7, 0, 0]),
        (word(&[-1]), [7, 0, 0]),
        (word(&[1, 2, 1, 3]), [11, 0, 0]),
        (word(&[1, 1, 2, 3]), [12, 0, 0]),
    ]
}

/// Every three of them in every order: each has its own answer, whatever stands beside it.
#[test]
fn no_log_affects_another() {
    let (kinds, pattern) = (kinds(), bytes("00 42 0A"));
    for one in &kinds {
        assert_eq!(compared(&B, &one.0, &pattern, 5, 11), one.1);
        for two in &kinds {
            for three in &kinds {
                let logs = [one.0.clone(), two.0.clone(), three.0.clone()];
                answered(&held(&B, &laid(&logs), &pattern, 5, 11, 12), &[one.1, two.1, three.1].concat());
            }
        }
    }
    // All of them, many times over, from every one on.
    for from in 0..kinds.len() {
        let chosen: Vec<_> = (0..64).map(|k| &kinds[(from + k * 5) % kinds.len()]).collect();
        let logs: Vec<Vec<u8>> = chosen.iter().map(|(log, _)| log.clone()).collect();
        let must: Vec<u8> = chosen.iter().flat_map(|(_, three)| *three).collect();
        answered(&held(&B, &laid(&logs), &pattern, 5, 11, 200), &must);
    }
}

/// A tray with logs of every kind is 24 where it is cut at any byte, and where bytes follow it, under a sound table and under none.
#[test]
fn cut_at_every_byte() {
    let logs: Vec<Vec<u8>> = kinds().into_iter().map(|(log, _)| log).collect();
    let (pattern, tray) = (bytes("00 42 0A"), laid(&logs));
    assert_eq!(images(&tray), Ok(logs.iter().map(Vec::as_slice).collect()));
    for length in 0..tray.len() {
        for (table, area) in [(&B[..], AREA), (&B, 0), (&[], 0)] {
            refused(&held(table, &tray[..length], &pattern, 5, 11, area), 24, [0; 4], true);
        }
        assert_eq!(images(&tray[..length]), Err(Refusal::plain(24)));
    }
    for behind in [vec![0], vec![1], vec![255], vec![0; 2], bytes("00 03 00 42 0A"), vec![0; 3_000]] {
        let longer = [tray.clone(), behind].concat();
        for (table, area) in [(&B[..], AREA), (&B, 0), (&[], 0)] {
            refused(&held(table, &longer, &pattern, 5, 11, area), 24, [0; 4], true);
        }
    }
    // One log less in the number leaves bytes, one more wants some; an empty log is two bytes.
    for count in 0..=255 {
        let mut other = tray.clone();
        other[0] = count;
        let left = held(&B, &other, &pattern, 5, 11, AREA);
        let result = if usize::from(count) == logs.len() { 0 } else { 24 - u8::from(count > 64) };
        assert_eq!(left.result, result, "{count} logs");
        refused(&held(&[], &[count], &pattern, 5, 11, 0), [24, 23, 1][usize::from(count > 64) + 2 * usize::from(count == 0)], [0; 4], true);
    }
    let empty = laid(&vec![Vec::new(); 64]);
    assert_eq!(empty.len(), 129);
    answered(&held(&B, &empty, &pattern, 5, 11, 192), &[4, 0, 0].repeat(64));
}

/// As many logs as there may be, and one more; areas of every length.
#[test]
fn numbers_of_logs_and_areas() {
    let pattern = bytes("00 42 0A");
    for count in [0, 1, 2, 3, 63, 64] {
        let tray = laid(&vec![pattern.clone(); count]);
        for area in 0..=3 * count + 4 {
            let left = held(&B, &tray, &pattern, 5, 11, area);
            if area < 3 * count {
                refused(&left, 13, [0; 4], false);
            } else {
                answered(&left, &[0, 0, 4].repeat(count));
            }
        }
    }
    for count in [65, 66, 127, 128, 255] {
        refused(&held(&B, &laid(&vec![pattern.clone(); count]), &pattern, 5, 11, AREA), 23, [0; 4], true);
    }
}

/// Logs of many lengths, in one tray: their images are read from their own bytes and end where they do.
#[test]
fn lengths_of_logs() {
    let (table, pattern) = (table_image(&braid(3)), vec![0x00, 0x00]);
    let zeros = |length: usize| vec![0; length];
    for length in [0, 1, 2, 3, 255, 256, 257, 511, 512, 2_561, 2_562, 32_767, 32_768, 65_280, 65_534, 65_535] {
        // No move, and all bytes behind the second one are a tail.
        let alone = match length {
            0 | 1 => [4, 0, 0],
            2 => [0, 0, 0],
            _ => [6, 0, 0],
        };
        let tray = laid(&[zeros(length), pattern.clone(), zeros(length)]);
        assert_eq!(tray[1..3], [(length / 256) as u8, (length % 256) as u8]);
        answered(&held(&table, &tray, &pattern, WIDE, 100, 9), &[alone, [0; 3], alone].concat());
        for wrong in [&tray[..tray.len() - 1], &[&tray[..], &[0]].concat()] {
            refused(&held(&table, wrong, &pattern, WIDE, 100, 9), 24, [0; 4], true);
        }
    }
    // Sound images of more than 255 bytes: 4,095 moves under 16 have the longest, 2,561 bytes.
    for (moves, length) in [(3, 700), (3, 4_095), (16, 4_095)] {
        let (table, word) = (braid(moves), vec![1; length]);
        let (image, short) = (program_image(moves, &word), program_image(moves, &word[1..]));
        assert!(image.len() > 255);
        assert_eq!(read_program(&image, moves), Ok(word));
        let steps = (length as u16).to_be_bytes();
        let tray = laid(&[image.clone(), short, image.clone()]);
        let same = [0, steps[0], steps[1]];
        answered(&held(&table_image(&table), &tray, &image, WIDE, AREA, 9), &[same, [1, 0, 0], same].concat());
    }
    let mut largest = vec![64];
    for _ in 0..64 {
        largest.extend([vec![0xFF; 2], zeros(65_535)].concat());
    }
    assert_eq!(largest.len(), 4_194_369);
    answered(&held(&table, &largest, &pattern, WIDE, 100, 192), &[6, 0, 0].repeat(64));
}

/// k times 1 then k times 2 against k times 2 then k times 1, where they commute: k * k + 2 * k steps. Each log has the whole allowance.
#[test]
fn steps_in_two_bytes() {
    let table = Table::light(2, vec![Some((vec![2], vec![1]))]);
    for (k, steps) in [(1, 3_u16), (14, 224), (15, 255), (16, 288), (254, 65_024), (255, 65_535)] {
        let [log, pattern] = [[1, 2], [2, 1]].map(|[a, b]| program_image(2, &[vec![a; k], vec![b; k]].concat()));
        let [high, low] = steps.to_be_bytes();
        let [few, many] = (2 * k as u16).to_be_bytes();
        let tray = laid(&[log.clone(), pattern.clone(), log]);
        let image = table_image(&table);
        answered(&held(&image, &tray, &pattern, steps, 4 * k, 9), &[0, high, low, 0, few, many, 0, high, low]);
        answered(&held(&image, &tray, &pattern, steps - 1, 4 * k, 9), &[11, 0, 0, 0, few, many, 11, 0, 0]);
        answered(&held(&image, &tray, &pattern, steps, 4 * k - 1, 9), &[12, 0, 0].repeat(3));
    }
    // Logs that are the same as the pattern and not as long.
    let [longer, shorter] = [vec![1, 2, 1], vec![2, 2]].map(|word| program_image(2, &word));
    let tray = laid(&[longer.clone(), shorter.clone(), program_image(2, &[1, 1])]);
    answered(&held(&table_image(&doubled()), &tray, &shorter, WIDE, 9, 9), &[0, 0, 4, 0, 0, 2, 1, 0, 0]);
    answered(&held(&table_image(&doubled()), &tray, &longer, WIDE, 9, 9), &[0, 0, 3, 0, 0, 4, 1, 0, 0]);
}

/// Each test of the service fails or not, in every combination: the first that fails is told.
#[test]
fn the_first_fault_is_told() {
    let log = bytes("00 42 0A");
    for faults in 0..128_u32 {
        let [many, cut, no_table, no_pattern, not_cleared, short, faulty] = [0, 1, 2, 3, 4, 5, 6].map(|k| faults >> k & 1 == 1);
        let mut tray = laid(&vec![if faulty { vec![] } else { log.clone() }; if many { 65 } else { 3 }]);
        if cut {
            tray.pop();
        }
        let table = if no_table { &B[..7] } else { &B };
        let pattern = if no_pattern { bytes("00 42 0A 00") } else { log.clone() };
        let allowance = if not_cleared { 4 } else { 5 };
        let left = held(table, &tray, &pattern, allowance, 11, if short { 8 } else { 9 });
        match () {
            () if many => refused(&left, 23, [0; 4], true),
            () if cut => refused(&left, 24, [0; 4], true),
            () if no_table => refused(&left, 1, [0; 4], true),
            () if no_pattern => refused(&left, 6, [0; 4], true),
            () if not_cleared => refused(&left, 11, [2, 1, 2, 3], false),
            () if short => refused(&left, 13, [0; 4], false),
            () if faulty => answered(&left, &[4, 0, 0].repeat(3)),
            () => answered(&left, &[0, 0, 4].repeat(3)),
        }
    }
}
