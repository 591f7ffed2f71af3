//! Import of the firmware held against the second implementation: every short text, and the texts of random patterns.
use harness::guarded::call;
use harness::judge::judge;
use second::call::Call;
use second::expected::expected;
use second::image::table_image;
use second::notation::{text, DEEPEST};
use second::patterns::{deep, sized, tower, tree};
use second::random::Random;
use second::reversing::Most;
use second::tables::braid;
use std::collections::BTreeMap;

/// Imports a text under the braid table of n moves into an area of so many bytes, and gives the result.
fn held(n: u8, text: Vec<u8>, area: usize) -> u8 {
    let made = Call::Import { table: table_image(&braid(n)), text };
    let out = vec![0x77; area];
    let must = expected(&made, 0, area, &mut Most::default());
    let left = call(&made, &[], &out).unwrap_or_else(|what| panic!("{what}: {made:?}"));
    judge(&made, &must, &[], &out, &left).unwrap_or_else(|what| panic!("{what}: {made:?}"));
    left.result
}

#[test]
fn every_short_text() {
    let mut texts = vec![Vec::new()];
    let mut results: BTreeMap<u8, usize> = BTreeMap::new();
    let mut tried = 0;
    for length in 0..=5 {
        for text in &texts {
            // One move, so that 2 is a number too high, and three; areas that suffice for few moves, and for none.
            for (n, area) in [(1, 16), (3, 16), (3, 0)] {
                *results.entry(held(n, text.clone(), area)).or_default() += 1;
            }
            tried += 1;
        }
        if length < 5 {
            texts = texts.iter().flat_map(|text| b" -()^012".iter().map(|byte| [text.as_slice(), &[*byte]].concat())).collect();
        }
    }
    assert_eq!(tried, 37_449);
    assert_eq!(results.keys().copied().collect::<Vec<u8>>(), [0, 5, 13, 19]);
}

#[test]
fn every_byte() {
    for byte in 0..=255 {
        held(3, vec![byte], 2);
        for other in 0..=255 {
            held(3, vec![byte, other], 2);
            held(3, vec![b'1', byte, other], 2);
            held(3, vec![b'(', byte, other, b')'], 2);
        }
    }
}

/// Numbers and counts of one to three digits.
#[test]
fn every_number() {
    for k in 0..=999 {
        for digits in [format!("{k}"), format!("{k:02}"), format!("{k:03}")] {
            for n in [1, 9, 10, 16] {
                held(n, digits.clone().into_bytes(), 99);
            }
            held(3, format!("1^{digits}").into_bytes(), 99);
            held(3, format!("(1 -2)^{digits}").into_bytes(), 99);
        }
    }
}

#[test]
fn texts_of_patterns() {
    let mut random = Random::new(4);
    let mut results: BTreeMap<u8, usize> = BTreeMap::new();
    for _ in 0..5_000 {
        let (n, levels) = (random.between(1, 16) as u8, random.between(0, DEEPEST));
        let moves = random.pick(&[10, 500, 4_095, 4_096]);
        let numbers = if random.once_in(8) { 99 } else { n };
        for pattern in
            [tree(&mut random, numbers, levels, 4), deep(&mut random, numbers, levels + 1), sized(&mut random, numbers, moves, levels)]
        {
            let area = random.pick(&[10, 500, 4_095]);
            *results.entry(held(n, text(&pattern), area)).or_default() += 1;
        }
    }
    assert_eq!(results.keys().copied().collect::<Vec<u8>>(), [0, 5, 13, 19, 20]);
    for items in [0, 1, 20, 21, 22, 1_024] {
        for count in [0, 1, 64, 99] {
            held(3, text(&tower(1, items, count)), 4_095);
        }
    }
}
