//! The second implementation's reading of patterns (specification 6.17), held against the text's examples, against all short texts as the grammar makes
//! them, and against another test of a text, which takes brackets away from the inside.
use second::image::table_image;
use second::notation::{depth, highest, meaning, read, size, text, Body, Item, Pattern, BYTES, DEEPEST};
use second::outcome::Refusal;
use second::patterns::{bracket, damaged, deep, emptied, faulty, letter, scattered, sized, tower, tree};
use second::random::Random;
use second::services::import;
use second::tables::braid;
use second::word::undoing;
use std::collections::HashMap;

fn meant(text: &str) -> Option<Vec<i8>> {
    read(text.as_bytes()).map(|pattern| meaning(&pattern))
}

fn imported(text: &str, area: usize) -> Result<Vec<i8>, Refusal> {
    import(&table_image(&braid(3)), text.as_bytes(), area)
}

fn refused(number: u8) -> Result<Vec<i8>, Refusal> {
    Err(Refusal::plain(number))
}

#[test]
fn the_examples() {
    for text in ["", "()", "1", "-2^0", "(1 -2)^3 4", "-(1 (2)^0)"] {
        assert!(meant(text).is_some(), "{text:?}");
    }
    for text in [" 1", "1 ", "1  2", "1^", "^2", "--1", "1^2^3", "01", "0", "100", "1^00", "1^-1", "( 1)", "(1", "1)", "(1)(2)", "1-2"] {
        assert_eq!(meant(text), None, "{text:?}");
    }
    assert_eq!(meant("-(1 2)^2"), Some(vec![-2, -1, -2, -1]));
    assert_eq!(meant("1^1"), meant("1"));
    assert_eq!(meant("-1^2"), Some(vec![-1, -1]));
    assert_eq!(meant("(1 -2)^3 4"), Some(vec![1, -2, 1, -2, 1, -2, 4]));
    assert_eq!(meant("-(1 (2)^0)"), Some(vec![-1]));
    assert_eq!(meant("99^2 -(98 -97)"), Some(vec![99, 99, 97, -98]));
}

#[test]
fn other_texts_that_are_none() {
    for text in [
        "-", "(", ")", "^", "-^2", "()2", "(^2)", "( )", "(1 )", "1 ^2", "1^ 2", "- 1", "-0", "1^100", "1^01", "1\t2", "1\n", "x", "+1",
        "()()", "(-)", "1^2 ^3",
    ] {
        assert_eq!(meant(text), None, "{text:?}");
    }
    for byte in 0..=255 {
        assert_eq!(read(&[byte]).is_some(), (b'1'..=b'9').contains(&byte), "{byte}");
    }
}

/// All patterns with a text of exactly so many bytes, over the digits 0, 1 and 2: by the grammar, from the number of bytes alone.
struct Grammar {
    patterns: Vec<Vec<(String, Pattern)>>,
}

impl Grammar {
    fn up_to(most: usize) -> Grammar {
        let mut grammar = Grammar { patterns: vec![vec![(String::new(), Pattern::new())]] };
        for length in 1..=most {
            let mut found = Vec::new();
            for first in 1..=length {
                for (item_text, item) in grammar.items(first) {
                    if first == length {
                        found.push((item_text, vec![item]));
                        continue;
                    }
                    // A space, and one or more items.
                    let Some(rest) = (length - first).checked_sub(1).filter(|rest| *rest > 0) else { continue };
                    for (others_text, others) in &grammar.patterns[rest] {
                        found.push((format!("{item_text} {others_text}"), [vec![item.clone()], others.clone()].concat()));
                    }
                }
            }
            grammar.patterns.push(found);
        }
        grammar
    }

    fn items(&self, length: usize) -> Vec<(String, Item)> {
        let mut found = Vec::new();
        for minus in ["", "-"] {
            for (count_text, count) in counts() {
                let Some(left) = length.checked_sub(minus.len() + count_text.len()) else { continue };
                for (body_text, body) in self.bodies(left) {
                    found.push((format!("{minus}{body_text}{count_text}"), Item { back: minus == "-", body, count }));
                }
            }
        }
        found
    }

    fn bodies(&self, length: usize) -> Vec<(String, Body)> {
        let mut found: Vec<(String, Body)> = numbers()
            .into_iter()
            .filter(|k| *k > 0)
            .map(|k| (k.to_string(), Body::Move(k)))
            .filter(|(text, _)| text.len() == length)
            .collect();
        if let Some(inside) = length.checked_sub(2) {
            found.extend(self.patterns[inside].iter().map(|(text, pattern)| (format!("({text})"), Body::Bracket(pattern.clone()))));
        }
        found
    }
}

/// The numbers of 0 to 99 that have only the digits 0, 1 and 2.
fn numbers() -> Vec<u8> {
    (0..=99).filter(|k: &u8| k.to_string().bytes().all(|digit| digit <= b'2')).collect()
}

fn counts() -> Vec<(String, Option<u8>)> {
    let some = numbers().into_iter().map(|k| (format!("^{k}"), Some(k)));
    [(String::new(), None)].into_iter().chain(some).collect()
}

/// All texts of exactly so many of the bytes.
fn all_texts(length: usize, bytes: &[u8]) -> Vec<Vec<u8>> {
    (0..length).fold(vec![Vec::new()], |texts, _| {
        texts.iter().flat_map(|text| bytes.iter().map(|byte| [text.as_slice(), &[*byte]].concat())).collect()
    })
}

#[test]
fn every_short_text() {
    let grammar = Grammar::up_to(6);
    let mut tried = 0;
    for (length, made) in grammar.patterns.iter().enumerate() {
        let by_text: HashMap<&[u8], &Pattern> = made.iter().map(|(text, pattern)| (text.as_bytes(), pattern)).collect();
        assert_eq!(by_text.len(), made.len(), "a text of {length} bytes is that of two patterns");
        for given in all_texts(length, b" -()^012") {
            let found = read(&given);
            assert_eq!(found.as_ref(), by_text.get(given.as_slice()).copied(), "{}", String::from_utf8_lossy(&given));
            assert_eq!(found.is_some(), no_brackets_left(&given), "{}", String::from_utf8_lossy(&given));
            tried += 1;
        }
    }
    assert_eq!(tried, (8usize.pow(7) - 1) / 7);
}

/// Whether a text without brackets is a pattern, where `B` is a body.
fn flat(text: &str) -> bool {
    let in_range =
        |number: &str, least: u8, most: u8| number.parse().is_ok_and(|k: u8| (least..=most).contains(&k) && k.to_string() == number);
    let item = |item: &str| {
        let item = item.strip_prefix('-').unwrap_or(item);
        let (body, count) = item.split_once('^').unwrap_or((item, "1"));
        (body == "B" || in_range(body, 1, 99)) && in_range(count, 0, 99)
    };
    text.is_empty() || text.split(' ').all(item)
}

/// Whether a text is a pattern: eight times every bracket without one inside it becomes a `B` if it holds a pattern, and then none may be left.
fn no_brackets_left(text: &[u8]) -> bool {
    if !text.iter().all(|byte| BYTES.contains(byte)) {
        return false;
    }
    let mut text = String::from_utf8(text.to_vec()).unwrap();
    for _ in 0..8 {
        let mut pieces = text.split('(');
        let mut next = pieces.next().unwrap().to_string();
        for piece in pieces {
            match piece.split_once(')') {
                Some((inside, behind)) if flat(inside) => next = format!("{next}B{behind}"),
                Some(_) => return false,
                None => next = format!("{next}({piece}"),
            }
        }
        text = next;
    }
    flat(&text)
}

/// A text is read exactly if it is a pattern's, and written again as it was.
fn holds(given: &[u8]) -> bool {
    let found = read(given);
    assert_eq!(found.is_some(), no_brackets_left(given), "{}", String::from_utf8_lossy(given));
    if let Some(pattern) = &found {
        assert_eq!(text(pattern), given, "{}", String::from_utf8_lossy(given));
    }
    found.is_some()
}

fn any_tree(random: &mut Random) -> Pattern {
    let levels = random.between(0, DEEPEST);
    match random.below(4) {
        0 => deep(random, 99, levels),
        1 => {
            let moves = random.below(6_000);
            sized(random, 99, moves, levels)
        }
        _ => {
            let items = random.pick(&[1, 2, 4, 6]);
            tree(random, 99, levels, items)
        }
    }
}

#[test]
fn trees_written_and_read() {
    let mut random = Random::new(1);
    for _ in 0..20_000 {
        let pattern = any_tree(&mut random);
        let written = text(&pattern);
        assert!(holds(&written));
        assert_eq!(read(&written), Some(pattern));
    }
}

/// What an item means, from the words of the specification one move at a time: place by place of the whole, from its end where there is a minus.
fn one_by_one(pattern: &[Item]) -> Vec<i8> {
    let mut word = Vec::new();
    for item in pattern {
        let times = item.count.unwrap_or(1);
        let mut whole = Vec::new();
        for _ in 0..times {
            match &item.body {
                Body::Move(number) => whole.push(*number as i8),
                Body::Bracket(inside) => whole.extend(one_by_one(inside)),
            }
        }
        while item.back && !whole.is_empty() {
            word.push(-whole.pop().unwrap());
        }
        word.extend(whole);
    }
    word
}

#[test]
fn meanings() {
    let mut random = Random::new(2);
    for _ in 0..20_000 {
        let pattern = any_tree(&mut random);
        // One by one, an empty bracket takes as long as the counts around it say.
        if size(&pattern) > 10_000 || depth(&pattern) > 3 {
            continue;
        }
        let word = meaning(&pattern);
        assert_eq!(word.len() as u128, size(&pattern));
        assert_eq!(word, one_by_one(&pattern));
        let undone = Item { back: true, ..bracket(pattern.clone(), None) };
        assert_eq!(meaning(&[undone]), undoing(&word));
        assert_eq!(meaning(&[bracket(pattern.clone(), Some(3))]), word.repeat(3));
    }
    for moves in [0, 1, 98, 99, 100, 4_095, 4_096] {
        for levels in 0..=DEEPEST {
            assert_eq!(size(&sized(&mut random, 3, moves, levels)), moves as u128);
        }
    }
}

#[test]
fn texts_damaged_and_any() {
    let mut random = Random::new(3);
    let mut results = [[0; 2]; 5];
    for _ in 0..20_000 {
        let sound = text(&any_tree(&mut random));
        results[0][usize::from(holds(&damaged(&mut random, &sound)))] += 1;
        results[1][usize::from(holds(&faulty(&mut random, &sound)))] += 1;
        let length = random.below(12);
        for (k, bytes) in [BYTES, b" -()^012", b"1 ()"].iter().enumerate() {
            results[2 + k][usize::from(holds(&scattered(&mut random, length, bytes)))] += 1;
        }
        assert!(!holds(&[random.bytes(length), vec![0]].concat()));
        holds(&random.bytes(length));
    }
    assert!(results.iter().all(|[none, some]| *none > 100 && *some > 100), "{results:?}");
}

/// One move inside so many brackets.
fn inside(brackets: usize) -> String {
    format!("{}1{}", "(".repeat(brackets), ")".repeat(brackets))
}

#[test]
fn depths() {
    for brackets in 0..=8 {
        assert_eq!(meant(&inside(brackets)), Some(vec![1]), "{brackets}");
    }
    for brackets in 9..=20 {
        assert_eq!(meant(&inside(brackets)), None, "{brackets}");
    }
    // Brackets beside each other are no deeper.
    assert_eq!(meant(&format!("{0} -{0}^2", inside(8))), Some(vec![1, -1, -1]));
    assert_eq!(meant(&format!("{} {}", inside(8), inside(9))), None);
    assert_eq!(meant(&format!("({})", [inside(7).as_str(); 50].join(" "))), Some(vec![1; 50]));
}

#[test]
fn how_many_moves() {
    assert_eq!(imported("(1^99)^41 1^36", 4_095), Ok(vec![1; 4_095]));
    assert_eq!(imported("(1^99)^41 1^36", 4_094), refused(13));
    assert_eq!(imported("(1^99)^41 1^37", 5_000), refused(20));
    assert_eq!(imported("(1^99)^41 1^37", 0), refused(20));
    assert_eq!(imported("(1^99)^41 1^37 4", 0), refused(5));
    assert_eq!(imported("(1^99)^41 1^37 (4)^0", 0), refused(5));
    assert_eq!(imported(&["1"; 4_095].join(" "), 4_095), Ok(vec![1; 4_095]));
    assert_eq!(imported(&["1"; 4_096].join(" "), 4_096), refused(20));
    assert_eq!(imported("1^0 4^0 x", 0), refused(19));
    assert_eq!(imported("4^0", 0), refused(5));
    assert_eq!(imported("(1 99)^0", 0), refused(5));
    assert_eq!(import(&[], b"x", 0), refused(1));
}

#[test]
fn sizes_past_64_bits() {
    let whole = |pattern: Pattern| String::from_utf8(text(&pattern)).unwrap();
    let past = |items: usize| size(&tower(1, items, 99)) > u128::from(u64::MAX);
    assert!(!past(20) && past(21));
    assert_eq!(size(&tower(1, 1, 99)), 99u128.pow(9));
    for items in [1, 20, 21, 22, 30, 1_000] {
        assert_eq!(imported(&whole(tower(1, items, 99)), 5_000), refused(20));
        assert_eq!(imported(&whole(tower(4, items, 99)), 5_000), refused(5));
        for around in 0..=8 {
            assert_eq!(imported(&whole(emptied(tower(1, items, 99), around)), 0), Ok(vec![]));
        }
    }
    assert_eq!(size(&tower(1, 1_024, 64)), 1 << 64);
    let more = [tower(1, 1_024, 64), vec![letter(2, Some(3))]].concat();
    assert_eq!((size(&more) as u64, imported(&whole(more), 5_000)), (3, refused(20)));
    // Under a 0 alone: without the outermost count it takes 2,000 items.
    let inner = |items: usize| size(&vec![letter(1, Some(99)); items]) * 99u128.pow(7);
    assert!(inner(1_999) < 1 << 64 && inner(2_000) > 1 << 64);
    assert_eq!(imported(&whole(emptied(tower(1, 2_000, 99), 0)), 0), Ok(vec![]));
    let none = [emptied(tower(1, 1_024, 64), 3), vec![letter(2, Some(3))]].concat();
    assert_eq!(imported(&whole(none), 3), Ok(vec![2, 2, 2]));
    assert_eq!(highest(&tower(7, 3, 2)), 7);
}
