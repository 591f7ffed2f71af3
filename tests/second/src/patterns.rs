//! Random patterns of several families, and texts: sound, damaged, or any bytes.
use crate::notation::{Body, Item, Pattern, BYTES};
use crate::random::Random;

pub fn letter(number: u8, count: Option<u8>) -> Item {
    Item { back: false, body: Body::Move(number), count }
}

pub fn bracket(inside: Pattern, count: Option<u8>) -> Item {
    Item { back: false, body: Body::Bracket(inside), count }
}

/// Mostly none or small.
fn count(random: &mut Random) -> Option<u8> {
    match random.below(12) {
        0..=5 => None,
        6 => Some(0),
        7 => Some(1),
        8..=10 => Some(random.between(2, 4) as u8),
        _ => Some(random.between(5, 99) as u8),
    }
}

/// A pattern of at most so many items, numbers from 1 to `numbers`, and so in its brackets, which nest at most so deep.
pub fn tree(random: &mut Random, numbers: u8, depth: usize, items: usize) -> Pattern {
    let length = random.below(items + 1);
    let item = |random: &mut Random| {
        let body = if depth > 0 && random.once_in(3) {
            Body::Bracket(tree(random, numbers, depth - 1, items))
        } else {
            Body::Move(random.between(1, numbers.into()) as u8)
        };
        Item { back: random.once_in(3), body, count: count(random) }
    };
    (0..length).map(|_| item(random)).collect()
}

/// A pattern whose brackets nest exactly so deep, at one place; small counts keep most of them short.
pub fn deep(random: &mut Random, numbers: u8, depth: usize) -> Pattern {
    let mut pattern = tree(random, numbers, 0, 2);
    for _ in 0..depth {
        let count = random.pick(&[None, None, None, Some(1), Some(2), Some(3)]);
        let around = Item { back: random.once_in(3), ..bracket(pattern, count) };
        pattern = tree(random, numbers, 0, 1);
        pattern.insert(random.below(pattern.len() + 1), around);
    }
    pattern
}

/// A pattern that means exactly so many moves.
pub fn sized(random: &mut Random, numbers: u8, moves: usize, depth: usize) -> Pattern {
    let mut pattern = Pattern::new();
    let mut left = moves;
    while left > 0 {
        let times = random.between(1, left.min(99));
        let share = if depth == 0 { 1 } else { random.between(1, left / times) };
        left -= times * share;
        let body = if share == 1 && (depth == 0 || random.once_in(2)) {
            Body::Move(random.between(1, numbers.into()) as u8)
        } else {
            Body::Bracket(sized(random, numbers, share, depth - 1))
        };
        let count = if times == 1 && random.once_in(2) { None } else { Some(times as u8) };
        pattern.push(Item { back: random.once_in(3), body, count });
    }
    pattern
}

/// Inside eight brackets, as many items as said of one move: all with the same count. It means items · count^9 moves, which is above 2^64 for 21 items and
/// a count of 99, and exactly 2^64 for 1,024 items and a count of 64.
pub fn tower(number: u8, items: usize, count: u8) -> Pattern {
    (0..8).fold(vec![letter(number, Some(count)); items], |inside, _| vec![bracket(inside, Some(count))])
}

/// Puts a 0 in place of one of the counts of a tower: that of the bracket that so many brackets stand around.
pub fn emptied(mut pattern: Pattern, around: usize) -> Pattern {
    for item in &mut pattern {
        match &mut item.body {
            Body::Bracket(inside) if around > 0 => *inside = emptied(std::mem::take(inside), around - 1),
            _ => item.count = Some(0),
        }
    }
    pattern
}

/// Puts an item with this number somewhere into a pattern, into brackets at times.
pub fn with_number(random: &mut Random, pattern: &mut Pattern, item: Item) {
    let at = random.below(pattern.len() + 1);
    match pattern.get_mut(at) {
        Some(Item { body: Body::Bracket(inside), .. }) if !random.once_in(3) => with_number(random, inside, item),
        _ => pattern.insert(at, item),
    }
}

/// A text with one byte changed, removed or inserted, or with two exchanged.
pub fn damaged(random: &mut Random, text: &[u8]) -> Vec<u8> {
    let mut text = text.to_vec();
    let at = random.below(text.len() + 1);
    let byte = if random.once_in(8) { random.bits() as u8 } else { random.pick(BYTES) };
    match random.below(4) {
        0 if at < text.len() => text[at] = byte,
        1 if at < text.len() => {
            text.remove(at);
        }
        2 if at + 1 < text.len() => text.swap(at, at + 1),
        _ => text.insert(at, byte),
    }
    text
}

/// What stands in a sound text, and what stands there in one that is mostly none.
const FAULTS: [(&str, &str); 28] = [
    (" ", "  "),
    (" ", ""),
    (" ", "\t"),
    (" ", " -"),
    (" ", " 0 "),
    ("(", "( "),
    ("(", "(("),
    ("(", "(^2"),
    ("(", "-"),
    (")", " )"),
    (")", "))"),
    (")", ")1"),
    (")", ")("),
    (")", ") ^2"),
    ("-", "--"),
    ("-", "- "),
    ("-", "-0"),
    ("^", "^^"),
    ("^", "^0"),
    ("^", "^-"),
    ("^", "^ "),
    ("^", " ^"),
    ("^", "^1^"),
    ("1", "01"),
    ("1", "0"),
    ("1", "100"),
    ("1", "1^"),
    ("1", "1-1"),
];

/// A text with a fault at one place, or at its beginning or end.
pub fn faulty(random: &mut Random, text: &[u8]) -> Vec<u8> {
    let stands = |at: usize, fault: &(&str, &str)| text[at..].starts_with(fault.0.as_bytes());
    let fitting: Vec<(&str, &str)> = FAULTS.into_iter().filter(|fault| (0..text.len()).any(|at| stands(at, fault))).collect();
    if fitting.is_empty() || random.once_in(4) {
        let piece = random.pick(&[" ", "-", "^", "(", ")", "0", "01", "^2", "()", "1"]).as_bytes();
        return if random.once_in(2) { [piece, text].concat() } else { [text, piece].concat() };
    }
    let fault = random.pick(&fitting);
    let places: Vec<usize> = (0..text.len()).filter(|at| stands(*at, &fault)).collect();
    let at = random.pick(&places);
    [&text[..at], fault.1.as_bytes(), &text[at + 1..]].concat()
}

/// So many bytes of those given.
pub fn scattered(random: &mut Random, length: usize, bytes: &[u8]) -> Vec<u8> {
    (0..length).map(|_| random.pick(bytes)).collect()
}
