//! Patterns as they are written (specification 6.17). A text is cut into tokens, each of which must be one that may stand after the one before it, and
//! the tokens build the tree: the brackets that are open are kept on a stack, so that reading needs no recursion.
use crate::word::{undoing, Word};
use std::mem::{replace, take};

/// Items, one after another.
pub type Pattern = Vec<Item>;

#[derive(Clone, Debug, PartialEq)]
pub struct Item {
    pub back: bool,
    pub body: Body,
    pub count: Option<u8>,
}

#[derive(Clone, Debug, PartialEq)]
pub enum Body {
    Move(u8),
    Bracket(Pattern),
}

/// The bytes of which texts are made.
pub const BYTES: &[u8] = b" -()^0123456789";

/// Brackets that may be open at once.
pub const DEEPEST: usize = 8;

/// A count is one token with its `^`. The text's beginning and end are tokens too.
#[derive(Clone, Copy, PartialEq)]
enum Token {
    Begin,
    Space,
    Minus,
    Open,
    Close,
    Move(u8),
    Count(u8),
    End,
}

/// A number of one or two digits without a leading zero, and its length, where no further digit follows.
fn number(text: &[u8]) -> Option<(u8, usize)> {
    let length = text.iter().take_while(|byte| byte.is_ascii_digit()).count();
    match &text[..length] {
        [one] => Some((one - b'0', 1)),
        [ten @ b'1'..=b'9', one] => Some((10 * (ten - b'0') + (one - b'0'), 2)),
        _ => None,
    }
}

/// The token at the beginning of a text, and its length.
fn token(text: &[u8]) -> Option<(Token, usize)> {
    match text {
        [] => Some((Token::End, 0)),
        [b' ', ..] => Some((Token::Space, 1)),
        [b'-', ..] => Some((Token::Minus, 1)),
        [b'(', ..] => Some((Token::Open, 1)),
        [b')', ..] => Some((Token::Close, 1)),
        [b'^', digits @ ..] => number(digits).map(|(count, length)| (Token::Count(count), 1 + length)),
        digits => number(digits).filter(|(number, _)| *number > 0).map(|(number, length)| (Token::Move(number), length)),
    }
}

/// Whether a token may stand directly after another.
fn follows(before: Token, next: Token) -> bool {
    use Token::*;
    match next {
        Begin => false,
        Minus => matches!(before, Begin | Open | Space),
        Move(_) | Open => matches!(before, Begin | Open | Space | Minus),
        Count(_) => matches!(before, Move(_) | Close),
        Space => matches!(before, Move(_) | Close | Count(_)),
        Close => matches!(before, Move(_) | Close | Count(_) | Open),
        End => matches!(before, Move(_) | Close | Count(_) | Begin),
    }
}

/// The pattern that has this text, if there is one.
pub fn read(text: &[u8]) -> Option<Pattern> {
    // Of each open bracket: whether a minus stands before it, and the items before it.
    let mut open: Vec<(bool, Pattern)> = Vec::new();
    let mut items = Pattern::new();
    let (mut before, mut at) = (Token::Begin, 0);
    loop {
        let (next, length) = token(&text[at..])?;
        if !follows(before, next) {
            return None;
        }
        let back = before == Token::Minus;
        match next {
            Token::Open if open.len() == DEEPEST => return None,
            Token::Open => open.push((back, take(&mut items))),
            Token::Close => {
                let (back, outside) = open.pop()?;
                let inside = replace(&mut items, outside);
                items.push(Item { back, body: Body::Bracket(inside), count: None });
            }
            Token::Move(number) => items.push(Item { back, body: Body::Move(number), count: None }),
            Token::Count(count) => items.last_mut()?.count = Some(count),
            Token::End => return open.is_empty().then_some(items),
            Token::Begin | Token::Space | Token::Minus => {}
        }
        (before, at) = (next, at + length);
    }
}

/// The text of a pattern.
pub fn text(pattern: &[Item]) -> Vec<u8> {
    let items: Vec<Vec<u8>> = pattern.iter().map(item_text).collect();
    items.join(&b' ')
}

fn item_text(item: &Item) -> Vec<u8> {
    let minus = if item.back { "-" } else { "" };
    let count = item.count.map_or(String::new(), |count| format!("^{count}"));
    let body = match &item.body {
        Body::Move(number) => number.to_string().into_bytes(),
        Body::Bracket(inside) => [b"(", text(inside).as_slice(), b")"].concat(),
    };
    [minus.as_bytes(), &body, count.as_bytes()].concat()
}

/// The highest move number in a pattern, 0 where there is none.
pub fn highest(pattern: &[Item]) -> u8 {
    let of_item = |item: &Item| match &item.body {
        Body::Move(number) => *number,
        Body::Bracket(inside) => highest(inside),
    };
    pattern.iter().map(of_item).max().unwrap_or(0)
}

/// How deep the brackets of a pattern nest.
pub fn depth(pattern: &[Item]) -> usize {
    let of_item = |item: &Item| match &item.body {
        Body::Move(_) => 0,
        Body::Bracket(inside) => 1 + depth(inside),
    };
    pattern.iter().map(of_item).max().unwrap_or(0)
}

/// How often an item's body is laid.
fn times(item: &Item) -> u8 {
    item.count.unwrap_or(1)
}

/// How many moves a pattern means. 128 bits hold them: a text has fewer than 2^64 move numbers, and each means at most 99^9 moves, less than 2^60.
pub fn size(pattern: &[Item]) -> u128 {
    let of_item = |item: &Item| match &item.body {
        Body::Move(_) => u128::from(times(item)),
        Body::Bracket(inside) => u128::from(times(item)) * size(inside),
    };
    pattern.iter().map(of_item).sum()
}

/// The moves that a pattern means. What a count of 0 stands behind may be too large to lay out, and is not.
pub fn meaning(pattern: &[Item]) -> Word {
    pattern.iter().flat_map(laid).collect()
}

fn laid(item: &Item) -> Word {
    if times(item) == 0 {
        return Word::new();
    }
    let once = match &item.body {
        Body::Move(number) => vec![*number as i8],
        Body::Bracket(inside) => meaning(inside),
    };
    let word = once.repeat(usize::from(times(item)));
    if item.back {
        undoing(&word)
    } else {
        word
    }
}
