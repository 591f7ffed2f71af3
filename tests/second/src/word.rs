//! Moves and words (specification 2.1). A back move is its number negated.

pub type Word = Vec<i8>;

/// The undoing: the last move first, each sign turned.
pub fn undoing(word: &[i8]) -> Word {
    word.iter().rev().map(|m| -m).collect()
}

/// A move as one byte: its number, 128 more for a back move.
pub fn byte(m: i8) -> u8 {
    if m > 0 {
        m as u8
    } else {
        128 + m.unsigned_abs()
    }
}

pub fn bytes(word: &[i8]) -> Vec<u8> {
    word.iter().map(|m| byte(*m)).collect()
}
