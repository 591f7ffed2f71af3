//! Plain forms of tables and programs.
use crate::outcome::Refusal;
use crate::table::Table;
use crate::word::{byte, Word};

pub fn plain_table(table: &Table) -> Vec<u8> {
    let mut plain = vec![table.moves];
    plain.extend(&table.weights);
    for pair in &table.pairs {
        let Some((there, back)) = pair else {
            plain.push(255);
            continue;
        };
        for word in [there, back] {
            plain.push(word.len() as u8);
            plain.extend(word.iter().map(|m| byte(*m)));
        }
    }
    plain
}

/// Takes the next byte, or refuses with 1.
fn next(plain: &mut std::slice::Iter<u8>) -> Result<u8, Refusal> {
    plain.next().copied().ok_or(Refusal::plain(1))
}

fn plain_word(length: u8, moves: u8, plain: &mut std::slice::Iter<u8>) -> Result<Word, Refusal> {
    if length > 15 {
        return Err(Refusal::plain(2));
    }
    let mut word = Word::new();
    for _ in 0..length {
        let number = next(plain)?;
        if number < 1 || number > moves {
            return Err(Refusal::plain(2));
        }
        word.push(number as i8);
    }
    Ok(word)
}

pub fn read_plain_table(bytes: &[u8]) -> Result<Table, Refusal> {
    let mut plain = bytes.iter();
    let moves = next(&mut plain)?;
    if !(1..=16).contains(&moves) {
        return Err(Refusal::plain(2));
    }
    let mut table = Table { moves, weights: Vec::new(), pairs: Vec::new() };
    for _ in 0..moves {
        let weight = next(&mut plain)?;
        if !(1..=8).contains(&weight) {
            return Err(Refusal::plain(2));
        }
        table.weights.push(weight);
    }
    for _ in Table::pair_order(moves) {
        let first = next(&mut plain)?;
        if first == 255 {
            table.pairs.push(None);
            continue;
        }
        let there = plain_word(first, moves, &mut plain)?;
        let second = next(&mut plain)?;
        let back = plain_word(second, moves, &mut plain)?;
        table.pairs.push(Some((there, back)));
    }
    if plain.next().is_some() {
        return Err(Refusal::plain(3));
    }
    Ok(table)
}

/// A program's moves from their bytes (specification 5.8): their number is tested first.
pub fn read_plain_program(bytes: &[u8], moves: u8) -> Result<Word, Refusal> {
    if bytes.len() > 4095 {
        return Err(Refusal::plain(4));
    }
    let mut word = Word::new();
    for x in bytes {
        let number = x & 127;
        if number < 1 || number > moves {
            return Err(Refusal::plain(5));
        }
        word.push(if *x > 128 { -(number as i8) } else { number as i8 });
    }
    Ok(word)
}
