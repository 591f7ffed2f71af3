//! Images (specification 5.1 to 5.6): fields of bits, the highest first, and zero bits up to the last byte's end.
use crate::outcome::Refusal;
use crate::table::Table;
use crate::word::Word;

/// Bits to be packed.
#[derive(Default)]
pub struct Bits(Vec<bool>);

impl Bits {
    pub fn field(&mut self, width: usize, value: usize) {
        for k in (0..width).rev() {
            self.0.push(value >> k & 1 == 1);
        }
    }

    pub fn image(&self) -> Vec<u8> {
        let byte = |bits: &[bool]| (0..8).fold(0, |sum, k| sum * 2 + u8::from(bits.get(k) == Some(&true)));
        self.0.chunks(8).map(byte).collect()
    }
}

/// A reading of an image from its first bit on.
pub struct Fields<'a> {
    image: &'a [u8],
    at: usize,
}

/// Why a field could not be read.
pub enum Fault {
    Ends,
    NoMove,
}

impl Fault {
    /// The refusal, where `ends` is the number for an image that ends early.
    fn refusal(self, ends: u8) -> Refusal {
        match self {
            Fault::Ends => Refusal::plain(ends),
            Fault::NoMove => Refusal::plain(ends + 1),
        }
    }
}

impl<'a> Fields<'a> {
    pub fn new(image: &'a [u8]) -> Fields<'a> {
        Fields { image, at: 0 }
    }

    pub fn number(&mut self, width: usize) -> Result<usize, Fault> {
        if self.at + width > 8 * self.image.len() {
            return Err(Fault::Ends);
        }
        let mut value = 0;
        for _ in 0..width {
            value = value * 2 + usize::from(self.image[self.at / 8] >> (7 - self.at % 8) & 1);
            self.at += 1;
        }
        Ok(value)
    }

    pub fn letter(&mut self, moves: u8) -> Result<i8, Fault> {
        let number = self.number(width(moves))? + 1;
        if number > usize::from(moves) {
            return Err(Fault::NoMove);
        }
        Ok(number as i8)
    }

    /// Whether less than a byte is left, all zero.
    pub fn filled(&self) -> bool {
        let left = 8 * self.image.len() - self.at;
        left < 8 && (left == 0 || self.image[self.at / 8] << (8 - left) == 0)
    }
}

/// The width of a move field (specification 5.2).
pub fn width(moves: u8) -> usize {
    match moves {
        1 => 0,
        2 => 1,
        3..=4 => 2,
        5..=8 => 3,
        _ => 4,
    }
}

fn weight_bits(table: &Table, bits: &mut Bits) {
    for weight in &table.weights {
        bits.field(3, usize::from(*weight) - 1);
    }
}

fn pair_bits(table: &Table, bits: &mut Bits) {
    for pair in &table.pairs {
        let Some((there, back)) = pair else {
            bits.field(1, 0);
            continue;
        };
        bits.field(1, 1);
        for word in [there, back] {
            bits.field(4, word.len());
            for m in word {
                bits.field(width(table.moves), *m as usize - 1);
            }
        }
    }
}

pub fn table_image(table: &Table) -> Vec<u8> {
    let mut bits = Bits::default();
    bits.field(4, usize::from(table.moves) - 1);
    for part in [weight_bits, pair_bits] {
        part(table, &mut bits);
    }
    bits.image()
}

fn table_fields(fields: &mut Fields) -> Result<Table, Fault> {
    let moves = fields.number(4)? as u8 + 1;
    let mut table = Table { moves, weights: Vec::new(), pairs: Vec::new() };
    for _ in 0..moves {
        table.weights.push(fields.number(3)? as u8 + 1);
    }
    for _ in Table::pair_order(moves) {
        if fields.number(1)? == 0 {
            table.pairs.push(None);
            continue;
        }
        let mut words = [Word::new(), Word::new()];
        for word in &mut words {
            for _ in 0..fields.number(4)? {
                word.push(fields.letter(moves)?);
            }
        }
        let [there, back] = words;
        table.pairs.push(Some((there, back)));
    }
    Ok(table)
}

/// An image read whole: the refusals of its kind are three numbers that follow each other, for its end, its fields and its tail.
fn whole<T>(image: &[u8], ends: u8, body: impl FnOnce(&mut Fields) -> Result<T, Fault>) -> Result<T, Refusal> {
    let mut fields = Fields::new(image);
    let read = body(&mut fields).map_err(|fault| fault.refusal(ends))?;
    if fields.filled() {
        Ok(read)
    } else {
        Err(Refusal::plain(ends + 2))
    }
}

pub fn read_table(image: &[u8]) -> Result<Table, Refusal> {
    whole(image, 1, table_fields)
}

pub fn program_image(moves: u8, word: &[i8]) -> Vec<u8> {
    let mut bits = Bits::default();
    bits.field(12, word.len());
    for m in word {
        bits.field(1, usize::from(*m < 0));
        bits.field(width(moves), usize::from(m.unsigned_abs()) - 1);
    }
    bits.image()
}

fn program_fields(fields: &mut Fields, moves: u8) -> Result<Word, Fault> {
    let count = fields.number(12)?;
    let mut word = Word::new();
    for _ in 0..count {
        let back = fields.number(1)? == 1;
        let number = fields.letter(moves)?;
        word.push(if back { -number } else { number });
    }
    Ok(word)
}

pub fn read_program(image: &[u8], moves: u8) -> Result<Word, Refusal> {
    whole(image, 4, |fields| program_fields(fields, moves))
}

/// As `read_program`; 7 for a back move.
pub fn read_forward(image: &[u8], moves: u8) -> Result<Word, Refusal> {
    let word = read_program(image, moves)?;
    if word.iter().any(|m| *m < 0) {
        return Err(Refusal::plain(7));
    }
    Ok(word)
}

#[derive(Clone, Copy, Debug, PartialEq)]
pub struct Entry {
    pub offset: usize,
    pub a: u8,
    pub b: u8,
}

/// The width of an entry's offset.
const OFFSET: usize = 15;

pub fn chain_image(moves: u8, entries: &[Entry]) -> Vec<u8> {
    let mut bits = Bits::default();
    bits.field(16, entries.len());
    for entry in entries {
        bits.field(OFFSET, entry.offset);
        bits.field(width(moves), usize::from(entry.a) - 1);
        bits.field(width(moves), usize::from(entry.b) - 1);
    }
    bits.image()
}

/// The bytes of a chain image with that many entries.
pub fn chain_bytes(moves: u8, entries: usize) -> usize {
    (16 + entries * (OFFSET + 2 * width(moves))).div_ceil(8)
}

fn chain_fields(fields: &mut Fields, moves: u8) -> Result<Vec<Entry>, Fault> {
    let count = fields.number(16)?;
    let mut entries = Vec::new();
    for _ in 0..count {
        let offset = fields.number(OFFSET)?;
        let a = fields.letter(moves)? as u8;
        let b = fields.letter(moves)? as u8;
        entries.push(Entry { offset, a, b });
    }
    Ok(entries)
}

pub fn read_chain(image: &[u8], moves: u8) -> Result<Vec<Entry>, Refusal> {
    whole(image, 4, |fields| chain_fields(fields, moves))
}
