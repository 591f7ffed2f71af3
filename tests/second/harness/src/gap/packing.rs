//! Packing and unpacking. Fields are gathered in a register of 64 bits and written four bytes at a time.
use super::cells::{cell, weight, OPEN};
use super::images::{lay, read_program, read_table, width_of};

/// The bytes of the longest table image, and of the longest plain table.
const IMAGE_BYTES: usize = 1_942;
const PLAIN_BYTES: usize = 3_857;

/// The last `held` bits of the register are not written yet; those above them are.
struct Writer<'a> {
    area: &'a mut [u8],
    next: usize,
    bits: u64,
    held: u32,
}

impl<'a> Writer<'a> {
    fn new(area: &'a mut [u8]) -> Writer<'a> {
        Writer { area, next: 0, bits: 0, held: 0 }
    }

    /// A field of at most 32 bits.
    fn field(&mut self, width: u32, value: u32) {
        self.bits = self.bits << width | u64::from(value);
        self.held += width;
        if self.held >= 32 {
            self.held -= 32;
            self.put(&((self.bits >> self.held) as u32).to_be_bytes());
        }
    }

    fn put(&mut self, bytes: &[u8]) {
        self.area[self.next..][..bytes.len()].copy_from_slice(bytes);
        self.next += bytes.len();
    }

    /// Writes what is held, with zeros behind it; the bytes of the whole.
    fn filled(mut self) -> usize {
        let bytes = self.held.div_ceil(8) as usize;
        let last = ((self.bits << (32 - self.held)) as u32).to_be_bytes();
        self.put(&last[..bytes]);
        self.next
    }
}

/// The image of a plain program; its length.
pub fn pack_program(table: &[u8], plain: &[u8], answer: &mut [u8]) -> Result<usize, u8> {
    let moves = read_table(table, &mut [0; 4096])?;
    if plain.len() > 4095 {
        return Err(4);
    }
    if plain.iter().any(|x| x & 127 == 0 || x & 127 > moves) {
        return Err(5);
    }
    let width = width_of(moves);
    if answer.len() < (12 + plain.len() * (1 + width as usize)).div_ceil(8) {
        return Err(13);
    }
    let mut writer = Writer::new(answer);
    writer.field(12, plain.len() as u32);
    for x in plain {
        writer.field(1 + width, u32::from(x >> 7) << width | (u32::from(x & 127) - 1));
    }
    Ok(writer.filled())
}

/// The bytes of a program's moves; their number.
pub fn unpack_program(table: &[u8], program: &[u8], answer: &mut [u8]) -> Result<usize, u8> {
    let mut cells = [0; 4096];
    let moves = read_table(table, &mut cells)?;
    let count = read_program(program, &cells, moves)?.count;
    lay(program, moves, answer.get_mut(..count).ok_or(13)?);
    Ok(count)
}

/// Writes a word of a plain table as fields; the bytes after it.
fn pack_word<'a>(plain: &'a [u8], moves: u8, width: u32, writer: &mut Writer) -> Result<&'a [u8], u8> {
    let (length, rest) = plain.split_first().ok_or(1)?;
    if *length > 15 {
        return Err(2);
    }
    writer.field(4, u32::from(*length));
    for k in 0..*length as usize {
        let number = *rest.get(k).ok_or(1)?;
        if number < 1 || number > moves {
            return Err(2);
        }
        writer.field(width, u32::from(number) - 1);
    }
    Ok(&rest[*length as usize..])
}

fn fitting(bytes: &[u8], answer: &mut [u8]) -> Result<usize, u8> {
    answer.get_mut(..bytes.len()).ok_or(13)?.copy_from_slice(bytes);
    Ok(bytes.len())
}

/// The image of a plain table; its length.
pub fn pack_table(plain: &[u8], answer: &mut [u8]) -> Result<usize, u8> {
    let (moves, mut rest) = plain.split_first().ok_or(1)?;
    if !(1..=16).contains(moves) {
        return Err(2);
    }
    let mut image = [0; IMAGE_BYTES];
    let mut writer = Writer::new(&mut image);
    let width = width_of(*moves);
    writer.field(4, u32::from(*moves) - 1);
    for _ in 0..*moves {
        let (weight, behind) = rest.split_first().ok_or(1)?;
        if !(1..=8).contains(weight) {
            return Err(2);
        }
        writer.field(3, u32::from(*weight) - 1);
        rest = behind;
    }
    for _ in 0..usize::from(*moves) * (usize::from(*moves) - 1) / 2 {
        if *rest.first().ok_or(1)? == OPEN {
            writer.field(1, 0);
            rest = &rest[1..];
            continue;
        }
        writer.field(1, 1);
        rest = pack_word(rest, *moves, width, &mut writer)?;
        rest = pack_word(rest, *moves, width, &mut writer)?;
    }
    if !rest.is_empty() {
        return Err(3);
    }
    let length = writer.filled();
    fitting(&image[..length], answer)
}

/// The plain form of a table; its length.
pub fn unpack_table(table: &[u8], answer: &mut [u8]) -> Result<usize, u8> {
    let mut cells = [0; 4096];
    let moves = read_table(table, &mut cells)?;
    let mut plain = [0; PLAIN_BYTES];
    plain[0] = moves;
    let mut next = 1;
    for a in 1..=moves {
        plain[next] = weight(&cells, a) as u8;
        next += 1;
    }
    for a in 1..=moves {
        for b in a + 1..=moves {
            for at in [cell(a, b), cell(b, a)] {
                let length = cells[at] as usize;
                plain[next] = cells[at];
                next += 1;
                if cells[at] == OPEN {
                    break;
                }
                plain[next..next + length].copy_from_slice(&cells[at + 1..at + 1 + length]);
                next += length;
            }
        }
    }
    fitting(&plain[..next], answer)
}
