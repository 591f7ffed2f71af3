//! Images of tables and programs, read from a register of 64 bits that takes whole bytes.
use super::cells::{cell, weight, weight_place, Cells, OPEN};

/// The bits of an image in their order. The last `held` bits of the register are the next ones; those above them were taken.
struct Reader<'a> {
    rest: &'a [u8],
    bits: u64,
    held: u32,
}

impl<'a> Reader<'a> {
    fn new(image: &'a [u8]) -> Reader<'a> {
        Reader { rest: image, bits: 0, held: 0 }
    }

    /// Takes four bytes, or one where fewer than four are left. At most 32 bits are held.
    fn refill(&mut self) -> Option<()> {
        if let Some((four, rest)) = self.rest.split_first_chunk() {
            self.bits = self.bits << 32 | u64::from(u32::from_be_bytes(*four));
            self.held += 32;
            self.rest = rest;
        } else {
            let (byte, rest) = self.rest.split_first()?;
            self.bits = self.bits << 8 | u64::from(*byte);
            self.held += 8;
            self.rest = rest;
        }
        Some(())
    }

    /// The next field, of at most 16 bits, unless fewer are left.
    fn take(&mut self, width: u32) -> Option<u32> {
        while self.held < width {
            self.refill()?;
        }
        self.held -= width;
        Some((self.bits >> self.held) as u32 & ((1 << width) - 1))
    }

    /// Whether only a filling follows.
    fn filled(&self) -> bool {
        8 * self.rest.len() + (self.held as usize) < 8 && self.bits & ((1 << self.held) - 1) == 0
    }
}

/// The bits of a move's field.
pub fn width_of(moves: u8) -> u32 {
    8 - (moves - 1).leading_zeros()
}

fn read_word(reader: &mut Reader, moves: u8, width: u32, cell: &mut [u8]) -> Result<(), u8> {
    let count = reader.take(4).ok_or(1)?;
    cell[0] = count as u8;
    for letter in &mut cell[1..=count as usize] {
        let number = reader.take(width).ok_or(1)? as u8;
        if number >= moves {
            return Err(2);
        }
        *letter = number + 1;
    }
    Ok(())
}

/// Refusals 1 to 3. The number of moves.
pub fn read_table(image: &[u8], cells: &mut Cells) -> Result<u8, u8> {
    let mut reader = Reader::new(image);
    let moves = reader.take(4).ok_or(1)? as u8 + 1;
    let width = width_of(moves);
    for a in 1..=moves {
        cells[weight_place(a)] = reader.take(3).ok_or(1)? as u8;
    }
    for a in 1..=moves {
        for b in a + 1..=moves {
            if reader.take(1).ok_or(1)? == 0 {
                cells[cell(a, b)] = OPEN;
                cells[cell(b, a)] = OPEN;
                continue;
            }
            read_word(&mut reader, moves, width, &mut cells[cell(a, b)..][..16])?;
            read_word(&mut reader, moves, width, &mut cells[cell(b, a)..][..16])?;
        }
    }
    if reader.filled() {
        Ok(moves)
    } else {
        Err(3)
    }
}

/// What one pass over a program's image tells.
pub struct Program {
    pub count: usize,
    pub forward: bool,
    pub weight: u32,
}

/// The number, less 1, and the byte of a letter, from the field that its sign and its number make together.
fn letter(field: u32, width: u32) -> (u8, u8) {
    let number = (field & ((1 << width) - 1)) as u8;
    (number, (field >> width << 7) as u8 | (number + 1))
}

/// Refusals 4 to 6. Nothing is written.
pub fn read_program(image: &[u8], cells: &Cells, moves: u8) -> Result<Program, u8> {
    let mut reader = Reader::new(image);
    let count = reader.take(12).ok_or(4)? as usize;
    let width = width_of(moves);
    let (mut signs, mut sum) = (0, 0);
    for _ in 0..count {
        let (number, byte) = letter(reader.take(1 + width).ok_or(4)?, width);
        if number >= moves {
            return Err(5);
        }
        signs |= byte;
        sum += weight(cells, number + 1);
    }
    if reader.filled() {
        Ok(Program { count, forward: signs < 128, weight: sum })
    } else {
        Err(6)
    }
}

/// As `read_program`; then refusal 7 where a move is back.
pub fn read_forward(image: &[u8], cells: &Cells, moves: u8) -> Result<Program, u8> {
    let program = read_program(image, cells, moves)?;
    if program.forward {
        Ok(program)
    } else {
        Err(7)
    }
}

/// The letters of a program that was read, into an area of as many bytes.
pub fn lay(image: &[u8], moves: u8, area: &mut [u8]) {
    let mut reader = Reader::new(image);
    let width = width_of(moves);
    reader.take(12);
    for byte in area {
        *byte = letter(reader.take(1 + width).unwrap_or(0), width).1;
    }
}
