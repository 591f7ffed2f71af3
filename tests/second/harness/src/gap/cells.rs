//! A table in 16 by 16 cells of 16 bytes: the length of a completion, then its moves.

/// Stands for the length of a completion of an open pair.
pub const OPEN: u8 = 255;

pub type Cells = [u8; 4096];

pub fn cell(a: u8, b: u8) -> usize {
    ((a as usize - 1) * 16 + (b as usize - 1)) * 16
}

/// Where the weight of a move stands, less 1: behind the length, 0, of C(a,a).
pub fn weight_place(a: u8) -> usize {
    cell(a, a) + 1
}

pub fn weight(cells: &Cells, a: u8) -> u32 {
    u32::from(cells[weight_place(a)]) + 1
}
