//! The firmware's gap algorithm in plain Rust, for the measures of speed: the same cells, the same workspace, the same order of work. A
//! refusal is only its number, and only what the measures call is here.
mod cells;
mod images;
mod packing;
#[cfg(test)]
mod tests;

use cells::{cell, weight, Cells, OPEN};
use images::{lay, read_forward, read_program, read_table, Program};
pub use packing::{pack_program, pack_table, unpack_program, unpack_table};

enum Ending {
    Finished { numerator: usize, denominator: usize, steps: u16 },
    Open { steps: u16 },
    AllowanceUsed,
    WorkspaceShort,
}

/// Reverses the word that stands before `left` and from `right` on.
fn reversing(cells: &Cells, bytes: &mut [u8], mut left: usize, mut right: usize, allowance: u16) -> Ending {
    let mut steps = 0;
    while right < bytes.len() {
        let b = bytes[right];
        if b >= 128 || left == 0 || bytes[left - 1] < 128 {
            bytes[left] = b;
            left += 1;
            right += 1;
            continue;
        }
        let a = bytes[left - 1] - 128;
        let (there, back) = (cell(a, b), cell(b, a));
        let (x, y) = (cells[there], cells[back]);
        if x == OPEN {
            return Ending::Open { steps };
        }
        if steps == allowance {
            return Ending::AllowanceUsed;
        }
        let (x, y) = (x as usize, y as usize);
        if right + 2 - left < x + y {
            return Ending::WorkspaceShort;
        }
        left -= 1;
        right += 1;
        for letter in &cells[back + 1..back + 1 + y] {
            right -= 1;
            bytes[right] = letter + 128;
        }
        for letter in cells[there + 1..there + 1 + x].iter().rev() {
            right -= 1;
            bytes[right] = *letter;
        }
        steps += 1;
    }
    let numerator = bytes[..left].iter().filter(|x| **x < 128).count();
    Ending::Finished { numerator, denominator: left - numerator, steps }
}

fn invert(word: &mut [u8]) {
    word.reverse();
    for x in word {
        *x ^= 128;
    }
}

enum Residue {
    Word(usize),
    Missing,
    Stopped(u8),
}

fn residue(ending: Ending) -> Residue {
    match ending {
        Ending::Finished { numerator, .. } => Residue::Word(numerator),
        Ending::Open { .. } => Residue::Missing,
        Ending::AllowanceUsed => Residue::Stopped(11),
        Ending::WorkspaceShort => Residue::Stopped(12),
    }
}

/// a\b in `room` bytes, read off the cells of the pair.
fn letter_residue(cells: &Cells, room: usize, a: u8, b: u8, allowance: u16) -> Residue {
    let (x, y) = (cells[cell(a, b)], cells[cell(b, a)]);
    if room < 2 {
        Residue::Stopped(12)
    } else if x == OPEN {
        Residue::Missing
    } else if allowance == 0 {
        Residue::Stopped(11)
    } else if room < usize::from(x) + usize::from(y) {
        Residue::Stopped(12)
    } else {
        Residue::Word(x.into())
    }
}

/// (a\b)\(a\c), at the start of `bytes`.
fn side(cells: &Cells, bytes: &mut [u8], a: u8, b: u8, c: u8, allowance: u16) -> Residue {
    let end = bytes.len();
    for to in [b, c] {
        match letter_residue(cells, end, a, to, allowance) {
            Residue::Word(_) => {}
            other => return other,
        }
    }
    let (to_b, to_c) = (cell(a, b), cell(a, c));
    let (x, y) = (cells[to_b] as usize, cells[to_c] as usize);
    if end < x + y {
        return Residue::Stopped(12);
    }
    bytes[..x].copy_from_slice(&cells[to_b + 1..][..x]);
    invert(&mut bytes[..x]);
    bytes[end - y..].copy_from_slice(&cells[to_c + 1..][..y]);
    residue(reversing(cells, bytes, x, end - y, allowance))
}

fn cube(cells: &Cells, bytes: &mut [u8], a: u8, b: u8, c: u8, allowance: u16) -> Result<bool, u8> {
    if cells[cell(a, b)] == OPEN {
        return Ok(true);
    }
    let kept = match side(cells, bytes, a, b, c, allowance) {
        Residue::Stopped(number) => return Err(number),
        Residue::Missing => {
            return match side(cells, bytes, b, a, c, allowance) {
                Residue::Word(_) => Ok(false),
                Residue::Missing => Ok(true),
                Residue::Stopped(number) => Err(number),
            }
        }
        Residue::Word(kept) => kept,
    };
    let count = match side(cells, &mut bytes[kept..], b, a, c, allowance) {
        Residue::Stopped(number) => return Err(number),
        Residue::Missing => return Ok(false),
        Residue::Word(count) => count,
    };
    invert(&mut bytes[..kept]);
    let end = bytes.len();
    bytes.copy_within(kept..kept + count, end - count);
    match reversing(cells, bytes, kept, end - count, allowance) {
        Ending::Finished { numerator, denominator, .. } => Ok(numerator == 0 && denominator == 0),
        Ending::Open { .. } => Ok(false),
        Ending::AllowanceUsed => Err(11),
        Ending::WorkspaceShort => Err(12),
    }
}

/// The weight of the side of a relation that begins with a.
fn side_weight(cells: &Cells, a: u8, b: u8) -> u32 {
    let at = cell(a, b);
    let completion = &cells[at + 1..][..cells[at] as usize];
    completion.iter().chain(&[a]).map(|m| weight(cells, *m)).sum()
}

fn clear_cells(cells: &Cells, moves: u8, allowance: u16, workspace: &mut [u8]) -> Result<(), u8> {
    for a in 1..=moves {
        for b in a + 1..=moves {
            if cells[cell(a, b)] != OPEN && side_weight(cells, a, b) != side_weight(cells, b, a) {
                return Err(8);
            }
        }
    }
    for a in 1..=moves {
        for b in a + 1..=moves {
            for c in (1..=moves).filter(|c| *c != a && *c != b) {
                if !cube(cells, workspace, a, b, c, allowance)? {
                    return Err(9);
                }
            }
        }
    }
    Ok(())
}

/// Clears a table that was read. The workspace is wiped, unless the weight check refused.
fn clear_wiped(cells: &Cells, moves: u8, allowance: u16, workspace: &mut [u8]) -> Result<(), u8> {
    let cleared = clear_cells(cells, moves, allowance, workspace);
    if cleared != Err(8) {
        workspace.fill(0);
    }
    cleared
}

pub fn clear(table: &[u8], allowance: u16, workspace: &mut [u8]) -> Result<(), u8> {
    let mut cells = [0; 4096];
    let moves = read_table(table, &mut cells)?;
    clear_wiped(&cells, moves, allowance, workspace)
}

/// The lengths of the numerator and the denominator, and the steps.
pub fn reverse(table: &[u8], program: &[u8], allowance: u16, workspace: &mut [u8], answer: &mut [u8]) -> Result<(usize, usize, u16), u8> {
    let mut cells = [0; 4096];
    let moves = read_table(table, &mut cells)?;
    let count = read_program(program, &cells, moves)?.count;
    let end = workspace.len();
    if count > end {
        workspace.fill(0);
        return Err(12);
    }
    lay(program, moves, &mut workspace[end - count..]);
    let result = match reversing(&cells, workspace, 0, end - count, allowance) {
        Ending::Finished { numerator, denominator, steps } => {
            let length = numerator + denominator;
            if answer.len() < length {
                Err(13)
            } else {
                answer[..length].copy_from_slice(&workspace[..length]);
                invert(&mut answer[numerator..length]);
                Ok((numerator, denominator, steps))
            }
        }
        Ending::Open { .. } => Err(10),
        Ending::AllowanceUsed => Err(11),
        Ending::WorkspaceShort => Err(12),
    };
    workspace.fill(0);
    result
}

/// A forward program that was read, and how its letters are laid into an area of as many bytes.
struct Laid<F: Fn(&mut [u8])> {
    program: Program,
    lay: F,
}

/// Compares two programs under a table that has cleared. The workspace is all zero before and after, also between the logs of a tray, as the firmware has it.
fn compare_cleared(
    cells: &Cells,
    first: &Laid<impl Fn(&mut [u8])>,
    second: &Laid<impl Fn(&mut [u8])>,
    allowance: u16,
    workspace: &mut [u8],
) -> Result<(bool, u16), u8> {
    if first.program.weight != second.program.weight {
        return Ok((false, 0));
    }
    let (m, n, end) = (first.program.count, second.program.count, workspace.len());
    if end < m + n {
        return Err(12);
    }
    (first.lay)(&mut workspace[..m]);
    invert(&mut workspace[..m]);
    (second.lay)(&mut workspace[end - n..]);
    let ending = reversing(cells, workspace, m, end - n, allowance);
    workspace.fill(0);
    match ending {
        Ending::Finished { numerator, denominator, steps } => Ok((numerator == 0 && denominator == 0, steps)),
        Ending::Open { steps } => Ok((false, steps)),
        Ending::AllowanceUsed => Err(11),
        Ending::WorkspaceShort => Err(12),
    }
}

/// Whether the programs are the same, and the steps.
pub fn compare(table: &[u8], first: &[u8], second: &[u8], allowance: u16, workspace: &mut [u8]) -> Result<(bool, u16), u8> {
    let mut cells = [0; 4096];
    let moves = read_table(table, &mut cells)?;
    let one = Laid { program: read_forward(first, &cells, moves)?, lay: |area: &mut [u8]| lay(first, moves, area) };
    let two = Laid { program: read_forward(second, &cells, moves)?, lay: |area: &mut [u8]| lay(second, moves, area) };
    clear_wiped(&cells, moves, allowance, workspace)?;
    compare_cleared(&cells, &one, &two, allowance, workspace)
}

/// A log that stands at the start of these bytes of a tray, and the bytes behind it.
fn first_log(tray: &[u8]) -> Option<(&[u8], &[u8])> {
    let (length, rest) = tray.split_first_chunk()?;
    rest.split_at_checked(u16::from_be_bytes(*length).into())
}

/// Refusals 23 and 24. The number of logs.
fn read_tray(tray: &[u8]) -> Result<u8, u8> {
    let (count, mut rest) = tray.split_first().ok_or(24)?;
    if *count > 64 {
        return Err(23);
    }
    for _ in 0..*count {
        (_, rest) = first_log(rest).ok_or(24)?;
    }
    if rest.is_empty() {
        Ok(*count)
    } else {
        Err(24)
    }
}

/// The three bytes of a log: the verdict or the number of its refusal, then the steps.
fn told_of(compared: Result<(bool, u16), u8>) -> [u8; 3] {
    let (said, steps) = compared.map_or_else(|number| (number, 0), |(same, steps)| (u8::from(!same), steps));
    let [high, low] = steps.to_be_bytes();
    [said, high, low]
}

/// The number of logs; what is told of each stands in the answer area. The table is cleared and the pattern decoded once.
pub fn tray(table: &[u8], tray: &[u8], pattern: &[u8], allowance: u16, workspace: &mut [u8], answer: &mut [u8]) -> Result<u8, u8> {
    let logs = read_tray(tray)?;
    let mut cells = [0; 4096];
    let moves = read_table(table, &mut cells)?;
    let program = read_forward(pattern, &cells, moves)?;
    clear_wiped(&cells, moves, allowance, workspace)?;
    let answers = answer.get_mut(..3 * usize::from(logs)).ok_or(13)?;
    let mut letters = [0; 4095];
    let letters = &mut letters[..program.count];
    lay(pattern, moves, letters);
    let two = Laid { program, lay: |area: &mut [u8]| area.copy_from_slice(letters) };
    let mut rest = &tray[1..];
    for three in answers.chunks_exact_mut(3) {
        let (log, behind) = first_log(rest).ok_or(24)?;
        let compared = read_forward(log, &cells, moves).and_then(|program| {
            let one = Laid { program, lay: |area: &mut [u8]| lay(log, moves, area) };
            compare_cleared(&cells, &one, &two, allowance, workspace)
        });
        three.copy_from_slice(&told_of(compared));
        rest = behind;
    }
    Ok(logs)
}
