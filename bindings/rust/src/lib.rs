//! Braid words under a mill's table of relations: the calls of `libbraid.a`, whose source is proved, as Rust.
//!
//! Every answer is the library's own; what is told here is in `docs/SPECIFICATION.md`, by section. There are two layers. [`raw`] has each call as C has it, on
//! the caller's slices. The functions of this page lend the areas themselves, and give answers and refusals as types.
//!
//! Tables, programs and chains are images, the bytes of specification 5; [`pack_table`], [`pack_program`] and [`import`] make them.
//!
//! ```
//! // 1 2 1 = 2 1 2, 1 3 = 3 1 and 2 3 2 = 3 2 3, all moves of weight 1.
//! let table = braid::pack_table(&[3, 1, 1, 1, 2, 2, 1, 2, 1, 2, 1, 3, 1, 1, 2, 3, 2, 2, 2, 3])?;
//! let first = braid::pack_program(&table, &[1, 2, 1])?;
//! let second = braid::pack_program(&table, &[2, 1, 2])?;
//! let compared = braid::compare(&table, &first, &second, braid::Limits::default())?;
//! assert_eq!((compared.verdict, compared.steps), (braid::Verdict::Same, 5));
//! # Ok::<(), braid::Refusal>(())
//! ```
pub mod raw;
mod refusal;

pub use refusal::{Place, Reason, Refusal};

/// The version of the library and of its specification, as `include/braid.h` has it: major, minor.
pub const VERSION: (u8, u8) = (3, 0);
/// The most moves of a program in an image or in plain form.
pub const MOST_MOVES: usize = 4_095;
/// The most logs of a tray.
pub const MOST_LOGS: usize = 64;
/// The bytes of the longest table image (specification 5.10).
pub const TABLE_BYTES: usize = 1_942;
/// The bytes of the longest plain table.
pub const PLAIN_BYTES: usize = 3_857;
/// The bytes of the longest program image.
pub const PROGRAM_BYTES: usize = 2_561;
/// The bytes of the longest bed.
pub const BED_BYTES: usize = 289;

/// The most steps of one reversing, the bytes of workspace, a byte a move, and those of the answer area; where none are named, it is as long as any answer.
#[derive(Clone, Copy, Debug, PartialEq, Eq)]
pub struct Limits {
    pub allowance: u16,
    pub workspace: usize,
    pub answer: Option<usize>,
}

impl Default for Limits {
    /// The largest allowance, and a usual workspace.
    fn default() -> Limits {
        Limits { allowance: 65_535, workspace: 32_768, answer: None }
    }
}

/// What a reversing comes to: both words as plain forward moves.
#[derive(Clone, Debug, PartialEq, Eq)]
pub struct Fraction {
    pub numerator: Vec<u8>,
    pub denominator: Vec<u8>,
    pub steps: u64,
}

/// The sizes of a reversing's answer.
#[derive(Clone, Copy, Debug, PartialEq, Eq)]
pub struct Sizes {
    pub numerator: u64,
    pub denominator: u64,
    pub steps: u64,
}

#[derive(Clone, Copy, Debug, PartialEq, Eq, Hash)]
pub enum Verdict {
    Same,
    Different,
}

impl Verdict {
    fn told(value: u64) -> Verdict {
        if value == 0 {
            Verdict::Same
        } else {
            Verdict::Different
        }
    }
}

#[derive(Clone, Copy, Debug, PartialEq, Eq)]
pub struct Compared {
    pub verdict: Verdict,
    pub steps: u64,
}

/// A verdict on programs of any signs, with the steps of both reversings.
#[derive(Clone, Copy, Debug, PartialEq, Eq)]
pub struct ComparedSigned {
    pub verdict: Verdict,
    pub first_steps: u64,
    pub second_steps: u64,
}

/// An answer of [`chain`].
#[derive(Clone, Debug, PartialEq, Eq)]
pub enum Chained {
    /// The chain's image, and how many entries it has.
    Same {
        steps: u64,
        entries: u64,
        image: Vec<u8>,
    },
    Different {
        steps: u64,
    },
}

/// An answer of [`remainder`].
#[derive(Clone, Debug, PartialEq, Eq)]
pub enum Remainder {
    /// The moves that finish the pattern, perhaps none.
    Moves { moves: Vec<u8>, steps: u64 },
    /// No moves finish it.
    None { steps: u64 },
}

/// An answer of [`check`].
#[derive(Clone, Copy, Debug, PartialEq, Eq)]
pub enum Passage {
    Joins,
    /// At this entry, from 0.
    Breaks(u64),
    EndsElsewhere,
}

/// The answer for a log of a tray: what [`compare`] says of the log and the pattern.
pub type Log = Result<Compared, Reason>;

/// An answer where the result is 0, else the refusal.
fn answered<T>(result: u8, values: [u64; 4], answer: impl FnOnce([u64; 4]) -> T) -> Result<T, Refusal> {
    if result == 0 {
        Ok(answer(values))
    } else {
        Err(Refusal::told(result, values))
    }
}

/// A call that writes so many bytes as its first value tells, in an area of at most so many.
fn written(most: usize, call: impl FnOnce(&mut [u8], &mut [u64; 4]) -> u8) -> Result<Vec<u8>, Refusal> {
    let (mut answer, mut values) = (vec![0; most], [0; 4]);
    let result = call(&mut answer, &mut values);
    answered(result, values, |values| {
        answer.truncate(values[0] as usize);
        answer
    })
}

/// Both words of a reversing, which are together no longer than the workspace.
fn fraction(limits: Limits, call: impl FnOnce(&mut [u8], &mut [u8], &mut [u64; 4]) -> u8) -> Result<Fraction, Refusal> {
    let area = limits.answer.unwrap_or(limits.workspace);
    let (mut workspace, mut answer, mut values) = (vec![0; limits.workspace], vec![0; area], [0; 4]);
    let result = call(&mut workspace, &mut answer, &mut values);
    answered(result, values, |[numerator, denominator, steps, _]| {
        let (numerator, denominator) = (numerator as usize, denominator as usize);
        Fraction { numerator: answer[..numerator].to_vec(), denominator: answer[numerator..numerator + denominator].to_vec(), steps }
    })
}

/// Reverses a program of any signs (specification 6.2).
pub fn reverse(table: &[u8], program: &[u8], limits: Limits) -> Result<Fraction, Refusal> {
    fraction(limits, |workspace, answer, values| raw::reverse(table, program, limits.allowance, workspace, answer, values))
}

/// Reverses a program from the finished end (6.12).
pub fn left_reverse(table: &[u8], program: &[u8], limits: Limits) -> Result<Fraction, Refusal> {
    fraction(limits, |workspace, answer, values| raw::left_reverse(table, program, limits.allowance, workspace, answer, values))
}

/// The sizes of a reversing's answer (6.15).
pub fn enquire(table: &[u8], program: &[u8], limits: Limits) -> Result<Sizes, Refusal> {
    let (mut workspace, mut values) = (vec![0; limits.workspace], [0; 4]);
    let result = raw::enquire(table, program, limits.allowance, &mut workspace, &mut values);
    answered(result, values, |[numerator, denominator, steps, _]| Sizes { numerator, denominator, steps })
}

/// The answer of a reversing whose sizes are known; 18 where they are others (6.16).
pub fn commit(table: &[u8], program: &[u8], sizes: Sizes, limits: Limits) -> Result<Fraction, Refusal> {
    let numbers = [sizes.numerator, sizes.denominator, sizes.steps];
    fraction(limits, |workspace, answer, values| raw::commit(table, program, limits.allowance, numbers, workspace, answer, values))
}

/// Makes both checks of a table (6.3).
pub fn clear(table: &[u8], limits: Limits) -> Result<(), Refusal> {
    let (mut workspace, mut values) = (vec![0; limits.workspace], [0; 4]);
    let result = raw::clear(table, limits.allowance, &mut workspace, &mut values);
    answered(result, values, |_| ())
}

/// Clears the mirror of a table (6.13).
pub fn mirror_clear(table: &[u8], limits: Limits) -> Result<(), Refusal> {
    let (mut workspace, mut values) = (vec![0; limits.workspace], [0; 4]);
    let result = raw::mirror_clear(table, limits.allowance, &mut workspace, &mut values);
    answered(result, values, |_| ())
}

/// Compares two programs of forward moves (6.4). Both may be one slice.
pub fn compare(table: &[u8], first: &[u8], second: &[u8], limits: Limits) -> Result<Compared, Refusal> {
    let (mut workspace, mut values) = (vec![0; limits.workspace], [0; 4]);
    let result = raw::compare(table, first, second, limits.allowance, &mut workspace, &mut values);
    answered(result, values, |[verdict, steps, ..]| Compared { verdict: Verdict::told(verdict), steps })
}

/// Compares two programs of any signs (6.18).
pub fn compare_signed(table: &[u8], first: &[u8], second: &[u8], limits: Limits) -> Result<ComparedSigned, Refusal> {
    let (mut workspace, mut values) = (vec![0; limits.workspace], [0; 4]);
    let result = raw::compare_signed(table, first, second, limits.allowance, &mut workspace, &mut values);
    answered(result, values, |[verdict, first_steps, second_steps, _]| ComparedSigned {
        verdict: Verdict::told(verdict),
        first_steps,
        second_steps,
    })
}

/// The bits of a move field under the table of an image (5.2).
fn move_bits(table: &[u8]) -> usize {
    let moves = table.first().map_or(1, |byte| usize::from(byte >> 4) + 1);
    (usize::BITS - (moves - 1).leading_zeros()) as usize
}

/// Compares two programs, and lists a chain between them after same (6.6). The area holds an entry for each step of the allowance.
pub fn chain(table: &[u8], first: &[u8], second: &[u8], limits: Limits) -> Result<Chained, Refusal> {
    let most = (16 + usize::from(limits.allowance) * (15 + 2 * move_bits(table))).div_ceil(8);
    let (mut workspace, mut answer, mut values) = (vec![0; limits.workspace], vec![0; limits.answer.unwrap_or(most)], [0; 4]);
    let result = raw::chain(table, first, second, limits.allowance, &mut workspace, &mut answer, &mut values);
    answered(result, values, |[verdict, steps, entries, bytes]| match Verdict::told(verdict) {
        Verdict::Same => {
            answer.truncate(bytes as usize);
            Chained::Same { steps, entries, image: answer }
        }
        Verdict::Different => Chained::Different { steps },
    })
}

/// The moves that are left of a pattern after a part done (6.10).
pub fn remainder(table: &[u8], done: &[u8], pattern: &[u8], limits: Limits) -> Result<Remainder, Refusal> {
    let area = limits.answer.unwrap_or(limits.workspace);
    let (mut workspace, mut answer, mut values) = (vec![0; limits.workspace], vec![0; area], [0; 4]);
    let result = raw::remainder(table, done, pattern, limits.allowance, &mut workspace, &mut answer, &mut values);
    answered(result, values, |[none, moves, steps, _]| {
        if none == 1 {
            return Remainder::None { steps };
        }
        answer.truncate(moves as usize);
        Remainder::Moves { moves: answer, steps }
    })
}

/// Follows a chain from one program to another (6.7). Of the limits the workspace counts.
pub fn check(table: &[u8], first: &[u8], second: &[u8], chain: &[u8], limits: Limits) -> Result<Passage, Refusal> {
    let (mut workspace, mut values) = (vec![0; limits.workspace], [0; 4]);
    let result = raw::check(table, first, second, chain, &mut workspace, &mut values);
    answered(result, values, |[passage, entry, ..]| match passage {
        0 => Passage::Joins,
        1 => Passage::Breaks(entry),
        _ => Passage::EndsElsewhere,
    })
}

/// A tray of program images (5.11), or none where they are more than 64 or one is longer than 65,535 bytes.
pub fn tray_of(logs: &[&[u8]]) -> Option<Vec<u8>> {
    let mut tray = vec![u8::try_from(logs.len()).ok().filter(|count| usize::from(*count) <= MOST_LOGS)?];
    for log in logs {
        tray.extend(u16::try_from(log.len()).ok()?.to_be_bytes());
        tray.extend(*log);
    }
    Some(tray)
}

/// Compares the logs of a tray with one pattern (6.19): an answer for each, in order.
///
/// ```
/// let table = braid::pack_table(&[1, 1])?;
/// let program = |moves: &[u8]| braid::pack_program(&table, moves);
/// let (one, two) = (program(&[1])?, program(&[1, 1])?);
/// let tray = braid::tray_of(&[&one, &two, &[]]).expect("three short logs");
/// let logs = braid::tray(&table, &tray, &one, braid::Limits::default())?;
/// assert_eq!(logs[0], Ok(braid::Compared { verdict: braid::Verdict::Same, steps: 1 }));
/// assert_eq!(logs[1], Ok(braid::Compared { verdict: braid::Verdict::Different, steps: 0 }));
/// assert_eq!(logs[2], Err(braid::Reason::ImageEnds));
/// # Ok::<(), braid::Refusal>(())
/// ```
pub fn tray(table: &[u8], tray: &[u8], pattern: &[u8], limits: Limits) -> Result<Vec<Log>, Refusal> {
    let (mut workspace, mut answer, mut values) = (vec![0; limits.workspace], vec![0; limits.answer.unwrap_or(3 * MOST_LOGS)], [0; 4]);
    let result = raw::tray(table, tray, pattern, limits.allowance, &mut workspace, &mut answer, &mut values);
    answered(result, values, |[logs, ..]| answer[..3 * logs as usize].chunks(3).map(log).collect())
}

/// The three bytes of a log's answer.
fn log(bytes: &[u8]) -> Log {
    let steps = u64::from(u16::from_be_bytes([bytes[1], bytes[2]]));
    match bytes[0] {
        0 | 1 => Ok(Compared { verdict: Verdict::told(bytes[0].into()), steps }),
        number => Err(Reason::of(number).unwrap_or_else(|| panic!("{number} is no answer for a log"))),
    }
}

/// The image of a plain table (6.8).
pub fn pack_table(plain: &[u8]) -> Result<Vec<u8>, Refusal> {
    pack_table_within(plain, TABLE_BYTES)
}

/// [`pack_table`] in an area of so many bytes.
pub fn pack_table_within(plain: &[u8], most: usize) -> Result<Vec<u8>, Refusal> {
    written(most, |answer, values| raw::pack_table(plain, answer, values))
}

/// The plain form of a table image (6.8).
pub fn unpack_table(table: &[u8]) -> Result<Vec<u8>, Refusal> {
    unpack_table_within(table, PLAIN_BYTES)
}

/// [`unpack_table`] in an area of so many bytes.
pub fn unpack_table_within(table: &[u8], most: usize) -> Result<Vec<u8>, Refusal> {
    written(most, |answer, values| raw::unpack_table(table, answer, values))
}

/// The image of a plain program: a byte for each move, 128 more for a back move (6.8).
pub fn pack_program(table: &[u8], plain: &[u8]) -> Result<Vec<u8>, Refusal> {
    pack_program_within(table, plain, PROGRAM_BYTES)
}

/// [`pack_program`] in an area of so many bytes.
pub fn pack_program_within(table: &[u8], plain: &[u8], most: usize) -> Result<Vec<u8>, Refusal> {
    written(most, |answer, values| raw::pack_program(table, plain, answer, values))
}

/// The plain form of a program image (6.8).
pub fn unpack_program(table: &[u8], program: &[u8]) -> Result<Vec<u8>, Refusal> {
    unpack_program_within(table, program, MOST_MOVES)
}

/// [`unpack_program`] in an area of so many bytes.
pub fn unpack_program_within(table: &[u8], program: &[u8], most: usize) -> Result<Vec<u8>, Refusal> {
    written(most, |answer, values| raw::unpack_program(table, program, answer, values))
}

/// The bed after a program's first moves, under a braid table: the bobbin at each place, then the total of each two in order, high byte first (6.11).
/// Of the limits the answer area counts.
pub fn bed(table: &[u8], program: &[u8], moves: u64, limits: Limits) -> Result<Vec<u8>, Refusal> {
    written(limits.answer.unwrap_or(BED_BYTES), |answer, values| raw::bed(table, program, moves, answer, values))
}

/// Every word that lays the same as a program, in order; 13 where they take more than so many bytes, one more than its moves for each (6.14).
pub fn ways(table: &[u8], program: &[u8], most: usize) -> Result<Vec<Vec<u8>>, Refusal> {
    let (mut answer, mut values) = (vec![0; most], [0; 4]);
    let result = raw::ways(table, program, &mut answer, &mut values);
    answered(result, values, |[_, bytes, ..]| {
        let listing = &answer[..bytes as usize];
        listing.split_inclusive(|byte| *byte == 0).map(|word| word[..word.len() - 1].to_vec()).collect()
    })
}

/// The moves that a text in the mills' notation means, as a plain program (6.17).
///
/// ```
/// let table = braid::pack_table(&[2, 1, 1, 255])?;
/// assert_eq!(braid::import(&table, b"-(1 2)^2")?, [130, 129, 130, 129]);
/// let refused = braid::import(&table, b"1  2").unwrap_err();
/// assert_eq!(refused.to_string(), "refused 19: the text is no pattern");
/// # Ok::<(), braid::Refusal>(())
/// ```
pub fn import(table: &[u8], text: &[u8]) -> Result<Vec<u8>, Refusal> {
    written(MOST_MOVES, |answer, values| raw::import(table, text, answer, values))
}
