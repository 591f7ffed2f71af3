//! A tray of logs against one pattern (specification 5.11, 6.19): its bytes, the order of the service, and the three bytes of each log.
use crate::image::{read_forward, read_table};
use crate::outcome::Refusal;
use crate::reversing::{reverse, Ending, Limits, Most};
use crate::services::cleared;
use crate::table::Table;
use crate::word::{undoing, Word};

/// The most logs of a tray.
pub const MOST_LOGS: usize = 64;
/// The bytes of the answer for a log.
pub const LOG_BYTES: usize = 3;

/// A tray of these images, whatever they hold; a count above 64 is written, too.
pub fn laid(logs: &[Vec<u8>]) -> Vec<u8> {
    let mut tray = vec![logs.len() as u8];
    for image in logs {
        tray.extend((image.len() as u16).to_be_bytes());
        tray.extend(image);
    }
    tray
}

/// The images that a tray holds.
pub fn images(tray: &[u8]) -> Result<Vec<&[u8]>, Refusal> {
    let [count, rest @ ..] = tray else {
        return Err(Refusal::plain(24));
    };
    if usize::from(*count) > MOST_LOGS {
        return Err(Refusal::plain(23));
    }
    let (mut images, mut rest) = (Vec::new(), rest);
    while images.len() < usize::from(*count) {
        let [high, low, behind @ ..] = rest else {
            return Err(Refusal::plain(24));
        };
        let length = usize::from(u16::from_be_bytes([*high, *low]));
        let Some(image) = behind.get(..length) else {
            return Err(Refusal::plain(24));
        };
        images.push(image);
        rest = &behind[length..];
    }
    if !rest.is_empty() {
        return Err(Refusal::plain(24));
    }
    Ok(images)
}

/// What comes of one log under a table that cleared: 0 or 1 and the steps, or its refusal.
fn verdict(table: &Table, log: &[u8], pattern: &Word, limits: Limits, most: &mut Most) -> Result<(u8, usize), Refusal> {
    let log = read_forward(log, table.moves)?;
    if table.weight(&log) != table.weight(pattern) {
        return Ok((1, 0));
    }
    let start = [undoing(&log), pattern.clone()].concat();
    match reverse(table, start, 0, limits, most) {
        Ending::Finished { numerator, denominator, steps, .. } => Ok((u8::from(!numerator.is_empty() || !denominator.is_empty()), steps)),
        Ending::Open { steps, .. } => Ok((1, steps)),
        Ending::AllowanceUsed => Err(Refusal::plain(11)),
        Ending::WorkspaceShort => Err(Refusal::plain(12)),
    }
}

/// The answers for all logs of a tray, three bytes each.
pub fn tray(table: &[u8], tray: &[u8], pattern: &[u8], limits: Limits, answer: usize, most: &mut Most) -> Result<Vec<u8>, Refusal> {
    let logs = images(tray)?;
    let table = read_table(table)?;
    let pattern = read_forward(pattern, table.moves)?;
    cleared(&table, limits, most)?;
    if answer < LOG_BYTES * logs.len() {
        return Err(Refusal::plain(13));
    }
    let mut answers = Vec::new();
    for log in logs {
        let (said, steps) = match verdict(&table, log, &pattern, limits, most) {
            Ok(told) => told,
            Err(refusal) => (refusal.number, 0),
        };
        let [high, low] = (steps as u16).to_be_bytes();
        answers.extend([said, high, low]);
    }
    Ok(answers)
}
