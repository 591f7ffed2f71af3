//! What helps a person beside a refusal: which file it is of, and what stands there. All of it is found by calls of the library, and decides nothing.
use crate::files::{Program, Table};
use crate::output::word;
use crate::tables;
use braid::{Limits, Place, Reason, Refusal};

/// A program's image under a table, from its moves.
fn packed(table: &Table, moves: &[u8]) -> Option<Vec<u8>> {
    braid::pack_program(&table.image, moves).ok()
}

/// The line and column of a byte of a text, from 1.
fn place(text: &[u8], at: usize) -> (usize, usize) {
    let before = &text[..at.min(text.len())];
    let line = before.iter().filter(|byte| **byte == b'\n').count() + 1;
    let start = before.iter().rposition(|byte| *byte == b'\n').map_or(0, |newline| newline + 1);
    (line, at - start + 1)
}

/// What import says of the beginning of a text, once what is open in it is closed: none where it cannot go on to a pattern.
fn begun(table: &Table, beginning: &[u8]) -> Option<Result<Vec<u8>, Refusal>> {
    for ending in [&b""[..], b"1"] {
        for open in 0..=8 {
            let text = [beginning, ending, &b")".repeat(open)].concat();
            match braid::import(&table.image, &text) {
                Err(refusal) if refusal.reason == Reason::NotPattern => {}
                other => return Some(other),
            }
        }
    }
    None
}

/// The first byte of a text at which no pattern can go on.
fn stuck(table: &Table, text: &[u8]) -> usize {
    // Every beginning of one that can go on can, too.
    let (mut goes, mut ends) = (0, text.len() + 1);
    while ends - goes > 1 {
        let middle = (goes + ends) / 2;
        if begun(table, &text[..middle]).is_some() {
            goes = middle;
        } else {
            ends = middle;
        }
    }
    goes
}

/// The first number of a text that is no count and is above the moves of a table.
fn high_number(text: &[u8], moves: u8) -> Option<(usize, usize)> {
    let mut at = 0;
    while at < text.len() {
        let length = text[at..].iter().take_while(|byte| byte.is_ascii_digit()).count();
        if length == 0 {
            at += 1;
            continue;
        }
        let number: usize = std::str::from_utf8(&text[at..at + length]).ok()?.parse().ok()?;
        if number > usize::from(moves) && (at == 0 || text[at - 1] != b'^') {
            return Some((at, number));
        }
        at += length;
    }
    None
}

fn moves_of(table: &Table) -> u8 {
    table.image.first().map_or(1, |byte| (byte >> 4) + 1)
}

/// Of a text that import refuses.
pub fn of_text(table: &Table, name: &str, text: &[u8], refusal: Refusal) -> Vec<String> {
    let said = refusal.reason.text();
    let at = |at: usize, what: String| {
        let (line, column) = place(text, at);
        vec![format!("{name}:{line}:{column}: {what}")]
    };
    match refusal.reason {
        Reason::NotPattern => {
            let byte = stuck(table, text);
            let there = text.get(byte).map_or("the text ends".to_string(), |byte| format!("'{}' cannot stand here", byte.escape_ascii()));
            at(byte, format!("{said}: {there}"))
        }
        Reason::ImageField => match high_number(text, moves_of(table)) {
            Some((byte, number)) => at(byte, format!("{said}: the table has {} moves, and {number} is none", moves_of(table))),
            None => vec![format!("{name}: {said}")],
        },
        Reason::TooManyMoves => {
            let many = |end: &usize| matches!(begun(table, &text[..*end]), Some(Err(refusal)) if refusal.reason == Reason::TooManyMoves);
            let end = (1..=text.len()).find(many).unwrap_or(text.len());
            at(end.saturating_sub(1), format!("{said}: with what stands here they are passed"))
        }
        Reason::AnswerShort => vec![format!("{name}: {said}")],
        _ => vec![format!("{}: {said}", table.name)],
    }
}

/// The two sides of a relation.
fn sides(table: &Table, a: u8, b: u8) -> Option<(Vec<u8>, Vec<u8>, Vec<u8>)> {
    let parts = tables::parts(&braid::unpack_table(&table.image).ok()?);
    let (one, two) = parts.relations.into_iter().find(|(one, two)| (one[0], two[0]) == (a, b))?;
    Some((one, two, parts.weights))
}

/// u\v by a call of reverse, or none where it is undefined or stopped.
fn complement(table: &Table, u: &[u8], v: &[u8], limits: Limits) -> Option<Vec<u8>> {
    let undoing: Vec<u8> = u.iter().rev().map(|m| m + 128).collect();
    let program = packed(table, &[&undoing, v].concat())?;
    braid::reverse(&table.image, &program, limits).ok().map(|fraction| fraction.numerator)
}

/// (a\b)\(a\c).
fn cube_side(table: &Table, a: u8, b: u8, c: u8, limits: Limits) -> Option<Vec<u8>> {
    let (one, two) = (complement(table, &[a], &[b], limits)?, complement(table, &[a], &[c], limits)?);
    complement(table, &one, &two, limits)
}

/// The program that a refusal of 4 to 7 is of: the first that is refused by itself, or has a back move.
fn faulty<'a>(table: &Table, programs: &[&'a Program], refusal: Refusal) -> Option<&'a Program> {
    programs.iter().copied().find(|program| match braid::unpack_program(&table.image, &program.image) {
        Ok(moves) => refusal.reason == Reason::BackMove && moves.iter().any(|m| *m > 128),
        Err(own) => own.reason == refusal.reason,
    })
}

/// The least allowance at which reversing a program, from its start or from the finished end, gives this refusal.
fn least_allowance(table: &Table, program: &Program, limits: Limits, refusal: Refusal, left: bool) -> u32 {
    let (mut less, mut enough) = (-1_i64, i64::from(limits.allowance));
    while enough - less > 1 {
        let middle = (less + enough) / 2;
        let tried = Limits { allowance: middle as u16, ..limits };
        let given = if left {
            braid::left_reverse(&table.image, &program.image, tried).err()
        } else {
            braid::enquire(&table.image, &program.image, tried).err()
        };
        if given == Some(refusal) {
            enough = middle;
        } else {
            less = middle;
        }
    }
    enough as u32
}

/// Of a refusal of a call with a table and programs; `left` where it reverses from the finished end.
pub fn of_refusal(table: &Table, programs: &[&Program], limits: Limits, refusal: Refusal, left: bool) -> Vec<String> {
    let said = refusal.reason.text();
    let weigh = |side: &[u8], weights: &[u8]| side.iter().map(|m| u32::from(weights[usize::from(*m) - 1])).sum::<u32>();
    let shown =
        |side: Option<Vec<u8>>| side.map_or("undefined".to_string(), |side| if side.is_empty() { "empty".into() } else { word(&side) });
    let mut lines = match refusal.number() {
        1..=3 => vec![format!("{}: {said}", table.name)],
        4..=7 => vec![faulty(table, programs, refusal).map_or(said.to_string(), |program| format!("{}: {said}", program.name))],
        _ => vec![format!("{}: {said}", table.name)],
    };
    match (refusal.reason, refusal.place) {
        (Reason::UnequalWeights, Place::Pair(a, b)) => {
            if let Some((one, two, weights)) = sides(table, a, b) {
                lines.push(format!("{} weighs {}, {} weighs {}", word(&one), weigh(&one, &weights), word(&two), weigh(&two, &weights)));
            }
        }
        (Reason::CubeFails, Place::Triple(a, b, c)) => {
            let (left, right) = (cube_side(table, a, b, c, limits), cube_side(table, b, a, c, limits));
            lines.push(format!(
                "the triple {a} {b} {c}: ({a}\\{b})\\({a}\\{c}) is {}, ({b}\\{a})\\({b}\\{c}) is {}",
                shown(left),
                shown(right)
            ));
        }
        (Reason::OpenPair, Place::Pair(a, b)) => {
            if let Some(program) = programs.first() {
                let steps = least_allowance(table, program, limits, refusal, left);
                lines.push(if left {
                    format!("{b} -{a} is met after {steps} steps from the finished end, and no relation has sides that end in {b} and {a}")
                } else {
                    format!("-{a} {b} is met after {steps} steps, and the pair {a}, {b} has no relation")
                });
            }
        }
        (Reason::NoMirror, Place::Pair(a, b)) => {
            if let Some((one, two, _)) = sides(table, a, b) {
                lines.push(format!("the relation {} = {} offends", word(&one), word(&two)));
            }
        }
        (_, Place::Triple(a, b, c)) => lines.push(format!("while the triple {a} {b} {c} of the table was checked")),
        (_, Place::MirrorTriple(a, b, c)) => lines.push(format!("the triple {a} {b} {c} of the mirror")),
        (_, Place::Set) => lines.push("while the set of words grew that decides programs with back moves".into()),
        (Reason::SetOpenPair, Place::Pair(a, b)) => lines.push(format!("the pair {a}, {b} has no relation")),
        _ => {}
    }
    lines
}
