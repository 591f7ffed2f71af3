//! Refusals, as specification 7 numbers and places them, and answers; and which outcomes each call can have.
use crate::word::Word;

#[derive(Clone, Copy, Debug, PartialEq)]
pub enum Place {
    /// No place, or the programs.
    None,
    Pair(u8, u8),
    Triple(u8, u8, u8),
    /// A triple of the mirror.
    MirrorTriple(u8, u8, u8),
    /// The set of compare_signed.
    Set,
}

#[derive(Clone, Copy, Debug, PartialEq)]
pub struct Refusal {
    pub number: u8,
    pub place: Place,
}

impl Refusal {
    pub fn plain(number: u8) -> Refusal {
        Refusal { number, place: Place::None }
    }

    pub fn at(number: u8, place: Place) -> Refusal {
        Refusal { number, place }
    }
}

#[derive(Clone, Copy, Debug, PartialEq)]
pub enum Verdict {
    Same,
    Different,
}

/// The answer of chain. After same a chain of just so many entries is listed, in an image of just so many bytes.
#[derive(Clone, Copy, Debug, PartialEq)]
pub enum Listing {
    Same { steps: usize, entries: usize, bytes: usize },
    Different { steps: usize },
}

#[derive(Clone, Copy, Debug, PartialEq)]
pub enum Passage {
    Joins,
    Breaks(usize),
    EndsElsewhere,
}

/// What is left to run of a pattern.
#[derive(Clone, Debug, PartialEq)]
pub enum Remainder {
    Moves(Word),
    None,
}

/// Results, each with the first value where it tells outcomes apart.
type Results = &'static [(u8, u64)];

/// Every outcome that a call can have (specification 7.1, 7.2 and 8.3): the call, the result, and the first value where it tells outcomes of one result apart.
pub fn outcomes() -> Vec<(&'static str, u8, u64)> {
    let table: Results = &[(0, 0), (1, 0), (2, 0), (3, 0)];
    let program: Results = &[(4, 0), (5, 0), (6, 0)];
    let reversing: Results = &[(10, 1), (11, 0), (12, 0)];
    let checks: Results = &[(8, 1), (9, 2), (11, 2), (12, 2)];
    let programs: Results = &[(0, 1), (7, 0), (11, 0), (12, 0)];
    let mirror_and_set: Results = &[(11, 3), (11, 4), (12, 3), (12, 4), (16, 1), (17, 3), (21, 1), (22, 0)];
    let of_calls: [(&str, &[Results]); 19] = [
        ("reverse", &[table, program, reversing, &[(13, 0)]]),
        ("left_reverse", &[table, program, reversing, &[(13, 0), (16, 1)]]),
        ("enquire", &[table, program, reversing]),
        ("commit", &[table, program, reversing, &[(13, 0), (18, 0)]]),
        ("clear", &[table, checks]),
        ("mirror_clear", &[table, &[(8, 1), (11, 3), (12, 3), (16, 1), (17, 3)]]),
        ("compare", &[table, program, programs, checks]),
        ("compare_signed", &[table, program, checks, &[(0, 1), (11, 0), (12, 0)], mirror_and_set]),
        ("chain", &[table, program, programs, checks, &[(13, 0)]]),
        ("remainder", &[table, program, programs, checks, &[(13, 0)]]),
        ("tray", &[table, program, checks, &[(7, 0), (13, 0), (23, 0), (24, 0)]]),
        ("check", &[table, program, &[(0, 1), (0, 2), (7, 0), (12, 0)]]),
        ("pack_table", &[table, &[(13, 0)]]),
        ("unpack_table", &[table, &[(13, 0)]]),
        ("pack_program", &[table, &[(4, 0), (5, 0), (13, 0)]]),
        ("unpack_program", &[table, program, &[(13, 0)]]),
        ("bed", &[table, program, &[(13, 0), (15, 0)]]),
        ("ways", &[table, program, &[(7, 0), (8, 1), (13, 0)]]),
        ("import", &[table, &[(5, 0), (13, 0), (19, 0), (20, 0)]]),
    ];
    let mut all = Vec::new();
    for (call, lists) in of_calls {
        all.extend(lists.iter().flat_map(|list| list.iter()).map(|(result, value)| (call, *result, *value)));
    }
    all
}
