//! What a call must leave (specification 6.1, 8.3): the result, the four values, and what its areas hold.
use crate::call::Call;
use crate::outcome::{Listing, Passage, Place, Refusal, Remainder, Verdict};
use crate::reversing::{Limits, Most};
use crate::services;
use crate::signed::Decision;
use crate::tray::{self, LOG_BYTES};
use crate::word::bytes;

/// The answer area begins with `written`; after 'same' a chain call's area begins instead with a chain of exactly as many entries, in exactly as many bytes, as
/// `listed` says. A workspace that is not kept as found is all zero.
pub struct Expected {
    pub result: u8,
    pub values: [u64; 4],
    pub written: Vec<u8>,
    pub listed: Option<(usize, usize)>,
    pub workspace_kept: bool,
}

impl Expected {
    fn answer(values: [u64; 4], written: Vec<u8>) -> Expected {
        Expected { result: 0, values, written, listed: None, workspace_kept: false }
    }

    fn fraction(fraction: services::Fraction) -> Expected {
        let lengths = [fraction.numerator.len(), fraction.denominator.len(), fraction.steps, 0];
        Expected::answer(lengths.map(|x| x as u64), [bytes(&fraction.numerator), bytes(&fraction.denominator)].concat())
    }

    fn listing(listing: Listing) -> Expected {
        match listing {
            Listing::Same { steps, entries, bytes } => {
                Expected { listed: Some((entries, bytes)), ..Expected::answer([0, steps as u64, entries as u64, bytes as u64], Vec::new()) }
            }
            Listing::Different { steps } => Expected::answer([1, steps as u64, 0, 0], Vec::new()),
        }
    }

    fn refused(refusal: Refusal) -> Expected {
        let values = match refusal.place {
            Place::None => [0; 4],
            Place::Pair(a, b) => [1, a.into(), b.into(), 0],
            Place::Triple(a, b, c) => [2, a.into(), b.into(), c.into()],
            Place::MirrorTriple(a, b, c) => [3, a.into(), b.into(), c.into()],
            Place::Set => [4, 0, 0, 0],
        };
        Expected { result: refusal.number, ..Expected::answer(values, Vec::new()) }
    }
}

fn verdict_values((verdict, steps): (Verdict, usize)) -> [u64; 4] {
    [u64::from(verdict == Verdict::Different), steps as u64, 0, 0]
}

fn decision_values(Decision { verdict, first, second }: Decision) -> [u64; 4] {
    [u64::from(verdict == Verdict::Different), first as u64, second as u64, 0]
}

/// What the second implementation says of a call with areas of those lengths.
pub fn expected(call: &Call, workspace: usize, answer: usize, most: &mut Most) -> Expected {
    let limits = |allowance: &u16| Limits { allowance: usize::from(*allowance), workspace };
    let packed = |image: Vec<u8>| Expected::answer([image.len() as u64, 0, 0, 0], image);
    let outcome = match call {
        Call::Reverse { table, program, allowance } => {
            services::reverse(table, program, limits(allowance), answer, most).map(Expected::fraction)
        }
        Call::LeftReverse { table, program, allowance } => {
            services::left_reverse(table, program, limits(allowance), answer, most).map(Expected::fraction)
        }
        Call::Enquire { table, program, allowance } => services::enquire(table, program, limits(allowance), most)
            .map(|[numerator, denominator, steps]| Expected::answer([numerator as u64, denominator as u64, steps as u64, 0], Vec::new())),
        Call::Commit { table, program, allowance, numbers } => {
            services::commit(table, program, limits(allowance), *numbers, answer, most).map(Expected::fraction)
        }
        Call::Clear { table, allowance } => services::clear(table, limits(allowance), most).map(|()| Expected::answer([0; 4], Vec::new())),
        Call::MirrorClear { table, allowance } => {
            services::mirror_clear(table, limits(allowance), most).map(|()| Expected::answer([0; 4], Vec::new()))
        }
        Call::Compare { table, first, second, allowance } => services::compare(table, first, second, limits(allowance), most)
            .map(|verdict| Expected::answer(verdict_values(verdict), Vec::new())),
        Call::CompareSigned { table, first, second, allowance } => services::compare_signed(table, first, second, limits(allowance), most)
            .map(|decision| Expected::answer(decision_values(decision), Vec::new())),
        Call::Chain { table, first, second, allowance } => {
            services::chain(table, first, second, limits(allowance), answer, most).map(Expected::listing)
        }
        Call::Remainder { table, done, pattern, allowance } => services::remainder(table, done, pattern, limits(allowance), answer, most)
            .map(|(left, steps)| match left {
                Remainder::Moves(moves) => Expected::answer([0, moves.len() as u64, steps as u64, 0], bytes(&moves)),
                Remainder::None => Expected::answer([1, 0, steps as u64, 0], Vec::new()),
            }),
        Call::Tray { table, tray, pattern, allowance } => tray::tray(table, tray, pattern, limits(allowance), answer, most)
            .map(|answers| Expected::answer([(answers.len() / LOG_BYTES) as u64, 0, 0, 0], answers)),
        Call::Check { table, first, second, entries } => {
            services::check(table, first, second, entries, workspace, &mut most.bytes).map(|passage| {
                let values = match passage {
                    Passage::Joins => [0; 4],
                    Passage::Breaks(entry) => [1, entry as u64, 0, 0],
                    Passage::EndsElsewhere => [2, 0, 0, 0],
                };
                Expected::answer(values, Vec::new())
            })
        }
        Call::PackTable { plain } => services::pack_table(plain, answer).map(packed),
        Call::UnpackTable { table } => services::unpack_table(table, answer).map(packed),
        Call::PackProgram { table, plain } => services::pack_program(table, plain, answer).map(packed),
        Call::UnpackProgram { table, program } => services::unpack_program(table, program, answer).map(packed),
        Call::Bed { table, program, moves } => services::bed(table, program, *moves, answer).map(packed),
        Call::Ways { table, program } => services::ways(table, program, answer)
            .map(|(words, listing)| Expected::answer([words as u64, listing.len() as u64, 0, 0], listing)),
        Call::Import { table, text } => services::import(table, text, answer).map(|moves| packed(bytes(&moves))),
    };
    let must = outcome.unwrap_or_else(Expected::refused);
    // The refusals that come before the work leave the workspace as found.
    let workspace_kept = matches!(must.result, 23 | 24) || (1..=8).contains(&must.result) || must.result == 16;
    let must = Expected { workspace_kept, ..must };
    match call {
        Call::Ways { .. } if must.result == 13 => Expected { written: vec![0; answer], ..must },
        _ => must,
    }
}
