//! Each call of the typed layer on cases of specification 10, texts of refusals against the header, and images that overlap.
use braid::{Chained, Compared, ComparedSigned, Limits, Passage, Place, Reason, Refusal, Remainder, Sizes, Verdict};

const B: [u8; 8] = [0x20, 0x04, 0x90, 0x86, 0x30, 0x92, 0x92, 0x60];
const O: [u8; 2] = [0x10, 0x00];
const K: [u8; 7] = [0x20, 0x04, 0x51, 0x23, 0x09, 0x10, 0x40];
const P: [u8; 4] = [0x00, 0x5C, 0x28, 0x20];
const P121: [u8; 3] = [0x00, 0x30, 0x40];
const P212: [u8; 3] = [0x00, 0x32, 0x08];

fn wide() -> Limits {
    Limits::default()
}

fn refused(reason: Reason, place: Place) -> Refusal {
    Refusal { reason, place }
}

#[test]
fn reversing() {
    let whole = braid::reverse(&B, &P, wide()).unwrap();
    assert_eq!((whole.numerator.as_slice(), whole.denominator.as_slice(), whole.steps), (&[1, 1, 2, 3][..], &[1, 3, 2][..], 5));
    assert_eq!(braid::enquire(&B, &P, wide()), Ok(Sizes { numerator: 4, denominator: 3, steps: 5 }));
    assert_eq!(braid::commit(&B, &P, Sizes { numerator: 4, denominator: 3, steps: 5 }, wide()), Ok(whole));
    let other = Sizes { numerator: 3, denominator: 4, steps: 5 };
    assert_eq!(braid::commit(&B, &P, other, wide()), Err(refused(Reason::OtherNumbers, Place::None)));
    let left = braid::left_reverse(&B, &[0x00, 0x21, 0x40], wide()).unwrap();
    assert_eq!((left.numerator, left.denominator, left.steps), (vec![2, 1], vec![1, 2], 1));
    assert_eq!(braid::reverse(&O, &[0x00, 0x2C], wide()), Err(refused(Reason::OpenPair, Place::Pair(2, 1))));
    let area = Limits { answer: Some(6), ..wide() };
    assert_eq!(braid::reverse(&B, &P, area), Err(refused(Reason::AnswerShort, Place::None)));
    assert_eq!(braid::bed(&B, &P, 0, Limits { answer: Some(15), ..wide() }), Err(refused(Reason::AnswerShort, Place::None)));
    let short = Limits { allowance: 4, ..wide() };
    assert_eq!(braid::reverse(&B, &P, short), Err(refused(Reason::AllowanceUsed, Place::None)));
}

#[test]
fn checking_tables() {
    assert_eq!(braid::clear(&B, Limits { allowance: 5, workspace: 11, ..wide() }), Ok(()));
    assert_eq!(braid::clear(&K, wide()), Err(refused(Reason::CubeFails, Place::Triple(1, 2, 3))));
    let short = Limits { workspace: 10, ..wide() };
    assert_eq!(braid::mirror_clear(&B, short), Err(refused(Reason::WorkspaceShort, Place::MirrorTriple(1, 2, 3))));
    let set = Limits { workspace: 165, ..wide() };
    assert_eq!(braid::compare_signed(&B, &P, &P, set), Err(refused(Reason::WorkspaceShort, Place::Set)));
}

#[test]
fn comparing() {
    assert_eq!(braid::compare(&B, &P121, &P212, wide()), Ok(Compared { verdict: Verdict::Same, steps: 5 }));
    assert_eq!(braid::compare(&B, &[0x00, 0x10], &[0x00, 0x12], wide()), Ok(Compared { verdict: Verdict::Different, steps: 1 }));
    let signed = braid::compare_signed(&B, &[0x00, 0x30, 0x60], &[0x00, 0x3A, 0x08], wide());
    assert_eq!(signed, Ok(ComparedSigned { verdict: Verdict::Same, first_steps: 4, second_steps: 1 }));
    let Ok(Chained::Same { steps: 5, entries: 1, image }) = braid::chain(&B, &P121, &P212, wide()) else {
        panic!("no chain of one entry");
    };
    assert_eq!(braid::check(&B, &P121, &P212, &image, wide()), Ok(Passage::Joins));
    assert_eq!(braid::check(&B, &P212, &P121, &image, wide()), Ok(Passage::Breaks(0)));
    assert_eq!(braid::check(&B, &P121, &P212, &[0, 0], wide()), Ok(Passage::EndsElsewhere));
    assert_eq!(braid::chain(&B, &[0x00, 0x10], &[0x00, 0x12], wide()), Ok(Chained::Different { steps: 1 }));
    assert_eq!(braid::remainder(&B, &[0x00, 0x10], &P121, wide()), Ok(Remainder::Moves { moves: vec![2, 1], steps: 1 }));
    assert_eq!(braid::remainder(&B, &[0x00, 0x10], &[0x00, 0x12], wide()), Ok(Remainder::None { steps: 1 }));
    let tray = braid::tray_of(&[&P121, &[0x00, 0x18]]).unwrap();
    assert_eq!(braid::tray(&B, &tray, &P212, wide()), Ok(vec![Ok(Compared { verdict: Verdict::Same, steps: 5 }), Err(Reason::BackMove)]));
    assert_eq!(braid::tray(&B, &[65], &P212, wide()), Err(refused(Reason::TooManyLogs, Place::None)));
    assert_eq!(braid::tray_of(&vec![&P121[..]; 65]), None);
}

#[test]
fn forms() {
    let plain = [3, 1, 1, 1, 2, 2, 1, 2, 1, 2, 1, 3, 1, 1, 2, 3, 2, 2, 2, 3];
    assert_eq!(braid::unpack_table(&B).as_deref(), Ok(&plain[..]));
    assert_eq!(braid::pack_table(&plain).as_deref(), Ok(&B[..]));
    assert_eq!(braid::unpack_program(&B, &P).as_deref(), Ok(&[131, 1, 130, 1, 2][..]));
    assert_eq!(braid::pack_program(&B, &[131, 1, 130, 1, 2]).as_deref(), Ok(&P[..]));
    assert_eq!(braid::bed(&B, &P, 0, wide()).map(|bed| bed[..4].to_vec()), Ok(vec![1, 2, 3, 4]));
    assert_eq!(braid::bed(&O, &P, 0, wide()), Err(refused(Reason::NotBraidTable, Place::None)));
    assert_eq!(braid::ways(&B, &P121, 100), Ok(vec![vec![1, 2, 1], vec![2, 1, 2]]));
    assert_eq!(braid::ways(&B, &P121, 7), Err(refused(Reason::AnswerShort, Place::None)));
    assert_eq!(braid::ways(&B, &[0, 0], 1), Ok(vec![vec![]]));
}

/// One slice for both programs, one inside the other, and one that is a part of the table: the library is given copies.
#[test]
fn images_that_overlap() {
    assert_eq!(braid::compare(&B, &P121, &P121, wide()), Ok(Compared { verdict: Verdict::Same, steps: 3 }));
    let both = [0x00, 0x10, 0x00];
    assert_eq!(braid::compare(&B, &both[..2], &both[..2], wide()), Ok(Compared { verdict: Verdict::Same, steps: 1 }));
    let table = [0x00];
    let apart = braid::compare(&table.clone(), &[0x00, 0x00], &[0x00, 0x00], wide());
    let shared = [0x00, 0x00];
    assert_eq!(braid::compare(&shared[..1], &shared, &shared, wide()), apart);
}

/// The version and the sentences are those of the header.
#[test]
fn texts() {
    let header = std::fs::read_to_string(concat!(env!("CARGO_MANIFEST_DIR"), "/../../include/braid.h"))
        .expect("the header stands beside the binding");
    let number =
        |name: &str| header.lines().find_map(|line| line.strip_prefix(&format!("#define BRAID_VERSION_{name} "))?.parse::<u8>().ok());
    assert_eq!((number("MAJOR"), number("MINOR")), (Some(braid::VERSION.0), Some(braid::VERSION.1)));
    let (_, texts) = header.split_once("static const char *const texts[] = {").expect("braid_text has its texts");
    let (texts, _) = texts.split_once("};").expect("they end");
    let of_header: Vec<Option<&str>> =
        texts.lines().map(str::trim).filter(|line| !line.is_empty()).map(|line| line.strip_prefix('"')).collect();
    for (number, line) in of_header.iter().enumerate().skip(1) {
        let text = line.map(|line| line.trim_end_matches(',').trim_end_matches('"'));
        assert_eq!(Reason::of(number as u8).map(Reason::text), text, "refusal {number}");
    }
    assert_eq!(of_header.len(), 25);
    assert_eq!((Reason::of(0), Reason::of(14), Reason::of(25)), (None, None, None));
}
