//! Cases of specification 10, of the second implementation.
use second::image::{chain_image, program_image, read_program, read_table, table_image, Entry};
use second::mirror::mirror;
use second::orders::{self, Order};
use second::outcome::{Listing, Passage, Place, Refusal, Remainder, Verdict};
use second::plain::{plain_table, read_plain_table};
use second::random::Random;
use second::reversing::{Ending, Limits, Most};
use second::services::{
    bed, chain, check, clear, commit, compare, compare_signed, enquire, import, left_reverse, mirror_clear, remainder, reverse, ways,
};
use second::signed::Decision;
use second::table::Table;
use second::tables::mirror::clears_alone;
use second::tables::{braid, doubled, growing, twins};
use second::tray::{images, laid, tray};

const WIDE: Limits = Limits { allowance: 65_535, workspace: 32_768 };

fn reversed(table: &Table, word: &[i8], limits: Limits) -> Result<(Vec<i8>, Vec<i8>, usize), Refusal> {
    let program = program_image(table.moves, word);
    reverse(&table_image(table), &program, limits, 32_768, &mut Most::default()).map(|f| (f.numerator, f.denominator, f.steps))
}

fn compared(table: &Table, first: &[i8], second: &[i8], limits: Limits) -> Result<(Verdict, usize), Refusal> {
    let [first, second] = [first, second].map(|word| program_image(table.moves, word));
    compare(&table_image(table), &first, &second, limits, &mut Most::default())
}

fn chained(table: &Table, first: &[i8], second: &[i8], answer: usize) -> Result<Listing, Refusal> {
    let [first, second] = [first, second].map(|word| program_image(table.moves, word));
    chain(&table_image(table), &first, &second, WIDE, answer, &mut Most::default())
}

fn left(table: &Table, done: &[i8], pattern: &[i8], answer: usize) -> Result<(Remainder, usize), Refusal> {
    let [done, pattern] = [done, pattern].map(|word| program_image(table.moves, word));
    remainder(&table_image(table), &done, &pattern, WIDE, answer, &mut Most::default())
}

fn cleared(table: &Table, limits: Limits) -> Result<(), Refusal> {
    clear(&table_image(table), limits, &mut Most::default())
}

fn table3(pairs: [(&[i8], &[i8]); 3]) -> Table {
    Table::light(3, pairs.map(|(there, back)| Some((there.to_vec(), back.to_vec()))).to_vec())
}

/// K of specification 10: 1 2 = 2 1, 1 3 = 3 1, 2 1 = 3 1.
fn no_cube() -> Table {
    table3([(&[2], &[1]), (&[3], &[1]), (&[1], &[1])])
}

/// E of specification 10: C(a,b) = b a for each pair.
fn endless() -> Table {
    table3([(&[2, 1], &[1, 2]), (&[3, 1], &[1, 3]), (&[3, 2], &[2, 3])])
}

/// Q of specification 10, where only the last reversing of a triple meets an open pair.
fn open_at_last() -> Table {
    let given = |there: &[i8], back: &[i8]| Some((there.to_vec(), back.to_vec()));
    Table::light(4, vec![given(&[], &[]), given(&[3], &[1]), None, given(&[4], &[2]), None, None])
}

/// X of specification 10: the completions weigh the same, the sides do not.
fn completions_alone() -> Table {
    Table::light(2, vec![Some((vec![2], vec![1, 1]))]).weighing(vec![1, 2])
}

/// V of specification 10: both sides of 1 2 = 2 2 end in 2.
fn one_last_move() -> Table {
    Table::light(2, vec![Some((vec![2], vec![2]))])
}

/// Y of specification 10: 1 3 = 2 and 2 = 3, whose sides end in 3 and 2, and in 2 and 3.
fn shared_crossed() -> Table {
    Table::light(3, vec![Some((vec![3], vec![])), None, Some((vec![], vec![]))])
}

/// Z of specification 10: 1 3 = 2 and 1 3 = 3 2, whose sides end in 3 and 2 both times.
fn shared_in_order() -> Table {
    Table::light(3, vec![Some((vec![3], vec![])), Some((vec![3], vec![2])), None])
}

#[test]
fn images_of_tables() {
    assert_eq!(table_image(&braid(3)), [0x20, 0x04, 0x90, 0x86, 0x30, 0x92, 0x92, 0x60]);
    assert_eq!(table_image(&braid(1)), [0x00]);
    assert_eq!(table_image(&braid(1).weighing(vec![8])), [0x0E]);
    assert_eq!(table_image(&Table::light(2, vec![None])), [0x10, 0x00]);
    assert_eq!(table_image(&no_cube()), [0x20, 0x04, 0x51, 0x23, 0x09, 0x10, 0x40]);
    assert_eq!(table_image(&doubled().weighing(vec![1, 1])), [0x10, 0x25, 0x0C]);
    assert_eq!(table_image(&doubled()), [0x10, 0x65, 0x0C]);
    assert_eq!(table_image(&completions_alone()), [0x10, 0x63, 0x20]);
    assert_eq!(table_image(&endless()), [0x20, 0x04, 0x90, 0x86, 0x50, 0x45, 0x29, 0x26]);
    assert_eq!(table_image(&open_at_last()), [0x30, 0x00, 0x80, 0x46, 0x11, 0x1C, 0x50]);
    assert_eq!(table_image(&clears_alone()), [0x20, 0x04, 0x61, 0x22, 0x8C]);
    assert_eq!(table_image(&one_last_move()), [0x10, 0x23, 0x18]);
    assert_eq!(table_image(&shared_crossed()), [0x20, 0x04, 0x60, 0x40, 0x00]);
    assert_eq!(table_image(&shared_in_order()), [0x20, 0x04, 0x60, 0x8C, 0x28]);
    for moves in 1..=16 {
        assert_eq!(read_table(&table_image(&braid(moves))), Ok(braid(moves)));
        assert_eq!(read_plain_table(&plain_table(&braid(moves))), Ok(braid(moves)));
    }
}

#[test]
fn image_of_the_program() {
    let word = [-3, 1, -2, 1, 2];
    assert_eq!(program_image(3, &word), [0x00, 0x5C, 0x28, 0x20]);
    assert_eq!(read_program(&[0x00, 0x5C, 0x28, 0x20], 3), Ok(word.to_vec()));
}

#[test]
fn reversings() {
    let word = [-3, 1, -2, 1, 2];
    let whole = Ok((vec![1, 1, 2, 3], vec![1, 3, 2], 5));
    assert_eq!(reversed(&braid(3), &word, WIDE), whole);
    assert_eq!(reversed(&braid(3), &word, Limits { allowance: 5, ..WIDE }), whole);
    assert_eq!(reversed(&braid(3), &word, Limits { allowance: 4, ..WIDE }), Err(Refusal::plain(11)));
    assert_eq!(reversed(&braid(3), &[-2, -3, -1, 1, 1, 2, 3], WIDE), Ok((vec![1, 2, 3], vec![2, 1], 7)));
}

#[test]
fn other_orders() {
    let word = [-3, 1, -2, 1, 2];
    let whole = Ending::Finished { numerator: vec![1, 1, 2, 3], denominator: vec![1, 3, 2], steps: 5, swaps: 4 };
    assert_eq!(orders::reverse(&braid(3), &word, Order::Rightmost, 5), whole);
    assert_eq!(orders::reverse(&braid(3), &word, Order::Random(Random::new(1)), 5), whole);
    assert_eq!(orders::reverse(&braid(3), &word, Order::Rightmost, 4), Ending::AllowanceUsed);
    let none = Table::light(4, vec![None; 6]);
    assert_eq!(reversed(&none, &[-1, 2, -3, 4], WIDE), Err(Refusal::at(10, Place::Pair(1, 2))));
    assert_eq!(orders::reverse(&none, &[-1, 2, -3, 4], Order::Rightmost, 5), Ending::Open { a: 3, b: 4, steps: 0 });
}

#[test]
fn comparisons() {
    assert_eq!(compared(&braid(3), &[1, 2, 1], &[2, 1, 2], WIDE), Ok((Verdict::Same, 5)));
    assert_eq!(compared(&braid(3), &[1], &[2], WIDE), Ok((Verdict::Different, 1)));
    assert_eq!(compared(&braid(1), &[], &[], Limits { allowance: 65_535, workspace: 0 }), Ok((Verdict::Same, 0)));
}

#[test]
fn lengths_of_chains() {
    let one_entry = Ok(Listing::Same { steps: 5, entries: 1, bytes: 5 });
    for answer in [5, 6, 13, 14, 32_768] {
        assert_eq!(chained(&braid(3), &[1, 2, 1], &[2, 1, 2], answer), one_entry);
    }
    for answer in [4, 2, 0] {
        assert_eq!(chained(&braid(3), &[1, 2, 1], &[2, 1, 2], answer), Err(Refusal::plain(13)));
    }
    assert_eq!(chained(&braid(3), &[1], &[2], 0), Ok(Listing::Different { steps: 1 }));
    let equal = Table::light(2, vec![Some((vec![], vec![]))]);
    assert_eq!(chained(&equal, &[1], &[2], 5), Ok(Listing::Same { steps: 1, entries: 1, bytes: 5 }));
    assert_eq!(chained(&braid(3), &[1], &[], 0), Ok(Listing::Different { steps: 0 }));
    assert_eq!(chained(&braid(3), &[1, 2, 1], &[1, 2, 1], 2), Ok(Listing::Same { steps: 3, entries: 0, bytes: 2 }));
    assert_eq!(chained(&braid(3), &[1, 2, 1], &[1, 2, 1], 1), Err(Refusal::plain(13)));
    assert_eq!(chained(&braid(1), &[], &[], 2), Ok(Listing::Same { steps: 0, entries: 0, bytes: 2 }));
    // Two different moves that vanish have an entry.
    assert_eq!(chained(&twins(1, 1), &[1, 2], &[4, 3], 10), Ok(Listing::Same { steps: 3, entries: 3, bytes: 10 }));
    assert_eq!(chained(&twins(1, 1), &[1, 2], &[4, 3], 9), Err(Refusal::plain(13)));
    assert_eq!(chained(&growing(3, 1), &[2, 3, 3], &[3, 3, 2], 14), Ok(Listing::Same { steps: 9, entries: 5, bytes: 14 }));
}

#[test]
fn what_is_left_to_run() {
    assert_eq!(left(&braid(3), &[1], &[1, 2, 1], 2), Ok((Remainder::Moves(vec![2, 1]), 1)));
    assert_eq!(left(&braid(3), &[2], &[1, 2, 1], 2), Ok((Remainder::Moves(vec![1, 2]), 3)));
    assert_eq!(left(&braid(3), &[1], &[1, 2, 1], 1), Err(Refusal::plain(13)));
    assert_eq!(left(&braid(3), &[1, 2, 1], &[2, 1, 2], 0), Ok((Remainder::Moves(vec![]), 5)));
    assert_eq!(left(&braid(3), &[1], &[2], 0), Ok((Remainder::None, 1)));
    assert_eq!(left(&braid(3), &[1], &[], 0), Ok((Remainder::None, 0)));
    assert_eq!(left(&Table::light(2, vec![None]), &[1, 1], &[1, 2], 0), Ok((Remainder::None, 1)));
}

#[test]
fn the_single_entry_is_a_chain() {
    let [first, second] = [[1, 2, 1], [2, 1, 2]].map(|word| program_image(3, &word));
    let entries = chain_image(3, &[Entry { offset: 0, a: 1, b: 2 }]);
    assert_eq!(entries, [0x00, 0x01, 0x00, 0x00, 0x20]);
    assert_eq!(check(&table_image(&braid(3)), &first, &second, &entries, 3, &mut 0), Ok(Passage::Joins));
}

#[test]
fn an_open_pair() {
    let table = Table::light(2, vec![None]);
    assert_eq!(reversed(&table, &[-1, 2], WIDE), Err(Refusal::at(10, Place::Pair(1, 2))));
    assert_eq!(compared(&table, &[1], &[2], WIDE), Ok((Verdict::Different, 0)));
}

#[test]
fn a_cube_that_fails() {
    for table in [no_cube(), open_at_last()] {
        assert_eq!(cleared(&table, WIDE), Err(Refusal::at(9, Place::Triple(1, 2, 3))));
    }
}

#[test]
fn unequal_weights() {
    for table in [doubled().weighing(vec![1, 1]), completions_alone()] {
        assert_eq!(compared(&table, &[1], &[1], WIDE), Err(Refusal::at(8, Place::Pair(1, 2))));
        assert_eq!(compared(&table, &[], &[], WIDE), Err(Refusal::at(8, Place::Pair(1, 2))));
    }
    assert_eq!(compared(&doubled(), &[], &[], WIDE), Ok((Verdict::Same, 0)));
}

#[test]
fn weights() {
    assert_eq!(cleared(&doubled(), Limits { allowance: 0, workspace: 0 }), Ok(()));
    assert_eq!(read_table(&table_image(&doubled())), Ok(doubled()));
    assert_eq!(read_plain_table(&plain_table(&doubled())), Ok(doubled()));
    assert_eq!(compared(&doubled(), &[1, 2, 1], &[2, 2], WIDE), Ok((Verdict::Same, 4)));
    assert_eq!(compared(&doubled(), &[1, 1], &[2, 2], WIDE), Ok((Verdict::Different, 0)));
    assert_eq!(compared(&doubled(), &[1, 1], &[2], WIDE), Ok((Verdict::Different, 3)));
    assert_eq!(left(&doubled(), &[1, 2], &[2, 2], 1), Ok((Remainder::Moves(vec![1]), 3)));
    assert_eq!(left(&doubled(), &[2, 2], &[1, 2, 1], 0), Ok((Remainder::Moves(vec![]), 4)));
    assert_eq!(left(&doubled(), &[2], &[1], 0), Ok((Remainder::None, 0)));
    assert_eq!(left(&doubled(), &[2], &[1, 1], 0), Ok((Remainder::None, 3)));
    assert_eq!(compared(&doubled(), &[1, 2, 1], &[2, 2], Limits { workspace: 6, ..WIDE }), Ok((Verdict::Same, 4)));
    assert_eq!(compared(&doubled(), &[1, 2, 1], &[2, 2], Limits { workspace: 5, ..WIDE }), Err(Refusal::plain(12)));
}

#[test]
fn a_word_that_grows() {
    let [first, second] = [vec![2, 2], vec![1, 2, 1]].map(|word| program_image(2, &word));
    let entries = chain_image(2, &[Entry { offset: 0, a: 2, b: 1 }]);
    assert_eq!(entries, [0x00, 0x01, 0x00, 0x01, 0x00]);
    let checked = |workspace| check(&table_image(&doubled()), &first, &second, &entries, workspace, &mut 0);
    assert_eq!([4, 3, 2].map(checked), [Ok(Passage::Joins), Ok(Passage::Joins), Err(Refusal::plain(12))]);
    let listed = |answer| chain(&table_image(&doubled()), &first, &second, WIDE, answer, &mut Most::default());
    assert_eq!([5, 4].map(listed), [Ok(Listing::Same { steps: 4, entries: 1, bytes: 5 }), Err(Refusal::plain(13))]);
}

#[test]
fn faults_of_tables() {
    let refused = |number| Err(Refusal::plain(number));
    assert_eq!(read_plain_table(&[2, 1, 8, 255]), Ok(Table::light(2, vec![None]).weighing(vec![1, 8])));
    assert_eq!(read_plain_table(&[2, 1, 9, 255]), refused(2));
    assert_eq!(read_plain_table(&[2, 0, 1, 255]), refused(2));
    assert_eq!(read_plain_table(&[2, 0]), refused(2));
    assert_eq!(read_plain_table(&[2, 9]), refused(2));
    assert_eq!(read_plain_table(&[2, 1, 1, 16]), refused(2));
    assert_eq!(read_plain_table(&[3, 1, 1, 1, 2, 1]), refused(1));
    assert_eq!(read_plain_table(&[2, 1, 1, 0, 255]), refused(2));
    assert_eq!(read_plain_table(&[2, 1, 1, 255, 0]), refused(3));
    assert_eq!(read_plain_table(&[2, 1]), refused(1));
    for (image, number) in [(&[0x20, 0x04, 0xB0], 2), (&[0x20, 0x02, 0x03], 1)] {
        assert_eq!(read_table(image), refused(number));
    }
    for (image, number) in [(0x10, 1), (0x20, 1), (0x01, 3)] {
        assert_eq!(read_table(&[image]), refused(number));
    }
    assert_eq!(read_table(&[0x11, 0xC0]), Ok(Table::light(2, vec![None]).weighing(vec![1, 8])));
}

#[test]
fn an_endless_table_is_stopped_at_every_allowance() {
    let table = endless();
    for allowance in (0..200).chain([4_095, 20_000, 65_535]) {
        let stopped = cleared(&table, Limits { allowance, ..WIDE });
        assert!(matches!(stopped, Err(Refusal { number: 11 | 12, place: Place::Triple(..) })), "{allowance}: {stopped:?}");
    }
}

#[test]
fn beds() {
    let table = table_image(&braid(3));
    let program = program_image(3, &[-3, 1, -2, 1, 2]);
    let whole = vec![4, 1, 2, 3, 0, 2, 0, 0, 255, 255, 0, 0, 0, 1, 255, 255];
    for moves in [5, 6, 65_536, u64::MAX] {
        assert_eq!(bed(&table, &program, moves, 16), Ok(whole.clone()));
    }
    assert_eq!(bed(&table, &program, 1, 16), Ok(vec![1, 2, 4, 3, 0, 0, 0, 0, 0, 0, 0, 0, 0, 0, 255, 255]));
    assert_eq!(bed(&table, &program, 5, 15), Err(Refusal::plain(13)));
    assert_eq!(bed(&[0x00], &[0x00, 0x18], 1, 4), Ok(vec![2, 1, 255, 255]));
    assert_eq!(bed(&[0x10, 0x00], &[], 0, 0), Err(Refusal::plain(15)));
    let half = program_image(16, &[16; 4_095]);
    let bytes = bed(&table_image(&braid(16)), &half, 5_000, 289).unwrap();
    assert_eq!((&bytes[14..17], &bytes[287..]), (&[15, 17, 16][..], &[0x0F, 0xFF][..]));
}

fn left_reversed(table: &Table, word: &[i8], limits: Limits, answer: usize) -> Result<(Vec<i8>, Vec<i8>, usize), Refusal> {
    let program = program_image(table.moves, word);
    left_reverse(&table_image(table), &program, limits, answer, &mut Most::default()).map(|f| (f.numerator, f.denominator, f.steps))
}

fn mirror_cleared(table: &Table, allowance: usize, workspace: usize) -> Result<(), Refusal> {
    mirror_clear(&table_image(table), Limits { allowance, workspace }, &mut Most::default())
}

#[test]
fn mirrors() {
    for moves in 1..=16 {
        assert_eq!(mirror(&braid(moves)), Ok(braid(moves)));
    }
    let pairs = vec![None, Some((vec![2], vec![1])), Some((vec![1], vec![3]))];
    assert_eq!(mirror(&clears_alone()), Ok(Table::light(3, pairs)));
    assert_eq!(mirror(&doubled()), Ok(doubled()));
}

#[test]
fn left_reversings() {
    let narrow = Limits { allowance: 1, workspace: 4 };
    assert_eq!(left_reversed(&braid(3), &[1, -2], narrow, 4), Ok((vec![2, 1], vec![1, 2], 1)));
    assert_eq!(left_reversed(&braid(3), &[1, -2], narrow, 3), Err(Refusal::plain(13)));
    assert_eq!(left_reversed(&braid(3), &[1, -2], Limits { allowance: 0, ..narrow }, 4), Err(Refusal::plain(11)));
    assert_eq!(left_reversed(&braid(3), &[1, -2], Limits { workspace: 3, ..narrow }, 4), Err(Refusal::plain(12)));
    assert_eq!(left_reversed(&braid(3), &[2, 1, -2, 1, -3], WIDE, 7), Ok((vec![3, 2, 1, 1], vec![2, 3, 1], 5)));
    assert_eq!(left_reversed(&braid(3), &[-3, 1, -2, 1, 2], WIDE, 7), Ok((vec![2, 1, 1, 2], vec![1, 2, 3], 1)));
    for allowance in [0, 1, 65_535] {
        let open = left_reversed(&Table::light(2, vec![None]), &[1, -2], Limits { allowance, ..WIDE }, 7);
        assert_eq!(open, Err(Refusal::at(10, Place::Pair(2, 1))));
    }
    let long = left_reversed(&Table::light(2, vec![None]), &[1, -2], Limits { workspace: 1, ..WIDE }, 7);
    assert_eq!(long, Err(Refusal::plain(12)));
    assert_eq!(left_reversed(&clears_alone(), &[3, -1], WIDE, 7), Ok((vec![2], vec![1], 1)));
    assert_eq!(left_reversed(&clears_alone(), &[1, -2], WIDE, 7), Err(Refusal::at(10, Place::Pair(2, 1))));
    assert_eq!(left_reversed(&one_last_move(), &[], Limits { workspace: 2, ..WIDE }, 7), Err(Refusal::at(16, Place::Pair(1, 2))));
    let empty_image = left_reverse(&table_image(&one_last_move()), &[], WIDE, 7, &mut Most::default());
    assert_eq!(empty_image.err(), Some(Refusal::plain(4)));
}

#[test]
fn mirrors_that_clear() {
    assert_eq!(mirror_cleared(&braid(3), 5, 11), Ok(()));
    assert_eq!(mirror_cleared(&braid(3), 4, 11), Err(Refusal::at(11, Place::MirrorTriple(1, 2, 3))));
    assert_eq!(mirror_cleared(&braid(3), 5, 10), Err(Refusal::at(12, Place::MirrorTriple(1, 2, 3))));
    assert_eq!(cleared(&clears_alone(), WIDE), Ok(()));
    assert_eq!(mirror_cleared(&clears_alone(), 65_535, 32_768), Err(Refusal::at(17, Place::MirrorTriple(1, 3, 2))));
    assert_eq!(mirror_cleared(&doubled().weighing(vec![1, 1]), 65_535, 32_768), Err(Refusal::at(8, Place::Pair(1, 2))));
    assert_eq!(mirror_cleared(&doubled(), 0, 0), Ok(()));
}

#[test]
fn tables_without_a_mirror() {
    for (table, (a, b)) in [(one_last_move(), (1, 2)), (shared_crossed(), (2, 3)), (shared_in_order(), (1, 3)), (no_cube(), (2, 3))] {
        assert_eq!(mirror_cleared(&table, 65_535, 32_768), Err(Refusal::at(16, Place::Pair(a, b))));
    }
}

#[test]
fn listings() {
    let table = table_image(&braid(3));
    let of = |word: &[i8], area: usize| ways(&table, &program_image(3, word), area);
    assert_eq!(of(&[1, 2, 1], 8), Ok((2, vec![1, 2, 1, 0, 2, 1, 2, 0])));
    assert_eq!(of(&[2, 1, 2], 8), of(&[1, 2, 1], 8));
    assert_eq!(of(&[1, 2, 1], 7), Err(Refusal::plain(13)));
    assert_eq!(of(&[], 1), Ok((1, vec![0])));
    assert_eq!(of(&[], 0), Err(Refusal::plain(13)));
    assert_eq!(program_image(3, &[1, 2, 1, 3, 2, 1]), [0x00, 0x60, 0x42, 0x20]);
    let (words, listing) = of(&[1, 2, 1, 3, 2, 1], 112).unwrap();
    assert_eq!((words, listing.len(), &listing[..14]), (16, 112, &[1, 2, 1, 3, 2, 1, 0, 1, 2, 3, 1, 2, 1, 0][..]));
    let heavy = table_image(&doubled());
    assert_eq!(ways(&heavy, &program_image(2, &[2, 2]), 7), Ok((2, vec![1, 2, 1, 0, 2, 2, 0])));
    let unequal = table_image(&doubled().weighing(vec![1, 1]));
    assert_eq!(ways(&unequal, &program_image(2, &[1]), 9), Err(Refusal::at(8, Place::Pair(1, 2))));
    assert_eq!(ways(&unequal, &program_image(2, &[-1]), 9), Err(Refusal::plain(7)));
}

fn enquired(table: &Table, word: &[i8], limits: Limits) -> Result<[usize; 3], Refusal> {
    enquire(&table_image(table), &program_image(table.moves, word), limits, &mut Most::default())
}

type Committed = Result<(Vec<i8>, Vec<i8>, usize), Refusal>;

fn committed(table: &Table, word: &[i8], limits: Limits, numbers: [u64; 3], answer: usize) -> Committed {
    let program = program_image(table.moves, word);
    commit(&table_image(table), &program, limits, numbers, answer, &mut Most::default()).map(|f| (f.numerator, f.denominator, f.steps))
}

#[test]
fn enquiries() {
    let word = [-3, 1, -2, 1, 2];
    assert_eq!(enquired(&braid(3), &word, WIDE), Ok([4, 3, 5]));
    assert_eq!(enquired(&braid(3), &word, Limits { allowance: 5, workspace: 9 }), Ok([4, 3, 5]));
    assert_eq!(enquired(&braid(3), &word, Limits { allowance: 4, ..WIDE }), Err(Refusal::plain(11)));
    assert_eq!(enquired(&braid(3), &word, Limits { workspace: 8, ..WIDE }), Err(Refusal::plain(12)));
    assert_eq!(enquired(&Table::light(2, vec![None]), &[-1, 2], WIDE), Err(Refusal::at(10, Place::Pair(1, 2))));
    assert_eq!(enquired(&braid(3), &[1, 2], Limits { allowance: 0, workspace: 2 }), Ok([2, 0, 0]));
    assert_eq!(enquire(&[], &[], WIDE, &mut Most::default()), Err(Refusal::plain(1)));
    assert_eq!(enquire(&table_image(&braid(3)), &[], WIDE, &mut Most::default()), Err(Refusal::plain(4)));
}

#[test]
fn commits() {
    let word = [-3, 1, -2, 1, 2];
    let whole = Ok((vec![1, 1, 2, 3], vec![1, 3, 2], 5));
    for answer in [7, 8, 32_768] {
        assert_eq!(committed(&braid(3), &word, WIDE, [4, 3, 5], answer), whole);
    }
    assert_eq!(committed(&braid(3), &word, WIDE, [4, 3, 5], 6), Err(Refusal::plain(13)));
    let near = [[3, 4, 5], [4, 3, 4], [5, 2, 5], [5, 3, 5], [4, 2, 5]];
    let far = [[4, 3, 5 + (1 << 32)], [4, 3 + (1 << 63), 5], [4 + (1 << 16), 3, 5], [u64::MAX; 3], [0; 3]];
    for numbers in near.into_iter().chain(far) {
        for answer in [0, 6, 7, 32_768] {
            assert_eq!(committed(&braid(3), &word, WIDE, numbers, answer), Err(Refusal::plain(18)), "{numbers:?}");
        }
    }
    assert_eq!(committed(&braid(3), &word, Limits { allowance: 4, ..WIDE }, [0; 3], 7), Err(Refusal::plain(11)));
    assert_eq!(committed(&braid(3), &word, Limits { workspace: 8, ..WIDE }, [4, 3, 5], 7), Err(Refusal::plain(12)));
    assert_eq!(committed(&Table::light(2, vec![None]), &[-1, 2], WIDE, [0; 3], 7), Err(Refusal::at(10, Place::Pair(1, 2))));
    assert_eq!(committed(&braid(3), &[1, 2], Limits { allowance: 0, workspace: 2 }, [2, 0, 0], 2), Ok((vec![1, 2], vec![], 0)));
}

#[test]
fn imports() {
    let of = |text: &str, area: usize| import(&table_image(&braid(3)), text.as_bytes(), area);
    let refused = |number| Err(Refusal::plain(number));
    assert_eq!([4, 3].map(|area| of("-(1 2)^2", area)), [Ok(vec![-2, -1, -2, -1]), refused(13)]);
    for text in ["", "()", "(1 2)^0", "()^99 -()", "(((((((())))))))"] {
        assert_eq!(of(text, 0), Ok(vec![]), "{text:?}");
    }
    assert_eq!(of("-1^2 3", 3), Ok(vec![-1, -1, 3]));
    assert_eq!(of("(-1)^2", 2), Ok(vec![-1, -1]));
    assert_eq!(of("-(1 -2^3 (3))", 5), Ok(vec![-3, 2, 2, 2, -1]));
    for text in [" 1", "1 ", "1  2", "01", "0", "1^", "--1", "^2", "( 1)", "1)", "100", "1^100", "(((((((((1)))))))))", "4^0 x"] {
        assert_eq!(of(text, 9), refused(19), "{text:?}");
    }
    assert_eq!(of("((((((((()))))))))", 9), refused(19));
    assert_eq!(of("((((((((1))))))))", 1), Ok(vec![1]));
    for text in ["4", "4^0", "(1 99)^0", "(1^99)^41 1^37 4"] {
        assert_eq!(of(text, 9), refused(5), "{text:?}");
    }
    assert_eq!(of("(1^99)^41 1^36", 4_095), Ok(vec![1; 4_095]));
    assert_eq!(of("(1^99)^41 1^37", 9), refused(20));
    assert_eq!(of("((((((((1^99)^99)^99)^99)^99)^99)^99)^99)^99", 9), refused(20));
    assert_eq!(of("((((((((1^99)^99)^99)^99)^99)^99)^99)^99)^0", 0), Ok(vec![]));
    assert_eq!(import(&[], b"x", 9), refused(1));
}

/// J of specification 10: 1 1 1 = 2, where 2 weighs 3.
fn tripled() -> Table {
    Table::light(2, vec![Some((vec![1, 1], vec![]))]).weighing(vec![1, 3])
}

fn signed(table: &Table, first: &[i8], second: &[i8], workspace: usize) -> Result<(Verdict, [usize; 2]), Refusal> {
    signed_within(table, first, second, Limits { workspace, ..WIDE })
}

fn signed_within(table: &Table, first: &[i8], second: &[i8], limits: Limits) -> Result<(Verdict, [usize; 2]), Refusal> {
    let [first, second] = [first, second].map(|word| program_image(table.moves, word));
    let decided = compare_signed(&table_image(table), &first, &second, limits, &mut Most::default());
    decided.map(|Decision { verdict, first, second }| (verdict, [first, second]))
}

#[test]
fn signed_comparisons() {
    use Verdict::{Different, Same};
    assert_eq!(signed(&braid(3), &[1, 2, -1], &[-2, 1, 2], 1_000), Ok((Same, [4, 1])));
    assert_eq!(signed(&braid(3), &[1], &[1], 1_000), Ok((Same, [1, 0])));
    assert_eq!(signed(&braid(3), &[1, -2], &[-2, 1], 1_000), Ok((Different, [2, 2])));
    assert_eq!(signed(&braid(3), &[1], &[], 1_000), Ok((Different, [0, 0])));
    assert_eq!(signed(&braid(3), &[1], &[1, 1], 1_000), Ok((Different, [1, 0])));
    let in_set = |number| Err(Refusal::at(number, Place::Set));
    assert_eq!([5, 4].map(|w| signed(&braid(1), &[1, -1], &[-1, 1], w)), [Ok((Same, [1, 1])), in_set(12)]);
    assert_eq!(signed(&braid(1), &[1, -1], &[-1, 1], 2), in_set(12));
    assert_eq!(signed_within(&braid(1), &[1, -1], &[-1, 1], Limits { allowance: 0, workspace: 2 }), in_set(12));
    assert_eq!(table_image(&tripled()), [0x10, 0xA4, 0x00]);
    assert_eq!(signed(&tripled(), &[1, 1, 1], &[2], 12), Ok((Same, [3, 0])));
    for workspace in [11, 7, 4] {
        assert_eq!(signed(&tripled(), &[1, 1, 1], &[2], workspace), in_set(12));
    }
    let allowed = |allowance| signed_within(&tripled(), &[1, 1, 1], &[2], Limits { allowance, workspace: 12 });
    assert_eq!([3, 2, 1].map(allowed), [Ok((Same, [3, 0])), Err(Refusal::plain(11)), in_set(11)]);
    for word in [vec![], vec![1, -4], vec![2, 3, -2]] {
        assert_eq!(signed(&braid(4), &word, &[], 32_768), Err(Refusal::plain(22)));
    }
    let pair = |number, a, b| Err(Refusal::at(number, Place::Pair(a, b)));
    assert_eq!(signed(&Table::light(2, vec![None]), &[], &[], 32_768), pair(21, 1, 2));
    assert_eq!(signed(&one_last_move(), &[], &[], 32_768), pair(16, 1, 2));
    assert_eq!(signed(&doubled().weighing(vec![1, 1]), &[], &[], 32_768), pair(8, 1, 2));
    assert_eq!(signed(&no_cube(), &[], &[], 32_768), pair(16, 2, 3));
    assert_eq!(signed(&clears_alone(), &[], &[], 32_768), Err(Refusal::at(17, Place::MirrorTriple(1, 3, 2))));
}

/// The answers for logs under a table against a pattern, with an allowance and areas of such lengths.
fn answers(table: &Table, logs: &[Vec<u8>], pattern: &[i8], limits: Limits, area: usize) -> Result<Vec<u8>, Refusal> {
    tray(&table_image(table), &laid(logs), &program_image(table.moves, pattern), limits, area, &mut Most::default())
}

#[test]
fn trays() {
    let logs = |words: &[&[i8]]| words.iter().map(|word| program_image(3, word)).collect::<Vec<_>>();
    let two = logs(&[&[1, 2, 1], &[1, 1, 2]]);
    assert_eq!(laid(&two), [0x02, 0x00, 0x03, 0x00, 0x30, 0x40, 0x00, 0x03, 0x00, 0x30, 0x08]);
    assert_eq!(answers(&braid(3), &two, &[2, 1, 2], WIDE, 6), Ok(vec![0, 0, 5, 1, 0, 6]));
    assert_eq!(answers(&braid(3), &two, &[2, 1, 2], WIDE, 5), Err(Refusal::plain(13)));
    assert_eq!(answers(&braid(3), &[], &[2, 1, 2], WIDE, 0), Ok(vec![]));
    assert_eq!(answers(&no_cube(), &[], &[2, 1, 2], WIDE, 0), Err(Refusal::at(9, Place::Triple(1, 2, 3))));
    let unequal = doubled().weighing(vec![1, 1]);
    assert_eq!(answers(&unequal, &[], &[], WIDE, 0), Err(Refusal::at(8, Place::Pair(1, 2))));
    let refused = |number| Err(Refusal::plain(number));
    let trays: [&[u8]; 8] =
        [&[], &[2, 0, 3, 0x00, 0x30, 0x40], &[1], &[1, 0], &[1, 0, 4, 0x00, 0x30, 0x40], &[0, 0], &[1, 0, 3, 0x00, 0x30, 0x40, 0], &[64]];
    for bytes in trays {
        assert_eq!(images(bytes), refused(24));
        assert_eq!(tray(&[], bytes, &[], WIDE, 0, &mut Most::default()), Err(Refusal::plain(24)));
    }
    for bytes in [&[65][..], &[255, 0]] {
        assert_eq!(images(bytes), refused(23));
        assert_eq!(tray(&[], bytes, &[], WIDE, 0, &mut Most::default()), Err(Refusal::plain(23)));
    }
    let pattern = program_image(3, &[2, 1, 2]);
    assert_eq!(answers(&braid(3), &vec![pattern.clone(); 64], &[2, 1, 2], WIDE, 192), Ok([0, 0, 3].repeat(64)));
    assert_eq!(answers(&braid(3), &vec![pattern.clone(); 65], &[2, 1, 2], WIDE, 200), Err(Refusal::plain(23)));
    let faulty = [vec![0x00, 0x30, 0x40], vec![], vec![0x00, 0x36], vec![0x00, 0x30, 0x41], vec![0x00, 0x18], pattern];
    let said = vec![0, 0, 5, 4, 0, 0, 5, 0, 0, 6, 0, 0, 7, 0, 0, 0, 0, 3];
    assert_eq!(answers(&braid(3), &faulty, &[2, 1, 2], WIDE, 18), Ok(said));
    let four = logs(&[&[2, 1, 2, 3], &[1, 2, 1, 3], &[1, 1, 2, 3], &[1]]);
    let tight = Limits { allowance: 5, workspace: 11 };
    assert_eq!(answers(&braid(3), &four, &[2, 1, 2, 3], tight, 12), Ok(vec![0, 0, 4, 11, 0, 0, 12, 0, 0, 1, 0, 0]));
    assert_eq!(answers(&braid(3), &two, &[-1], WIDE, 6), Err(Refusal::plain(7)));
    let at_triple = |number| Err(Refusal::at(number, Place::Triple(1, 2, 3)));
    assert_eq!(answers(&braid(3), &two, &[2, 1, 2], Limits { allowance: 4, ..WIDE }, 0), at_triple(11));
    assert_eq!(answers(&braid(3), &two, &[2, 1, 2], Limits { workspace: 10, ..WIDE }, 0), at_triple(12));
    assert_eq!(answers(&braid(1), &[program_image(1, &[1; 256])], &[1; 256], WIDE, 3), Ok(vec![0, 1, 0]));
    assert_eq!(answers(&braid(1), &[vec![0; 65_535]], &[1; 256], WIDE, 3), Ok(vec![6, 0, 0]));
    let open = Table::light(2, vec![None]);
    let least = Limits { allowance: 1, workspace: 2 };
    assert_eq!(answers(&open, &[vec![0x00, 0x14], vec![0x00, 0x10]], &[1], least, 6), Ok(vec![1, 0, 0, 0, 0, 1]));
}
