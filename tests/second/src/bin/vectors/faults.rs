//! Cases that each show one fault of a library, which the title names.
use crate::book::Book;
use crate::sheet::hex;
use second::call::Call;
use second::image::{chain_image, program_image, table_image, Entry};
use second::table::Table;
use second::tables::{braid, doubled};
use second::tray::laid;

fn example() -> Vec<u8> {
    table_image(&braid(3))
}

/// A program under the example's table.
fn program(word: &[i8]) -> Vec<u8> {
    program_image(3, word)
}

fn reversing(book: &mut Book) {
    let reverse = |word: &[i8], allowance: u16| Call::Reverse { table: example(), program: program(word), allowance };
    let mut shows = |section: &str, what: &str, word: &[i8], (k, w, a): (u16, usize, usize), result: u8, values: [u64; 4]| {
        book.gives(section, what, reverse(word, k), (w, a), result, values);
    };
    let word = [-3, 1, -2, 1, 2];
    shows("6.1", "the workspace is all zero after an answer, also what was not used", &word, (9, 40, 7), 0, [4, 3, 5, 0]);
    shows("6.1", "no byte past the answer area is written", &word, (9, 9, 7), 0, [4, 3, 5, 0]);
    shows("6.1", "bytes behind the answer are as found", &word, (9, 9, 20), 0, [4, 3, 5, 0]);
    shows("3.3", "the steps are counted one by one", &[-1, 2, -3], (9, 20, 20), 0, [2, 3, 1, 0]);
    shows("3.1", "two equal moves vanish in a step that is counted", &[-1, -2, 2, 1], (2, 4, 0), 0, [0, 0, 2, 0]);
    shows("3.3", "D is read from the end of the back part, not as its undoing stands", &[1, -2, -1, -3], (0, 4, 4), 0, [1, 3, 0, 0]);
    shows("8.3", "all four values are set, also those that are 0", &[1], (0, 1, 1), 0, [1, 0, 0, 0]);
    shows("8.2", "no memory beside the values is written", &[2], (0, 1, 1), 0, [1, 0, 0, 0]);
    shows("3.2", "an allowance that is one step short stops", &[-1, 2], (0, 4, 4), 11, [0; 4]);
    shows("3.2", "a workspace of just the longest word suffices", &[-1, 2], (1, 4, 4), 0, [2, 2, 1, 0]);
    let open = Call::Reverse { table: hex("10 00"), program: hex("00 2C"), allowance: 7 };
    book.gives("7.3", "the back move of an open pair comes first", open, (4, 4), 10, [1, 2, 1, 0]);
    // 1 2 2 = 2 1: C(1,2) = 2 2 and C(2,1) = 1.
    let uneven = Table::light(2, vec![Some((vec![2, 2], vec![1]))]);
    let call = Call::Reverse { table: table_image(&uneven), program: program_image(2, &[-1, 2]), allowance: 1 };
    book.gives("2.2", "C(a,b) and C(b,a) are not exchanged", call, (3, 3), 0, [2, 1, 1, 0]);
    let call = Call::LeftReverse { table: example(), program: program(&[1, -2]), allowance: 1 };
    book.gives("3.8", "N stands in its own order, from the finished end too", call, (4, 4), 0, [2, 2, 1, 0]);
    let call = Call::LeftReverse { table: hex("10 23 18"), program: hex("00"), allowance: 1 };
    book.gives("7.2", "a program's fault comes before a mirror that is missing", call, (4, 4), 4, [0; 4]);
    let call = Call::Enquire { table: example(), program: program(&word), allowance: 9 };
    book.gives("8.3", "the length of N is told first, then that of D", call, (9, 0), 0, [4, 3, 5, 0]);
    let commit = |numbers: [u64; 3]| Call::Commit { table: example(), program: program(&word), allowance: 9, numbers };
    book.gives("7.2", "other numbers come before a short area", commit([4, 3, 6]), (9, 0), 18, [0; 4]);
    book.gives("6.16", "numbers are compared with all 64 bits", commit([4 + (1 << 32), 3, 5]), (9, 7), 18, [0; 4]);
}

fn checks(book: &mut Book) {
    let clear = |table: Vec<u8>| Call::Clear { table, allowance: 50 };
    book.gives("7.3", "a broken cube rule has its triple", clear(hex("20 04 51 23 09 10 40")), (50, 0), 9, [2, 1, 2, 3]);
    // 1 = 3 and 2 = 3, the pair 1, 2 open: of the triple 1 3 2 L is undefined and R is not.
    let one_side = Table::light(3, vec![None, Some((vec![], vec![])), Some((vec![], vec![]))]);
    book.gives("4.6", "one undefined side fails the cube rule", clear(table_image(&one_side)), (50, 0), 9, [2, 1, 3, 2]);
    let mirror = |table: &str| Call::MirrorClear { table: hex(table), allowance: 50 };
    book.gives("6.13", "the mirror's cube rule is 17, not 9", mirror("20 04 61 22 8C"), (50, 0), 17, [3, 1, 3, 2]);
    // 1 2 = 2 2 2: no mirror, and sides of unequal weight.
    let both = table_image(&Table::light(2, vec![Some((vec![2], vec![2, 2]))]));
    book.gives("7.2", "no mirror comes before unequal weights", Call::MirrorClear { table: both, allowance: 5 }, (9, 0), 16, [1, 1, 2, 0]);
}

fn comparing(book: &mut Book) {
    let compare = |table: Vec<u8>, first: Vec<u8>, second: Vec<u8>, allowance: u16| Call::Compare { table, first, second, allowance };
    let none = program(&[]);
    book.gives(
        "6.1",
        "the workspace is as found after 8",
        compare(hex("10 25 0C"), hex("00 00"), hex("00 00"), 9),
        (9, 0),
        8,
        [1, 1, 2, 0],
    );
    book.gives(
        "6.4",
        "an open pair is different, not refused",
        compare(hex("10 00"), hex("00 10"), hex("00 14"), 9),
        (9, 0),
        0,
        [1, 0, 0, 0],
    );
    let [long, short] = [program_image(2, &[1, 2, 1]), program_image(2, &[2, 2])];
    book.gives("6.4", "weights are compared, and not lengths", compare(table_image(&doubled()), long, short, 9), (9, 0), 0, [0, 4, 0, 0]);
    let [one, two] = [program(&[1, 2, 1, 1, 2, 1]), program(&[2, 1, 2, 2, 1, 2])];
    book.gives("7.4", "a stop is no verdict", compare(example(), one, two, 5), (60, 0), 11, [0; 4]);
    let back_and_behind = [program(&[-1, 2]), vec![0]].concat();
    book.gives("7.2", "bytes behind a program come before its back move", compare(example(), back_and_behind, none, 5), (60, 0), 6, [0; 4]);
    let signed = |first: &[i8], second: &[i8]| Call::CompareSigned {
        table: example(),
        first: program(first),
        second: program(second),
        allowance: 50,
    };
    book.gives("7.3", "a workspace too short for the set names the set", signed(&[], &[]), (20, 0), 12, [4, 0, 0, 0]);
    book.gives("8.3", "the steps of both reversings are told", signed(&[1, 2, -1], &[-2, 1, 2]), (200, 0), 0, [0, 4, 1, 0]);
    let chain =
        |first: &[i8], second: &[i8]| Call::Chain { table: example(), first: program(first), second: program(second), allowance: 50 };
    book.gives(
        "6.6",
        "the listed chain leads from the first program to the second",
        chain(&[1, 2, 1], &[2, 1, 2]),
        (20, 5),
        0,
        [0, 5, 1, 5],
    );
    book.gives("5.6", "the filling of a listed chain is zero", chain(&[3, 1], &[1, 3]), (20, 5), 0, [0, 3, 1, 5]);
    book.gives("6.6", "steps on equal moves are counted, and have no entry", chain(&[1, 3], &[1, 3]), (20, 2), 0, [0, 2, 0, 2]);
    book.gives("6.6", "an area of just the chain's bytes suffices", chain(&[2, 1, 2], &[1, 2, 1]), (20, 5), 0, [0, 5, 1, 5]);
    let remainder =
        |done: &[i8], pattern: &[i8]| Call::Remainder { table: example(), done: program(done), pattern: program(pattern), allowance: 50 };
    book.gives("6.10", "the moves that are left stand in their order", remainder(&[1], &[1, 2, 3]), (20, 2), 0, [0, 2, 1, 0]);
    book.gives("8.3", "none is told apart from no move left", remainder(&[1], &[2]), (20, 2), 0, [1, 0, 1, 0]);
    let check = |second: &[i8], entries: &[Entry]| Call::Check {
        table: example(),
        first: program(&[1, 2, 1]),
        second: program(second),
        entries: chain_image(3, entries),
    };
    book.gives(
        "6.7",
        "an entry that does not fit breaks the chain",
        check(&[2, 1, 2], &[Entry { offset: 0, a: 2, b: 1 }]),
        (9, 0),
        0,
        [1, 0, 0, 0],
    );
    book.gives("6.7", "the second program's length plays no part in 12", check(&[1; 9], &[]), (3, 0), 0, [2, 0, 0, 0]);
}

fn packing(book: &mut Book) {
    book.gives("5.2", "a weight is one more than its field", Call::UnpackTable { table: hex("0E") }, (0, 2), 0, [2, 0, 0, 0]);
    book.gives("5.7", "bytes behind a plain table are refused", Call::PackTable { plain: vec![1, 1, 0] }, (0, 9), 3, [0; 4]);
    let pack = Call::PackProgram { table: hex("00"), plain: [vec![0], vec![1; 4_095]].concat() };
    book.gives("7.2", "too many bytes come before a wrong one", pack, (0, 9), 4, [0; 4]);
    book.gives(
        "2.1",
        "a back move's byte has 128 more",
        Call::UnpackProgram { table: example(), program: program(&[-3, 2]) },
        (0, 2),
        0,
        [2, 0, 0, 0],
    );
    let bed = |moves: u64| Call::Bed { table: example(), program: program(&[1, 3]), moves };
    book.gives("6.11", "totals have their high byte first", bed(2), (0, 16), 0, [16, 0, 0, 0]);
    book.gives("6.11", "a number of moves beyond 65,535 means all of them", bed(65_536), (0, 16), 0, [16, 0, 0, 0]);
    let ways = |word: &[i8]| Call::Ways { table: example(), program: program(word) };
    book.gives("6.14", "the area is all zero after 13", ways(&[1, 3]), (0, 5), 13, [0; 4]);
    book.gives("6.14", "the word with the lower number comes first", ways(&[3, 1]), (0, 6), 0, [2, 6, 0, 0]);
    let import = |text: &str| Call::Import { table: example(), text: text.into() };
    book.gives("6.1", "a text is only read", import("1 -2"), (0, 2), 0, [2, 0, 0, 0]);
    book.gives("6.17", "4,095 moves are not too many", import("(1^63)^65"), (0, 4_095), 0, [4_095, 0, 0, 0]);
}

fn trays(book: &mut Book) {
    let tray = |logs: &[&[i8]], pattern: &[i8]| {
        let logs: Vec<Vec<u8>> = logs.iter().map(|log| program(log)).collect();
        Call::Tray { table: example(), tray: laid(&logs), pattern: program(pattern), allowance: 300 }
    };
    book.gives("5.11", "a log's steps have their high byte first", tray(&[&[1, 2, 1]], &[2, 1, 2]), (30, 3), 0, [1, 0, 0, 0]);
    book.gives("6.19", "a faulty log ends no tray", tray(&[&[-1], &[1]], &[1]), (30, 6), 0, [2, 0, 0, 0]);
    let many = Call::Tray { table: vec![], tray: vec![65], pattern: vec![], allowance: 0 };
    book.gives("5.11", "more than 64 logs are 23, whatever follows", many, (0, 0), 23, [0; 4]);
}

pub fn add(book: &mut Book) {
    for part in [reversing, checks, comparing, packing, trays] {
        part(book);
    }
}
