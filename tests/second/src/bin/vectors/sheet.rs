//! Every case of specification 10, with the outcome that stands there.
use crate::book::Book;
use second::call::Call;
use second::expected::expected;
use second::reversing::Most;

const WIDE: usize = 32_768;
const MOST: u16 = 65_535;

const B: &str = "20 04 90 86 30 92 92 60";
const S: &str = "00";
const O: &str = "10 00";
const K: &str = "20 04 51 23 09 10 40";
const U: &str = "10 25 0C";
const H: &str = "10 65 0C";
const X: &str = "10 63 20";
const E: &str = "20 04 90 86 50 45 29 26";
const G: &str = "20 04 61 22 8C";
const V: &str = "10 23 18";
const Y: &str = "20 04 60 40 00";
const Z: &str = "20 04 60 8C 28";
const Q: &str = "30 00 80 46 11 1C 50";
const F: &str = "30 00 92 10 C6 12 38 92 92 68 E2 CB 8A C0";
const J: &str = "10 A4 00";
/// The example's program, and 1 2 1 and 2 1 2.
const P: &str = "00 5C 28 20";
const P121: &str = "00 30 40";
const P212: &str = "00 32 08";

/// What each case tests, from case 1 on.
const ABOUT: [&str; 102] = [
    "the example: numerator, denominator and steps",
    "the example with just enough of a limit",
    "the example with one too little of a limit",
    "a starting word that is too long comes before the allowance",
    "the next program of the source",
    "a finished word needs no step",
    "the allowance is tested before the room",
    "two equal moves vanish, and that is a step",
    "an open pair at any allowance, the back move first",
    "the braid table clears",
    "a stop in clearing has its triple",
    "no triple, nothing to reverse",
    "the cube rule is broken",
    "a reversing that never ends is stopped",
    "1 2 1 and 2 1 2 are the same",
    "different, and different weights without a step",
    "two empty programs in no workspace",
    "an open pair is different, not refused",
    "unequal sides, and the weights that make them equal",
    "the table is cleared first",
    "the first program's fault comes first",
    "one entry in just its bytes, and one byte less",
    "different needs no area; two different moves that vanish are an entry",
    "joins in a workspace of the longest word, and one less",
    "an entry that does not fit",
    "no entry leads to another program",
    "a word that grows on the way",
    "faults of table images",
    "faults of plain tables",
    "faults of program images; a back move under one move",
    "the count is tested before the moves",
    "moves that are left, and an area one short",
    "moves that are left after a swap",
    "no move is left",
    "none needs no area",
    "an open pair is none",
    "the table is cleared first",
    "the part done's fault comes first",
    "no move is run",
    "one move is run",
    "more moves than there are; areas of 16 and 15",
    "a full twist",
    "one move, forward and back",
    "not the braid table, before the program is read",
    "faults of the program before the area",
    "totals of 4,095 and -4,095",
    "weights of tables unpacked",
    "weights of tables packed",
    "sides are weighed, not completions",
    "the same with programs of unequal length",
    "weights and not lengths",
    "a chain through unequal sides",
    "a word that grows, checked",
    "moves left under weights",
    "none by weight",
    "left reversing, exact and one short",
    "the example backward",
    "the rightmost pair first",
    "an open pair from the right, and a word too long",
    "the mirror's own relations",
    "no mirror, after the program is read",
    "the mirror of the braid table",
    "clears while its mirror does not",
    "relations that offend",
    "the weights before the mirror's cube rule",
    "every way, exact and one short",
    "sixteen ways",
    "words of different lengths in order",
    "the empty program",
    "the back move before the weights, the weights before the area",
    "sizes and stops",
    "the numbers of the enquiry",
    "other numbers, before the area",
    "stops and open pairs before the numbers",
    "a finished word",
    "a minus undoes the whole",
    "nothing at all",
    "counts, minuses and brackets",
    "no pattern",
    "eight brackets and nine",
    "numbers above n, also under a count of 0",
    "4,095 moves and one more",
    "counts that multiply beyond all numbers",
    "the same with back moves",
    "different with back moves",
    "the least workspace of a set",
    "a set of more than 256 words",
    "an open pair in the set",
    "the checks before the set",
    "two logs, and an area one short",
    "no logs: cleared all the same",
    "a tray that ends early, before the table",
    "bytes behind a tray",
    "more than 64 logs, whatever follows",
    "64 logs and 65",
    "faulty logs have their numbers",
    "stops of single logs",
    "the pattern, then the clearing, before the area",
    "steps in two bytes; a log of 65,535 bytes",
    "an open pair of a log is different",
    "the least workspace of a set",
    "the least allowance of a set",
];

pub fn hex(text: &str) -> Vec<u8> {
    text.split_whitespace().map(|byte| u8::from_str_radix(byte, 16).expect("two digits")).collect()
}

fn decimal(text: &str) -> Vec<u8> {
    text.split_whitespace().map(|byte| byte.parse().expect("a byte")).collect()
}

/// Adds cases under their numbers in section 10.
struct Sheet<'a> {
    book: &'a mut Book,
    number: usize,
}

impl Sheet<'_> {
    fn case(&mut self, number: usize) -> &mut Self {
        self.number = number;
        self
    }

    /// A call with what it must give: the result, the values and the beginning of the answer area in hexadecimal.
    fn holds(&mut self, call: Call, areas: (usize, usize), result: u8, values: [u64; 4], written: &str) {
        let left = expected(&call, areas.0, areas.1, &mut Most::default()).written;
        assert!(left.starts_with(&hex(written)), "case {}: {left:02X?}", self.number);
        let what = format!("case {}, {}", self.number, ABOUT[self.number - 1]);
        self.book.gives("10", &what, call, areas, result, values);
    }

    fn reverse(&mut self, (table, program): (&str, &str), (k, w, a): (u16, usize, usize), result: u8, values: [u64; 4], written: &str) {
        self.holds(Call::Reverse { table: hex(table), program: hex(program), allowance: k }, (w, a), result, values, written);
    }

    fn left(&mut self, (table, program): (&str, &str), (k, w, a): (u16, usize, usize), result: u8, values: [u64; 4], written: &str) {
        self.holds(Call::LeftReverse { table: hex(table), program: hex(program), allowance: k }, (w, a), result, values, written);
    }

    fn clear(&mut self, table: &str, (k, w): (u16, usize), result: u8, values: [u64; 4]) {
        self.holds(Call::Clear { table: hex(table), allowance: k }, (w, 0), result, values, "");
    }

    fn mirror_clear(&mut self, table: &str, (k, w): (u16, usize), result: u8, values: [u64; 4]) {
        self.holds(Call::MirrorClear { table: hex(table), allowance: k }, (w, 0), result, values, "");
    }

    fn compare(&mut self, (table, first, second): (&str, &str, &str), (k, w): (u16, usize), result: u8, values: [u64; 4]) {
        self.holds(Call::Compare { table: hex(table), first: hex(first), second: hex(second), allowance: k }, (w, 0), result, values, "");
    }

    fn signed(&mut self, (table, first, second): (&str, &str, &str), (k, w): (u16, usize), result: u8, values: [u64; 4]) {
        self.holds(
            Call::CompareSigned { table: hex(table), first: hex(first), second: hex(second), allowance: k },
            (w, 0),
            result,
            values,
            "",
        );
    }

    fn chain(&mut self, (table, first, second): (&str, &str, &str), a: usize, result: u8, values: [u64; 4]) {
        self.holds(
            Call::Chain { table: hex(table), first: hex(first), second: hex(second), allowance: MOST },
            (WIDE, a),
            result,
            values,
            "",
        );
    }

    fn remainder(&mut self, (table, done, pattern): (&str, &str, &str), a: usize, result: u8, values: [u64; 4], written: &str) {
        let call = Call::Remainder { table: hex(table), done: hex(done), pattern: hex(pattern), allowance: MOST };
        self.holds(call, (WIDE, a), result, values, written);
    }

    fn check(&mut self, (table, first, second): (&str, &str, &str), entries: &str, w: usize, result: u8, values: [u64; 4]) {
        let call = Call::Check { table: hex(table), first: hex(first), second: hex(second), entries: hex(entries) };
        self.holds(call, (w, 0), result, values, "");
    }

    fn bed(&mut self, (table, program): (&str, &[u8]), moves: u64, a: usize, result: u8, written: &str) {
        let values = [if result == 0 { (usize::from(hex(table)[0] / 16) + 2).pow(2) as u64 } else { 0 }, 0, 0, 0];
        self.holds(Call::Bed { table: hex(table), program: program.to_vec(), moves }, (0, a), result, values, written);
    }

    fn ways(&mut self, (table, program): (&str, &str), a: usize, result: u8, values: [u64; 4], written: &str) {
        self.holds(Call::Ways { table: hex(table), program: hex(program) }, (0, a), result, values, written);
    }

    fn enquire(&mut self, (table, program): (&str, &str), (k, w): (u16, usize), result: u8, values: [u64; 4]) {
        self.holds(Call::Enquire { table: hex(table), program: hex(program), allowance: k }, (w, 0), result, values, "");
    }

    fn commit(
        &mut self,
        (table, program): (&str, &str),
        numbers: [u64; 3],
        (k, w, a): (u16, usize, usize),
        result: u8,
        values: [u64; 4],
        written: &str,
    ) {
        let call = Call::Commit { table: hex(table), program: hex(program), allowance: k, numbers };
        self.holds(call, (w, a), result, values, written);
    }

    fn import(&mut self, text: &str, a: usize, result: u8, moves: u64, written: &str) {
        self.holds(Call::Import { table: hex(B), text: text.into() }, (0, a), result, [moves, 0, 0, 0], written);
    }

    fn tray(
        &mut self,
        (table, tray, pattern): (&str, &[u8], &str),
        (k, w, a): (u16, usize, usize),
        result: u8,
        values: [u64; 4],
        written: &str,
    ) {
        let call = Call::Tray { table: hex(table), tray: tray.to_vec(), pattern: hex(pattern), allowance: k };
        self.holds(call, (w, a), result, values, written);
    }
}

fn reversing(sheet: &mut Sheet) {
    let fraction = "01 01 02 03 01 03 02";
    sheet.case(1).reverse((B, P), (MOST, WIDE, WIDE), 0, [4, 3, 5, 0], fraction);
    for limits in [(5, WIDE, WIDE), (MOST, 9, WIDE), (MOST, WIDE, 7)] {
        sheet.case(2).reverse((B, P), limits, 0, [4, 3, 5, 0], fraction);
    }
    for (limits, result) in [((4, WIDE, WIDE), 11), ((MOST, 8, WIDE), 12), ((MOST, WIDE, 6), 13)] {
        sheet.case(3).reverse((B, P), limits, result, [0; 4], "");
    }
    sheet.case(4).reverse((B, P), (0, 4, WIDE), 12, [0; 4], "");
    sheet.case(5).reverse((B, "00 7B A0 05 00"), (MOST, WIDE, WIDE), 0, [3, 2, 7, 0], "01 02 03 02 01");
    sheet.case(6).reverse((B, "00 20 40"), (0, 2, 2), 0, [2, 0, 0, 0], "01 02");
    sheet.case(7).reverse((B, "00 28 40"), (0, 3, WIDE), 11, [0; 4], "");
    sheet.case(7).reverse((B, "00 28 40"), (1, 3, WIDE), 12, [0; 4], "");
    sheet.case(8).reverse((B, "00 28 00"), (1, 2, 0), 0, [0, 0, 1, 0], "");
    sheet.case(8).reverse((B, "00 28 00"), (0, 2, 0), 11, [0; 4], "");
    for allowance in [0, 1, MOST] {
        sheet.case(9).reverse((O, "00 29"), (allowance, WIDE, WIDE), 10, [1, 1, 2, 0], "");
    }
    sheet.case(9).reverse((O, "00 2C"), (MOST, WIDE, WIDE), 10, [1, 2, 1, 0], "");
}

fn clearing(sheet: &mut Sheet) {
    let first_triple = [2, 1, 2, 3];
    sheet.case(10).clear(B, (MOST, WIDE), 0, [0; 4]);
    sheet.case(10).clear(B, (5, 11), 0, [0; 4]);
    sheet.case(11).clear(B, (4, WIDE), 11, first_triple);
    sheet.case(11).clear(B, (MOST, 10), 12, first_triple);
    sheet.case(12).clear(O, (0, 0), 0, [0; 4]);
    sheet.case(12).clear(S, (0, 0), 0, [0; 4]);
    sheet.case(13).clear(K, (MOST, WIDE), 9, first_triple);
    sheet.case(13).clear(Q, (MOST, WIDE), 9, first_triple);
    for (allowance, result) in [(0, 11), (16_382, 11), (16_383, 12), (MOST, 12)] {
        sheet.case(14).clear(E, (allowance, WIDE), result, first_triple);
    }
}

fn comparing(sheet: &mut Sheet) {
    let wide = (MOST, WIDE);
    sheet.case(15).compare((B, P121, P212), wide, 0, [0, 5, 0, 0]);
    sheet.case(16).compare((B, "00 10", "00 12"), wide, 0, [1, 1, 0, 0]);
    sheet.case(16).compare((B, "00 10", "00 00"), wide, 0, [1, 0, 0, 0]);
    sheet.case(17).compare((S, "00 00", "00 00"), (MOST, 0), 0, [0; 4]);
    sheet.case(18).compare((O, "00 10", "00 14"), wide, 0, [1, 0, 0, 0]);
    sheet.case(19).compare((U, "00 00", "00 00"), wide, 8, [1, 1, 2, 0]);
    sheet.case(19).compare((H, "00 00", "00 00"), wide, 0, [0; 4]);
    sheet.case(20).compare((K, "00 10", "00 00"), wide, 9, [2, 1, 2, 3]);
    sheet.case(21).compare((B, P, ""), wide, 7, [0; 4]);
    sheet.case(21).compare((B, "", P), wide, 4, [0; 4]);
    sheet.case(22).chain((B, P121, P212), 5, 0, [0, 5, 1, 5]);
    sheet.case(22).chain((B, P121, P212), 4, 13, [0; 4]);
    sheet.case(23).chain((B, "00 10", "00 12"), 0, 0, [1, 1, 0, 0]);
    sheet.case(23).chain(("10 20 00", "00 10", "00 14"), 5, 0, [0, 1, 1, 5]);
    let entry = "00 01 00 00 20";
    sheet.case(24).check((B, P121, P212), entry, 3, 0, [0; 4]);
    sheet.case(24).check((B, P121, P212), entry, 2, 12, [0; 4]);
    sheet.case(25).check((B, P212, P121), entry, WIDE, 0, [1, 0, 0, 0]);
    sheet.case(26).check((B, "00 20 40", "00 22 00"), "00 00", WIDE, 0, [2, 0, 0, 0]);
    sheet.case(27).check((U, "00 25", "00 31 00"), "00 01 00 01 00", 2, 12, [0; 4]);
    sheet.case(27).check((U, "00 25", "00 31 00"), "00 01 00 01 00", 3, 0, [0; 4]);
}

fn packing(sheet: &mut Sheet) {
    for (image, result) in [("20 04 B0", 2), ("20 02 03", 1), ("20 04 90 86 30 92 92 61", 3), ("00 00", 3), ("01", 3)] {
        sheet.case(28).holds(Call::UnpackTable { table: hex(image) }, (0, WIDE), result, [0; 4], "");
    }
    for (plain, result) in [("2 1 1 16", 2), ("3 1 1 1 2 1", 1), ("2 1 1 0 255", 2), ("2 1 1 255 0", 3), ("0", 2)] {
        sheet.case(29).holds(Call::PackTable { plain: decimal(plain) }, (0, WIDE), result, [0; 4], "");
    }
    for (image, result) in [("00 36", 5), ("00 5C 28", 4), ("00 5C 28 21", 6)] {
        sheet.case(30).holds(Call::UnpackProgram { table: hex(B), program: hex(image) }, (0, WIDE), result, [0; 4], "");
    }
    sheet.case(30).holds(Call::UnpackProgram { table: hex(S), program: hex("00 24") }, (0, WIDE), 0, [2, 0, 0, 0], "01 81");
    for (count, result) in [(4_096, 4), (4_095, 5)] {
        sheet.case(31).holds(Call::PackProgram { table: hex(S), plain: vec![0; count] }, (0, WIDE), result, [0; 4], "");
    }
    sheet.case(47).holds(Call::UnpackTable { table: hex("20") }, (0, WIDE), 1, [0; 4], "");
    sheet.case(47).holds(Call::UnpackTable { table: hex("0E") }, (0, WIDE), 0, [2, 0, 0, 0], "01 08");
    sheet.case(47).holds(Call::UnpackTable { table: hex("11 C0") }, (0, WIDE), 0, [4, 0, 0, 0], "02 01 08 FF");
    for (plain, result) in [("2 1 9 255", 2), ("2 0", 2), ("2 1", 1)] {
        sheet.case(48).holds(Call::PackTable { plain: decimal(plain) }, (0, WIDE), result, [0; 4], "");
    }
    sheet.case(48).holds(Call::PackTable { plain: decimal("2 1 8 255") }, (0, WIDE), 0, [2, 0, 0, 0], "11 C0");
}

fn remaining(sheet: &mut Sheet) {
    sheet.case(32).remainder((B, "00 10", P121), 2, 0, [0, 2, 1, 0], "02 01");
    sheet.case(32).remainder((B, "00 10", P121), 1, 13, [0; 4], "");
    sheet.case(33).remainder((B, "00 12", P121), WIDE, 0, [0, 2, 3, 0], "01 02");
    sheet.case(34).remainder((B, P121, P212), 0, 0, [0, 0, 5, 0], "");
    sheet.case(35).remainder((B, "00 10", "00 12"), 0, 0, [1, 0, 1, 0], "");
    sheet.case(35).remainder((B, "00 10", "00 00"), WIDE, 0, [1, 0, 0, 0], "");
    sheet.case(36).remainder((O, "00 10", "00 14"), WIDE, 0, [1, 0, 0, 0], "");
    sheet.case(37).remainder((K, "00 10", "00 00"), WIDE, 9, [2, 1, 2, 3], "");
    sheet.case(38).remainder((B, P, ""), WIDE, 7, [0; 4], "");
}

fn beds(sheet: &mut Sheet) {
    let program = hex(P);
    let whole = "04 01 02 03 00 02 00 00 FF FF 00 00 00 01 FF FF";
    sheet.case(39).bed((B, &program), 0, WIDE, 0, "01 02 03 04 00 00 00 00 00 00 00 00 00 00 00 00");
    sheet.case(40).bed((B, &program), 1, WIDE, 0, "01 02 04 03 00 00 00 00 00 00 00 00 00 00 FF FF");
    for moves in [5, 6, 65_536, u64::MAX] {
        sheet.case(41).bed((B, &program), moves, WIDE, 0, whole);
    }
    sheet.case(41).bed((B, &program), 5, 16, 0, whole);
    sheet.case(41).bed((B, &program), 5, 15, 13, "");
    sheet.case(42).bed((B, &hex("00 C0 50 28 14 0A")), 12, WIDE, 0, "01 02 03 04 00 02 00 02 00 02 00 02 00 02 00 02");
    sheet.case(43).bed((S, &hex("00 24")), 1, WIDE, 0, "02 01 00 01");
    sheet.case(43).bed((S, &hex("00 24")), 2, WIDE, 0, "01 02 00 00");
    for table in [O, K, U, E] {
        sheet.case(44).bed((table, &hex("00 00")), 1, WIDE, 15, "");
    }
    sheet.case(44).bed((O, &[]), 1, WIDE, 15, "");
    for (image, result) in [("", 4), ("00 36", 5), ("00 5C 28 21", 6)] {
        sheet.case(45).bed((B, &hex(image)), 1, 0, result, "");
    }
}

fn weights(sheet: &mut Sheet) {
    let (long, short) = ("00 31 00", "00 25");
    sheet.case(49).clear(H, (0, 0), 0, [0; 4]);
    sheet.case(49).clear(U, (MOST, WIDE), 8, [1, 1, 2, 0]);
    sheet.case(49).clear(X, (MOST, WIDE), 8, [1, 1, 2, 0]);
    sheet.case(50).compare((H, long, short), (MOST, 6), 0, [0, 4, 0, 0]);
    sheet.case(50).compare((H, long, short), (MOST, 5), 12, [0; 4]);
    sheet.case(51).compare((H, "00 20", "00 14"), (MOST, WIDE), 0, [1, 3, 0, 0]);
    sheet.case(51).compare((H, "00 20", short), (MOST, WIDE), 0, [1, 0, 0, 0]);
    sheet.case(52).chain((H, short, long), 5, 0, [0, 4, 1, 5]);
    sheet.case(52).chain((H, short, long), 4, 13, [0; 4]);
    for (w, result) in [(4, 0), (3, 0), (2, 12)] {
        sheet.case(53).check((H, short, long), "00 01 00 01 00", w, result, [0; 4]);
    }
    sheet.case(54).remainder((H, "00 21", short), WIDE, 0, [0, 1, 3, 0], "01");
    sheet.case(54).remainder((H, long, short), WIDE, 0, [0, 0, 4, 0], "");
    sheet.case(55).remainder((H, "00 14", "00 10"), WIDE, 0, [1, 0, 0, 0], "");
    sheet.case(55).remainder((H, "00 14", "00 20"), WIDE, 0, [1, 0, 3, 0], "");
}

fn mirrors(sheet: &mut Sheet) {
    sheet.case(56).left((B, "00 21 40"), (1, 4, 4), 0, [2, 2, 1, 0], "02 01 01 02");
    for (limits, result) in [((1, 4, 3), 13), ((0, 4, 4), 11), ((1, 3, 4), 12)] {
        sheet.case(56).left((B, "00 21 40"), limits, result, [0; 4], "");
    }
    let wide = (MOST, WIDE, WIDE);
    sheet.case(57).left((B, "00 52 28 C0"), wide, 0, [4, 3, 5, 0], "03 02 01 01 02 03 01");
    sheet.case(58).left((B, P), wide, 0, [4, 3, 1, 0], "02 01 01 02 01 02 03");
    for allowance in [0, 1, MOST] {
        sheet.case(59).left((O, "00 23"), (allowance, WIDE, WIDE), 10, [1, 2, 1, 0], "");
    }
    sheet.case(59).left((O, "00 23"), (MOST, 1, WIDE), 12, [0; 4], "");
    sheet.case(60).left((G, "00 25 00"), wide, 0, [1, 1, 1, 0], "02 01");
    sheet.case(60).left((G, "00 21 40"), wide, 10, [1, 2, 1, 0], "");
    sheet.case(61).left((V, "00 00"), (MOST, 2, WIDE), 16, [1, 1, 2, 0], "");
    sheet.case(61).left((V, ""), (MOST, 2, WIDE), 4, [0; 4], "");
    sheet.case(62).mirror_clear(B, (5, 11), 0, [0; 4]);
    sheet.case(62).mirror_clear(B, (4, WIDE), 11, [3, 1, 2, 3]);
    sheet.case(62).mirror_clear(B, (MOST, 10), 12, [3, 1, 2, 3]);
    sheet.case(63).clear(G, (MOST, WIDE), 0, [0; 4]);
    sheet.case(63).mirror_clear(G, (MOST, WIDE), 17, [3, 1, 3, 2]);
    for (table, a, b) in [(V, 1, 2), (Y, 2, 3), (Z, 1, 3), (K, 2, 3)] {
        sheet.case(64).mirror_clear(table, (MOST, WIDE), 16, [1, a, b, 0]);
    }
    sheet.case(65).mirror_clear(U, (MOST, WIDE), 8, [1, 1, 2, 0]);
    sheet.case(65).mirror_clear(H, (0, 0), 0, [0; 4]);
}

fn ways(sheet: &mut Sheet) {
    for program in [P121, P212] {
        sheet.case(66).ways((B, program), 8, 0, [2, 8, 0, 0], "01 02 01 00 02 01 02 00");
        sheet.case(66).ways((B, program), 7, 13, [0; 4], "00 00 00 00 00 00 00");
    }
    sheet.case(67).ways((B, "00 60 42 20"), 112, 0, [16, 112, 0, 0], "01 02 01 03 02 01 00 01 02 03 01 02 01 00");
    sheet.case(68).ways((H, "00 25"), WIDE, 0, [2, 7, 0, 0], "01 02 01 00 02 02 00");
    sheet.case(69).ways((B, "00 00"), 1, 0, [1, 1, 0, 0], "00");
    sheet.case(69).ways((B, "00 00"), 0, 13, [0; 4], "");
    sheet.case(69).ways((K, "00 00"), 1, 0, [1, 1, 0, 0], "00");
    sheet.case(70).ways((U, "00 18"), 0, 7, [0; 4], "");
    sheet.case(70).ways((U, "00 10"), 0, 8, [1, 1, 2, 0], "");
}

fn enquiries(sheet: &mut Sheet) {
    sheet.case(71).enquire((B, P), (MOST, WIDE), 0, [4, 3, 5, 0]);
    sheet.case(71).enquire((B, P), (4, WIDE), 11, [0; 4]);
    sheet.case(71).enquire((B, P), (MOST, 8), 12, [0; 4]);
    sheet.case(72).commit((B, P), [4, 3, 5], (MOST, WIDE, 7), 0, [4, 3, 5, 0], "01 01 02 03 01 03 02");
    sheet.case(72).commit((B, P), [4, 3, 5], (MOST, WIDE, 6), 13, [0; 4], "");
    for numbers in [[3, 4, 5], [4, 3, 4], [4, 3, 5 + (1 << 32)], [5, 2, 5]] {
        sheet.case(73).commit((B, P), numbers, (MOST, WIDE, 0), 18, [0; 4], "");
    }
    sheet.case(74).commit((B, P), [0; 3], (4, WIDE, WIDE), 11, [0; 4], "");
    sheet.case(74).commit((O, "00 29"), [0; 3], (MOST, WIDE, WIDE), 10, [1, 1, 2, 0], "");
    sheet.case(75).enquire((B, "00 20 40"), (0, 2), 0, [2, 0, 0, 0]);
    sheet.case(75).commit((B, "00 20 40"), [2, 0, 0], (0, 2, 2), 0, [2, 0, 0, 0], "01 02");
}

fn imports(sheet: &mut Sheet) {
    sheet.case(76).import("-(1 2)^2", 4, 0, 4, "82 81 82 81");
    sheet.case(76).import("-(1 2)^2", 3, 13, 0, "");
    for text in ["", "()", "(1 2)^0", "()^99 -()"] {
        sheet.case(77).import(text, 0, 0, 0, "");
    }
    sheet.case(78).import("-1^2 3", WIDE, 0, 3, "81 81 03");
    sheet.case(78).import("(-1)^2", WIDE, 0, 2, "81 81");
    sheet.case(78).import("-(1 -2^3 (3))", WIDE, 0, 5, "83 02 02 02 81");
    for text in [" 1", "1 ", "1  2", "01", "0", "1^", "--1", "^2", "( 1)", "1)", "100", "1^100"] {
        sheet.case(79).import(text, WIDE, 19, 0, "");
    }
    let inside = |depth: usize, text: &str| ["(".repeat(depth), text.into(), ")".repeat(depth)].concat();
    sheet.case(80).import(&inside(8, "1"), WIDE, 0, 1, "01");
    sheet.case(80).import(&inside(9, "1"), WIDE, 19, 0, "");
    sheet.case(80).import(&inside(8, ""), WIDE, 0, 0, "");
    sheet.case(80).import(&inside(9, ""), WIDE, 19, 0, "");
    for (text, result) in [("4", 5), ("4^0", 5), ("(1 99)^0", 5), ("4^0 x", 19)] {
        sheet.case(81).import(text, WIDE, result, 0, "");
    }
    sheet.case(82).import("(1^99)^41 1^36", WIDE, 0, 4_095, "01 01 01 01");
    sheet.case(82).import("(1^99)^41 1^37", WIDE, 20, 0, "");
    sheet.case(82).import("(1^99)^41 1^37 4", WIDE, 5, 0, "");
    let tower = |outermost: &str| format!("{}1^99{})^{outermost}", "(".repeat(8), ")^99".repeat(7));
    sheet.case(83).import(&tower("99"), WIDE, 20, 0, "");
    sheet.case(83).import(&tower("0"), WIDE, 0, 0, "");
}

fn signed(sheet: &mut Sheet) {
    sheet.case(84).signed((B, "00 30 60", "00 3A 08"), (MOST, 1_000), 0, [0, 4, 1, 0]);
    sheet.case(84).signed((B, "00 10", "00 10"), (MOST, 1_000), 0, [0, 1, 0, 0]);
    sheet.case(85).signed((B, "00 21 40", "00 2A 00"), (MOST, WIDE), 0, [1, 2, 2, 0]);
    sheet.case(85).signed((B, "00 10", "00 00"), (MOST, WIDE), 0, [1, 0, 0, 0]);
    sheet.case(85).signed((B, "00 10", "00 20 00"), (MOST, WIDE), 0, [1, 1, 0, 0]);
    let set = [4, 0, 0, 0];
    sheet.case(86).signed((S, "00 24", "00 28"), (MOST, 5), 0, [0, 1, 1, 0]);
    for (k, w) in [(MOST, 4), (MOST, 2), (0, 2)] {
        sheet.case(86).signed((S, "00 24", "00 28"), (k, w), 12, set);
    }
    let empty = |table: &'static str| (table, "00 00", "00 00");
    sheet.case(87).signed(empty(F), (MOST, WIDE), 22, [0; 4]);
    sheet.case(88).signed(empty(O), (MOST, WIDE), 21, [1, 1, 2, 0]);
    for (table, result, values) in [(V, 16, [1, 1, 2, 0]), (U, 8, [1, 1, 2, 0]), (K, 16, [1, 2, 3, 0]), (G, 17, [3, 1, 3, 2])] {
        sheet.case(89).signed(empty(table), (MOST, WIDE), result, values);
    }
    for (w, result, values) in [(12, 0, [0, 3, 0, 0]), (11, 12, set), (7, 12, set), (4, 12, set)] {
        sheet.case(101).signed((J, "00 30 00", "00 14"), (MOST, w), result, values);
    }
    for (k, result, values) in [(3, 0, [0, 3, 0, 0]), (2, 11, [0; 4]), (1, 11, set)] {
        sheet.case(102).signed((J, "00 30 00", "00 14"), (k, 12), result, values);
    }
}

fn trays(sheet: &mut Sheet) {
    let wide = (MOST, WIDE, WIDE);
    let two = hex("02 00 03 00 30 40 00 03 00 30 08");
    sheet.case(90).tray((B, &two, P212), (MOST, WIDE, 6), 0, [2, 0, 0, 0], "00 00 05 01 00 06");
    sheet.case(90).tray((B, &two, P212), (MOST, WIDE, 5), 13, [0; 4], "");
    sheet.case(91).tray((B, &[0], P212), (MOST, WIDE, 0), 0, [0; 4], "");
    sheet.case(91).tray((K, &[0], P212), wide, 9, [2, 1, 2, 3], "");
    sheet.case(91).tray((U, &[0], "00 00"), wide, 8, [1, 1, 2, 0], "");
    for tray in ["", "02 00 03 00 30 40", "01", "01 00", "01 00 04 00 30 40"] {
        sheet.case(92).tray(("", &hex(tray), P212), wide, 24, [0; 4], "");
    }
    for tray in ["00 00", "01 00 03 00 30 40 00"] {
        sheet.case(93).tray(("", &hex(tray), P212), wide, 24, [0; 4], "");
    }
    for (tray, result) in [("41", 23), ("FF 00", 23), ("40", 24)] {
        sheet.case(94).tray(("", &hex(tray), P212), wide, result, [0; 4], "");
    }
    let many = |count: u8| [vec![count], hex("00 03 00 32 08").repeat(count.into())].concat();
    sheet.case(95).tray((B, &many(64), P212), (MOST, WIDE, 192), 0, [64, 0, 0, 0], &"00 00 03 ".repeat(64));
    sheet.case(95).tray((B, &many(65), P212), wide, 23, [0; 4], "");
    let faulty = hex("06 00 03 00 30 40 00 00 00 02 00 36 00 03 00 30 41 00 02 00 18 00 03 00 32 08");
    sheet.case(96).tray((B, &faulty, P212), wide, 0, [6, 0, 0, 0], "00 00 05 04 00 00 05 00 00 06 00 00 07 00 00 00 00 03");
    let stopped = hex("04 00 03 00 42 0A 00 03 00 40 42 00 03 00 40 0A 00 02 00 10");
    sheet.case(97).tray((B, &stopped, "00 42 0A"), (5, 11, WIDE), 0, [4, 0, 0, 0], "00 00 04 0B 00 00 0C 00 00 01 00 00");
    let one = hex("01 00 03 00 30 40");
    sheet.case(98).tray((B, &one, "00 18"), wide, 7, [0; 4], "");
    sheet.case(98).tray((B, &one, ""), wide, 4, [0; 4], "");
    sheet.case(98).tray((B, &one, P212), (4, WIDE, 0), 11, [2, 1, 2, 3], "");
    sheet.case(98).tray((B, &one, P212), (MOST, 10, 0), 12, [2, 1, 2, 3], "");
    let ones = [hex("10"), vec![0; 33]].concat();
    let pattern: String = ones.iter().map(|byte| format!("{byte:02X} ")).collect();
    sheet.case(99).tray((S, &[hex("01 00 22"), ones].concat(), &pattern), wide, 0, [1, 0, 0, 0], "00 01 00");
    sheet.case(99).tray((S, &[hex("01 FF FF"), vec![0; 65_535]].concat(), &pattern), wide, 0, [1, 0, 0, 0], "06 00 00");
    let open = hex("02 00 02 00 14 00 02 00 10");
    sheet.case(100).tray((O, &open, "00 10"), (1, 2, WIDE), 0, [2, 0, 0, 0], "01 00 00 00 00 01");
}

/// 16 moves: the last two bobbins alone cross, 4,095 times.
fn far_bed(sheet: &mut Sheet) {
    use second::image::{program_image, table_image};
    let table = table_image(&second::tables::braid(16));
    for (m, last) in [(16, [0x0F, 0xFF]), (-16, [0xF0, 0x01])] {
        let call = Call::Bed { table: table.clone(), program: program_image(16, &vec![m; 4_095]), moves: 4_095 };
        sheet.case(46).holds(call, (0, 289), 0, [289, 0, 0, 0], "01 02 03 04 05 06 07 08 09 0A 0B 0C 0D 0E 0F 11 10");
        let left = &sheet.book.vectors.last().expect("one was added").must.written;
        assert_eq!(left[287..], last);
    }
}

pub fn add(book: &mut Book) {
    let mut sheet = Sheet { book, number: 0 };
    for part in
        [reversing, clearing, comparing, packing, remaining, beds, far_bed, weights, mirrors, ways, enquiries, imports, signed, trays]
    {
        part(&mut sheet);
    }
}
