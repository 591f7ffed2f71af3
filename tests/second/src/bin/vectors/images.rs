//! Images with one fault each: every field changed in turn, cut at every byte, a bit of the filling set, a byte behind (specification 5).
use crate::book::Book;
use crate::inputs::{section, Inputs, CALLS};
use second::call::Call;
use second::image::{chain_image, program_image, table_image, width, Entry};
use second::plain::plain_table;
use second::table::Table;
use second::tables::{braid, doubled, unrelated};
use second::tray::laid;

/// Longer images are cut at chosen places only.
const SHORT: usize = 40;

/// A field of an image: what it is, its first bit and its width.
pub struct Field {
    pub what: String,
    at: usize,
    pub width: usize,
}

impl Field {
    pub fn names_move(&self) -> bool {
        ["move ", "a of", "b of"].iter().any(|start| self.what.starts_with(start))
    }
}

/// Fields one behind the other.
#[derive(Default)]
pub struct Layout {
    pub fields: Vec<Field>,
    bits: usize,
}

impl Layout {
    fn field(&mut self, what: String, width: usize) {
        self.fields.push(Field { what, at: self.bits, width });
        self.bits += width;
    }
}

pub fn table_layout(table: &Table) -> Layout {
    let mut layout = Layout::default();
    layout.field("the number of moves".into(), 4);
    for m in 1..=table.moves {
        layout.field(format!("the weight of {m}"), 3);
    }
    for (pair, (a, b)) in table.pairs.iter().zip(Table::pair_order(table.moves)) {
        layout.field(format!("whether {a}, {b} is open"), 1);
        let Some((there, back)) = pair else {
            continue;
        };
        for (word, x, y) in [(there, a, b), (back, b, a)] {
            layout.field(format!("the length of C({x},{y})"), 4);
            for k in 1..=word.len() {
                layout.field(format!("move {k} of C({x},{y})"), width(table.moves));
            }
        }
    }
    layout
}

pub fn program_layout(moves: u8, length: usize) -> Layout {
    let mut layout = Layout::default();
    layout.field("the number of moves".into(), 12);
    for k in 1..=length {
        layout.field(format!("the sign of move {k}"), 1);
        layout.field(format!("move {k}"), width(moves));
    }
    layout
}

pub fn chain_layout(moves: u8, entries: usize) -> Layout {
    let mut layout = Layout::default();
    layout.field("the number of entries".into(), 16);
    for k in 0..entries {
        layout.field(format!("the offset of entry {k}"), 15);
        layout.field(format!("a of entry {k}"), width(moves));
        layout.field(format!("b of entry {k}"), width(moves));
    }
    layout
}

fn bit(image: &[u8], at: usize) -> bool {
    image[at / 8] >> (7 - at % 8) & 1 == 1
}

fn value(image: &[u8], field: &Field) -> usize {
    (field.at..field.at + field.width).fold(0, |sum, at| 2 * sum + usize::from(bit(image, at)))
}

/// An image with another value in one field.
pub fn with(image: &[u8], field: &Field, value: usize) -> Vec<u8> {
    let mut image = image.to_vec();
    for k in 0..field.width {
        let at = field.at + field.width - 1 - k;
        image[at / 8] = image[at / 8] & !(0x80 >> (at % 8)) | u8::from(value >> k & 1 == 1) << (7 - at % 8);
    }
    image
}

/// An image with each of its faults, and what the fault is.
fn faults(image: &[u8], layout: &Layout) -> Vec<(String, Vec<u8>)> {
    let mut found = Vec::new();
    for field in layout.fields.iter().filter(|field| field.width > 0) {
        let (here, most) = (value(image, field), (1 << field.width) - 1);
        let mut others = vec![(here + 1) & most, most];
        if field.names_move() && field.width > 1 {
            others.push(here.wrapping_sub(1) & most);
        }
        others.dedup();
        for other in others.into_iter().filter(|other| *other != here) {
            found.push((format!("{} is {other} in its field, not {here}", field.what), with(image, field, other)));
        }
    }
    for at in layout.bits..8 * image.len() {
        let mut other = image.to_vec();
        other[at / 8] |= 0x80 >> (at % 8);
        found.push((format!("bit {at} of the filling is set"), other));
    }
    found.extend(behind(image));
    found.extend(cuts(image));
    found
}

/// Bytes behind an image.
fn behind(image: &[u8]) -> Vec<(String, Vec<u8>)> {
    [0x00, 0x80, 0x01].map(|byte| (format!("a byte {byte:02X} behind"), [image, &[byte]].concat())).to_vec()
}

fn cuts(image: &[u8]) -> Vec<(String, Vec<u8>)> {
    let length = image.len();
    let places: Vec<usize> = if length <= SHORT {
        (0..length).collect()
    } else {
        vec![0, 1, 2, 7, 8, length / 4, length / 2, length - 9, length - 8, length - 2, length - 1]
    };
    places.into_iter().map(|place| (format!("cut after {place} of {length} bytes"), image[..place].to_vec())).collect()
}

/// 1 2 1 = 2 2 beside a braid table of three moves, with an open pair, and every weight from 1 to 8 but 4 to 6.
fn five_moves() -> Table {
    let mut table = braid(5).weighing(vec![1, 2, 3, 7, 8]);
    table.pairs[0] = Some((vec![2, 1], vec![2]));
    table.pairs[5] = None;
    table.pairs[9] = Some((vec![5, 4, 1, 1, 3], vec![]));
    table
}

fn tables(book: &mut Book) {
    let open = Table::light(2, vec![None]).weighing(vec![4, 5]);
    for table in [braid(1), open, doubled(), braid(3), five_moves()] {
        let image = table_image(&table);
        for (what, image) in faults(&image, &table_layout(&table)) {
            let what = format!("of a table of {} moves, {what}", table.moves);
            book.add("5.4", &what, Call::UnpackTable { table: image }, 0, 400);
        }
    }
    let image = table_image(&braid(16));
    for (what, image) in [cuts(&image), behind(&image)].concat() {
        book.add("5.4", &format!("of the braid table of 16 moves, {what}"), Call::UnpackTable { table: image }, 0, 1_000);
    }
}

fn plain_tables(book: &mut Book) {
    for table in [braid(1), doubled(), five_moves()] {
        let plain = plain_table(&table);
        for at in 0..plain.len() {
            let n = table.moves;
            for byte in [0, 8, 9, 16, n, n + 1, 255].into_iter().filter(|byte| *byte != plain[at]) {
                let mut other = plain.clone();
                other[at] = byte;
                let what = format!("of a plain table of {n} moves, byte {at} is {byte}, not {}", plain[at]);
                book.add("5.7", &what, Call::PackTable { plain: other }, 0, 200);
            }
        }
        for (what, plain) in [cuts(&plain), behind(&plain)].concat() {
            book.add("5.7", &format!("of a plain table of {} moves, {what}", table.moves), Call::PackTable { plain }, 0, 200);
        }
    }
}

fn programs(book: &mut Book) {
    let words: [(u8, &[i8]); 6] =
        [(1, &[1, -1, 1]), (2, &[1, -2, 2, 1]), (3, &[-3, 1, -2, 1, 2]), (4, &[4, -4, 1]), (5, &[5, -1, 3, -5]), (16, &[16, -1, 9, 8])];
    for (moves, word) in words {
        let image = program_image(moves, word);
        for (what, program) in faults(&image, &program_layout(moves, word.len())) {
            let what = format!("of a program under {moves} moves, {what}");
            let table = table_image(&unrelated(moves));
            book.add("5.5", &what, Call::UnpackProgram { table, program }, 0, 40);
        }
    }
    for byte in 0..=255 {
        for moves in [1, 3, 16] {
            let near = |limit: u8| byte <= limit + 1 || (127..=129 + limit).contains(&byte) || byte == 255;
            if near(moves) {
                let what = format!("under {moves} moves, a byte {byte} among the moves");
                book.add("5.8", &what, Call::PackProgram { table: table_image(&unrelated(moves)), plain: vec![1, byte, 129] }, 0, 20);
            }
        }
    }
}

fn chains(book: &mut Book) {
    let entries = [Entry { offset: 0, a: 1, b: 2 }, Entry { offset: 2, a: 2, b: 1 }];
    for (moves, first) in [(2, [1, 2, 1, 1, 2]), (3, [1, 2, 1, 3, 2]), (5, [1, 2, 1, 1, 2])] {
        let table = braid(moves);
        for count in 1..=2 {
            let image = chain_image(moves, &entries[..count]);
            for (what, entries) in faults(&image, &chain_layout(moves, count)) {
                let what = format!("of a chain under {moves} moves, {what}");
                let (first, second) = (program_image(moves, &first), program_image(moves, &[2, 1, 2, 1, 2]));
                book.add("5.6", &what, Call::Check { table: table_image(&table), first, second, entries }, 20, 0);
            }
        }
    }
    let (first, second) = (program_image(1, &[1, 1]), program_image(1, &[1, 1]));
    for (offset, what) in [(0, "at a move"), (2, "behind the word")] {
        let entries = chain_image(1, &[Entry { offset, a: 1, b: 1 }]);
        let call = Call::Check { table: vec![0], first: first.clone(), second: second.clone(), entries };
        book.add("5.6", &format!("one move: an entry of equal moves {what} does not fit"), call, 9, 0);
    }
}

fn trays(book: &mut Book) {
    let [log, other] = [[1, 2, 1], [1, 1, 2]].map(|word| program_image(3, &word));
    let tray = laid(&[log, Vec::new(), other]);
    let call = |tray: Vec<u8>| Call::Tray { table: table_image(&braid(3)), tray, pattern: program_image(3, &[2, 1, 2]), allowance: 50 };
    for (what, tray) in [cuts(&tray), behind(&tray)].concat() {
        book.add("5.11", &format!("a tray of three logs, {what}"), call(tray), 40, 20);
    }
    for at in 0..tray.len() {
        for byte in [tray[at].wrapping_add(1), tray[at].wrapping_sub(1), tray[at] ^ 0x80] {
            let mut other = tray.clone();
            other[at] = byte;
            book.add("5.11", &format!("a tray of three logs, byte {at} is {byte}, not {}", tray[at]), call(other), 40, 30);
        }
    }
}

/// Of every call, each of its images cut at every byte, with a byte behind, and with a bit of the filling set.
fn of_every_call(book: &mut Book) {
    for name in CALLS {
        let count = Inputs::example().call(name).images().len();
        for k in 0..count {
            let call = Inputs::example().call(name);
            let (key, image) = call.images()[k];
            let mut wrong = [cuts(image), behind(image)].concat();
            if key != "text" && key != "plain" && key != "tray" {
                let mut other = image.to_vec();
                *other.last_mut().expect("an image has a byte") |= 1;
                wrong.push(("the last bit of the filling is set".into(), other));
            }
            for (what, other) in wrong {
                let mut inputs = Inputs::example();
                *inputs.image(name, k) = other;
                book.add(section(name), &format!("of the {key}, {what}"), inputs.call(name), 60, 60);
            }
        }
    }
}

pub fn add(book: &mut Book) {
    for part in [tables, plain_tables, programs, chains, trays, of_every_call] {
        part(book);
    }
}
