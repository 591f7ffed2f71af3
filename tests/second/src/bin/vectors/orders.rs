//! The order of the tests (specification 7.2): each fault that a call can have alone, and each two of them at once, of which the earlier one comes.
use crate::book::Book;
use crate::images::{chain_layout, program_layout, table_layout, with, Layout};
use crate::inputs::{Inputs, CALLS};
use second::expected::expected;
use second::image::Entry;
use second::mirror::mirror;
use second::random::Random;
use second::reversing::{Limits, Most};
use second::services::cleared;
use second::table::Table;
use second::tables::braid;
use second::tables::mirror::clears_alone;
use second::tables::signed::{costly_mirror, product};
use second::tray::laid;
use second::word::Word;

/// A fault of one image: it ends early, a field names no move, bytes follow it, or a program has a back move.
#[derive(Clone, Copy, PartialEq)]
enum Damage {
    Ends,
    Field,
    Tail,
    Back,
}
use Damage::{Back, Ends, Field, Tail};

#[derive(Clone, Copy, PartialEq)]
enum Image {
    Table,
    First,
    Second,
    Chain,
    PlainTable,
    PlainProgram,
}

#[derive(Clone, Copy, PartialEq)]
enum Stage {
    Clearing,
    Mirror,
    Set,
    Programs,
}

#[derive(Clone, Copy, PartialEq)]
enum Fault {
    Of(Image, Damage),
    TooManyLogs,
    NotTray,
    Weights,
    Cube,
    NotBraid,
    NoMirror,
    MirrorCube,
    SetOpen,
    SetLarge,
    OpenPair,
    Allowance(Stage),
    Workspace(Stage),
    Numbers,
    Area,
    NotPattern,
    HighNumber,
    ManyMoves,
}
use Fault::{Allowance, Of, Workspace};

impl Fault {
    fn number(self) -> u8 {
        match self {
            Of(image, damage) => {
                let first = if matches!(image, Image::Table | Image::PlainTable) { 1 } else { 4 };
                first + [Ends, Field, Tail, Back].iter().position(|other| *other == damage).expect("one of four") as u8
            }
            Fault::Weights => 8,
            Fault::Cube => 9,
            Fault::OpenPair => 10,
            Allowance(_) => 11,
            Workspace(_) => 12,
            Fault::Area => 13,
            Fault::NotBraid => 15,
            Fault::NoMirror => 16,
            Fault::MirrorCube => 17,
            Fault::Numbers => 18,
            Fault::NotPattern => 19,
            Fault::HighNumber => 5,
            Fault::ManyMoves => 20,
            Fault::SetOpen => 21,
            Fault::SetLarge => 22,
            Fault::TooManyLogs => 23,
            Fault::NotTray => 24,
        }
    }

    /// The number and what has it, for a title.
    fn told(self) -> String {
        let of = match self {
            Of(Image::Table | Image::PlainTable, _) => " of the table",
            Of(Image::First | Image::PlainProgram, _) => " of the first program",
            Of(Image::Second, _) => " of the second program",
            Of(Image::Chain, _) => " of the chain",
            Allowance(stage) | Workspace(stage) => match stage {
                Stage::Clearing => " in clearing the table",
                Stage::Mirror => " in clearing the mirror",
                Stage::Set => " in growing the set",
                Stage::Programs => " of the programs",
            },
            _ => "",
        };
        format!("{}{of}", self.number())
    }

    /// The kind of place that tells a stop's stage.
    fn kind(self) -> Option<u64> {
        match self {
            Allowance(stage) | Workspace(stage) => Some(match stage {
                Stage::Clearing => 2,
                Stage::Mirror => 3,
                Stage::Set => 4,
                Stage::Programs => 0,
            }),
            _ => None,
        }
    }
}

const PROGRAM: [Damage; 3] = [Ends, Field, Tail];
const FORWARD: [Damage; 4] = [Ends, Field, Tail, Back];

fn of(image: Image, damages: &[Damage]) -> Vec<Fault> {
    damages.iter().map(|damage| Of(image, *damage)).collect()
}

/// The faults of a call by the stages of its row in 7.2.
fn row(name: &str) -> Vec<Vec<Fault>> {
    let stops = |stage: Stage| vec![Allowance(stage), Workspace(stage)];
    let table = of(Image::Table, &PROGRAM);
    let (signed, forward) = (of(Image::First, &PROGRAM), of(Image::First, &FORWARD));
    let (second_signed, second) = (of(Image::Second, &PROGRAM), of(Image::Second, &FORWARD));
    let reversing = [vec![Fault::OpenPair], stops(Stage::Programs)].concat();
    let cube = [vec![Fault::Cube], stops(Stage::Clearing)].concat();
    let mirror_cube = [vec![Fault::MirrorCube], stops(Stage::Mirror)].concat();
    let set = [vec![Fault::SetOpen, Fault::SetLarge], stops(Stage::Set)].concat();
    let programs = stops(Stage::Programs);
    let (weights, area, no_mirror) = (vec![Fault::Weights], vec![Fault::Area], vec![Fault::NoMirror]);
    match name {
        "reverse" => vec![table, signed, reversing, area],
        "enquire" => vec![table, signed, reversing],
        "commit" => vec![table, signed, reversing, vec![Fault::Numbers], area],
        "left_reverse" => vec![table, signed, no_mirror, reversing, area],
        "clear" => vec![table, weights, cube],
        "mirror_clear" => vec![table, no_mirror, weights, mirror_cube],
        "compare" => vec![table, forward, second, weights, cube, programs],
        "compare_signed" => vec![table, signed, second_signed, no_mirror, weights, cube, mirror_cube, set, programs],
        "chain" | "remainder" => vec![table, forward, second, weights, cube, programs, area],
        "check" => vec![table, forward, second, of(Image::Chain, &PROGRAM), vec![Workspace(Stage::Programs)]],
        "pack_table" => vec![of(Image::PlainTable, &PROGRAM), area],
        "unpack_table" => vec![table, area],
        "pack_program" => vec![table, vec![Of(Image::PlainProgram, Ends)], vec![Of(Image::PlainProgram, Field)], area],
        "unpack_program" => vec![table, signed, area],
        "bed" => vec![table, vec![Fault::NotBraid], signed, area],
        "ways" => vec![table, forward, weights, area],
        "import" => vec![table, vec![Fault::NotPattern], vec![Fault::HighNumber], vec![Fault::ManyMoves], area],
        _ => vec![vec![Fault::TooManyLogs], vec![Fault::NotTray], table, second, weights, cube, area],
    }
}

/// The pairs of one image that have an order, and can stand in it at once.
fn ordered_within(one: Fault, two: Fault) -> bool {
    matches!((one, two), (Of(image, x), Of(other, y)) if image == other && matches!((x, y), (Field, Tail) | (Field, Back) | (Tail, Back) | (Ends, Back)))
}

/// A table of three moves that clears with less than its mirror needs, and what its mirror needs.
struct Costly {
    table: Table,
    mirror: Most,
}

fn costly() -> Costly {
    let needs = |table: &Table| {
        let mut most = Most::default();
        cleared(table, Limits { allowance: 500, workspace: 500 }, &mut most).ok().map(|()| most)
    };
    let mut random = Random::new(3);
    loop {
        let Some(table) = costly_mirror(&mut random) else {
            continue;
        };
        let (Some(own), Some(other)) = (needs(&table), mirror(&table).ok().and_then(|mirror| needs(&mirror))) else {
            continue;
        };
        // Other parts beside it clear with less than its mirror needs.
        if table.moves == 3 && own.steps < other.steps && own.bytes < other.bytes && other.steps > 6 && other.bytes > 12 {
            return Costly { table, mirror: other };
        }
    }
}

/// The part of a table that has a fault. Parts stand beside each other, and moves of different ones commute.
fn part(fault: Fault) -> Option<Table> {
    let given = |there: &[i8], back: &[i8]| Some((there.to_vec(), back.to_vec()));
    match fault {
        // 1 2 1 = 2 2 without weights; 2 1 3 = 3 1 2 beside moves that commute; 1 2 = 2 2; and an open pair.
        Fault::Weights => Some(Table::light(2, vec![given(&[2, 1], &[2])])),
        Fault::Cube | Fault::NotBraid => Some(Table::light(3, vec![given(&[2], &[1]), given(&[3], &[1]), given(&[1, 3], &[1, 2])])),
        Fault::NoMirror => Some(Table::light(2, vec![given(&[2], &[2])])),
        Fault::MirrorCube => Some(clears_alone()),
        Fault::SetOpen | Fault::OpenPair => Some(Table::light(2, vec![None])),
        Fault::SetLarge => Some(braid(4)),
        _ => None,
    }
}

/// An image of this layout with a damage, which is the fault that comes, or not.
fn damaged(image: &mut Vec<u8>, layout: &Layout, damage: Damage, comes: bool) {
    match damage {
        // The image whose fault must not come is empty: that is the fault that is seen with the least reading.
        Ends if !comes => image.clear(),
        Ends => {
            image.pop();
        }
        Tail => image.push(0),
        Field => {
            let field = layout.fields.iter().rev().find(|field| field.names_move()).expect("a move field");
            *image = with(image, field, (1 << field.width) - 1);
        }
        Back => {
            let field = layout.fields.iter().find(|field| field.what.starts_with("the sign")).expect("a move");
            *image = with(image, field, 1);
        }
    }
}

/// Limits that suffice for all but the stops.
const AMPLE: usize = 5_000;
/// Limits that suffice for all checks and sets, and the number of moves of programs that they stop.
const STEPS: (u16, usize) = (200, 201);
const BYTES: (usize, usize) = (3_000, 1_501);

/// Inputs of a call with these faults.
fn inputs(name: &str, faults: &[Fault], costly: &Costly) -> Inputs {
    let has = |fault: Fault| faults.contains(&fault);
    let of_mirror = has(Allowance(Stage::Mirror)) || has(Workspace(Stage::Mirror));
    let mut parts = vec![if of_mirror { costly.table.clone() } else { braid(3) }];
    parts.extend(faults.iter().filter_map(|fault| part(*fault)));
    let table = product(&parts);
    let mut first: Word = vec![1, 2, 1];
    let mut second: Word = vec![2, 1, 2];
    match name {
        "reverse" | "enquire" | "commit" => first = vec![-3, 1, -2, 1, 2],
        "left_reverse" => first = vec![2, 1, -2, 1, -3],
        "remainder" => second.push(3),
        _ => {}
    }
    let reverses = ["reverse", "enquire", "commit", "left_reverse"].contains(&name);
    if has(Fault::OpenPair) {
        // The moves of the second part are 4 and 5.
        first = if name == "left_reverse" { [first, vec![4, -5]].concat() } else { [vec![-4, 5], first].concat() };
    }
    let (mut allowance, mut workspace) = (AMPLE as u16, AMPLE);
    for fault in faults {
        match fault {
            Allowance(Stage::Programs) | Workspace(Stage::Programs) if reverses || name == "check" => {}
            Allowance(Stage::Programs) => (first, second) = (vec![1; STEPS.1], vec![1; STEPS.1]),
            Workspace(Stage::Programs) => (first, second) = (vec![1; BYTES.1], vec![1; BYTES.1]),
            _ => {}
        }
        match fault {
            Allowance(Stage::Clearing) => allowance = 0,
            Workspace(Stage::Clearing) => workspace = 0,
            Allowance(Stage::Mirror) => allowance = allowance.min(costly.mirror.steps as u16 - 1),
            Workspace(Stage::Mirror) => workspace = workspace.min(costly.mirror.bytes - 1),
            Allowance(Stage::Set) => allowance = allowance.min(15),
            Workspace(Stage::Set) => workspace = workspace.min(165),
            Allowance(Stage::Programs) => allowance = allowance.min(if reverses { 0 } else { STEPS.0 }),
            Workspace(Stage::Programs) => workspace = workspace.min(if reverses || name == "check" { 1 } else { BYTES.0 }),
            _ => {}
        }
    }
    let entries = [Entry { offset: 0, a: 1, b: 2 }];
    let mut made = Inputs::new(&table, &first, &second, &entries);
    (made.allowance, made.workspace) = (allowance, workspace);
    made.numbers = if has(Fault::Numbers) { [9, 9, 9] } else { [4, 3, 5] };
    made.answer = if has(Fault::Area) { 0 } else { 400 };
    made.text = [
        "1 2",
        if has(Fault::HighNumber) { " 99^0" } else { "" },
        if has(Fault::ManyMoves) { " (1^99)^99" } else { "" },
        if has(Fault::NotPattern) { " x" } else { "" },
    ]
    .concat()
    .into_bytes();
    damage(&mut made, faults, &table, (&first, &second, &entries));
    made
}

/// Damages the images as the faults say.
fn damage(made: &mut Inputs, faults: &[Fault], table: &Table, (first, second, entries): (&[i8], &[i8], &[Entry])) {
    let n = table.moves;
    // A field is changed before bytes are put behind or taken away.
    for turn in [Back, Field, Tail, Ends] {
        for fault in faults {
            let Of(image, damage) = *fault else {
                continue;
            };
            if damage != turn {
                continue;
            }
            match image {
                Image::Table => damaged(&mut made.table, &table_layout(table), damage, fault == &faults[0]),
                Image::First => damaged(&mut made.first, &program_layout(n, first.len()), damage, fault == &faults[0]),
                Image::Second => damaged(&mut made.second, &program_layout(n, second.len()), damage, fault == &faults[0]),
                Image::Chain => damaged(&mut made.chain, &chain_layout(n, entries.len()), damage, fault == &faults[0]),
                Image::PlainTable => match damage {
                    Field => made.plain_table[1] = 9,
                    Tail => made.plain_table.push(0),
                    _ => {
                        made.plain_table.pop();
                    }
                },
                Image::PlainProgram => match damage {
                    Field => made.plain_program[1] = 0,
                    _ => made.plain_program.resize(4_096, 1),
                },
            }
        }
    }
    let logs = [made.first.clone(), made.first.clone()];
    made.tray = laid(&logs);
    if faults.contains(&Fault::NotTray) {
        made.tray.pop();
    }
    if faults.contains(&Fault::TooManyLogs) {
        made.tray[0] = 65;
    }
}

/// Adds a case in which the first of some faults comes.
fn comes(book: &mut Book, name: &str, faults: &[Fault], what: &str, costly: &Costly) {
    let made = inputs(name, faults, costly);
    let call = made.call(name);
    let must = expected(&call, made.workspace, made.answer, &mut Most::default());
    assert_eq!(must.result, faults[0].number(), "{name}: {what}");
    if let Some(kind) = faults[0].kind() {
        assert_eq!(must.values[0], kind, "{name}: {what}");
    }
    book.add("7.2", what, call, made.workspace, made.answer);
}

pub fn add(book: &mut Book) {
    let costly = costly();
    for name in CALLS {
        let stages = row(name);
        for fault in stages.iter().flatten() {
            comes(book, name, &[*fault], &format!("{} alone", fault.told()), &costly);
        }
        for (k, stage) in stages.iter().enumerate() {
            for one in stage {
                let within = stage.iter().filter(|two| ordered_within(*one, **two));
                for two in within.chain(stages[k + 1..].iter().flatten()) {
                    let what = format!("{} comes before {}", one.told(), two.told());
                    comes(book, name, &[*one, *two], &what, &costly);
                }
            }
        }
    }
}
