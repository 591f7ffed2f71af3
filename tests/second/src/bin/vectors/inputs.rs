//! The inputs of any call: what each takes is picked from one set of them by the call's name.
use second::call::Call;
use second::image::{chain_image, program_image, table_image, Entry};
use second::plain::plain_table;
use second::table::Table;
use second::tables::braid;
use second::tray::laid;
use second::word::bytes;

pub const CALLS: [&str; 19] = [
    "reverse",
    "left_reverse",
    "enquire",
    "commit",
    "clear",
    "mirror_clear",
    "compare",
    "compare_signed",
    "chain",
    "remainder",
    "check",
    "pack_table",
    "unpack_table",
    "pack_program",
    "unpack_program",
    "bed",
    "ways",
    "import",
    "tray",
];

/// `first` is also the program of a call that takes one, the part done, and the one log of the tray; `second` is also the pattern.
#[derive(Clone)]
pub struct Inputs {
    pub table: Vec<u8>,
    pub first: Vec<u8>,
    pub second: Vec<u8>,
    pub chain: Vec<u8>,
    pub tray: Vec<u8>,
    pub text: Vec<u8>,
    pub plain_table: Vec<u8>,
    pub plain_program: Vec<u8>,
    pub allowance: u16,
    pub numbers: [u64; 3],
    pub moves: u64,
    pub workspace: usize,
    pub answer: usize,
}

impl Inputs {
    /// Sound inputs from a table, two programs and a chain.
    pub fn new(table: &Table, first: &[i8], second: &[i8], entries: &[Entry]) -> Inputs {
        let program = |word: &[i8]| program_image(table.moves, word);
        Inputs {
            table: table_image(table),
            first: program(first),
            second: program(second),
            chain: chain_image(table.moves, entries),
            tray: laid(&[program(first)]),
            text: b"(1)^2 -1".to_vec(),
            plain_table: plain_table(table),
            plain_program: bytes(first),
            allowance: 300,
            numbers: [0; 3],
            moves: 2,
            workspace: 300,
            answer: 300,
        }
    }

    /// Of the specification's example table, the programs 1 2 1 and 2 1 2, and the chain between them.
    pub fn example() -> Inputs {
        Inputs::new(&braid(3), &[1, 2, 1], &[2, 1, 2], &[Entry { offset: 0, a: 1, b: 2 }])
    }

    /// The image that a call takes at a place of its list.
    pub fn image(&mut self, name: &str, place: usize) -> &mut Vec<u8> {
        match (name, place) {
            ("pack_table", _) => &mut self.plain_table,
            (_, 0) => &mut self.table,
            ("pack_program", _) => &mut self.plain_program,
            ("import", _) => &mut self.text,
            ("tray", 1) => &mut self.tray,
            (_, 1) => &mut self.first,
            (_, 2) => &mut self.second,
            _ => &mut self.chain,
        }
    }

    pub fn call(&self, name: &str) -> Call {
        let Inputs { table, first, second, chain, tray, text, plain_table, plain_program, allowance, numbers, moves, .. } = self.clone();
        match name {
            "reverse" => Call::Reverse { table, program: first, allowance },
            "left_reverse" => Call::LeftReverse { table, program: first, allowance },
            "enquire" => Call::Enquire { table, program: first, allowance },
            "commit" => Call::Commit { table, program: first, allowance, numbers },
            "clear" => Call::Clear { table, allowance },
            "mirror_clear" => Call::MirrorClear { table, allowance },
            "compare" => Call::Compare { table, first, second, allowance },
            "compare_signed" => Call::CompareSigned { table, first, second, allowance },
            "chain" => Call::Chain { table, first, second, allowance },
            "remainder" => Call::Remainder { table, done: first, pattern: second, allowance },
            "check" => Call::Check { table, first, second, entries: chain },
            "pack_table" => Call::PackTable { plain: plain_table },
            "unpack_table" => Call::UnpackTable { table },
            "pack_program" => Call::PackProgram { table, plain: plain_program },
            "unpack_program" => Call::UnpackProgram { table, program: first },
            "bed" => Call::Bed { table, program: first, moves },
            "ways" => Call::Ways { table, program: first },
            "import" => Call::Import { table, text },
            "tray" => Call::Tray { table, tray, pattern: second, allowance },
            _ => panic!("{name} is no call"),
        }
    }
}

/// The section of the specification that has a call.
pub fn section(name: &str) -> &'static str {
    match name {
        "reverse" => "6.2",
        "clear" => "6.3",
        "compare" => "6.4",
        "chain" => "6.6",
        "check" => "6.7",
        "pack_table" | "unpack_table" | "pack_program" | "unpack_program" => "6.8",
        "remainder" => "6.10",
        "bed" => "6.11",
        "left_reverse" => "6.12",
        "mirror_clear" => "6.13",
        "ways" => "6.14",
        "enquire" => "6.15",
        "commit" => "6.16",
        "import" => "6.17",
        "compare_signed" => "6.18",
        _ => "6.19",
    }
}
