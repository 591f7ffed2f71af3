//! A call of the C interface (specification 8.1), with all that it takes but its areas. The numbers handed to commit are the lengths of numerator and
//! denominator, then the steps.

#[derive(Clone, Debug)]
pub enum Call {
    Reverse { table: Vec<u8>, program: Vec<u8>, allowance: u16 },
    LeftReverse { table: Vec<u8>, program: Vec<u8>, allowance: u16 },
    Enquire { table: Vec<u8>, program: Vec<u8>, allowance: u16 },
    Commit { table: Vec<u8>, program: Vec<u8>, allowance: u16, numbers: [u64; 3] },
    Clear { table: Vec<u8>, allowance: u16 },
    MirrorClear { table: Vec<u8>, allowance: u16 },
    Compare { table: Vec<u8>, first: Vec<u8>, second: Vec<u8>, allowance: u16 },
    CompareSigned { table: Vec<u8>, first: Vec<u8>, second: Vec<u8>, allowance: u16 },
    Chain { table: Vec<u8>, first: Vec<u8>, second: Vec<u8>, allowance: u16 },
    Remainder { table: Vec<u8>, done: Vec<u8>, pattern: Vec<u8>, allowance: u16 },
    Tray { table: Vec<u8>, tray: Vec<u8>, pattern: Vec<u8>, allowance: u16 },
    Check { table: Vec<u8>, first: Vec<u8>, second: Vec<u8>, entries: Vec<u8> },
    PackTable { plain: Vec<u8> },
    UnpackTable { table: Vec<u8> },
    PackProgram { table: Vec<u8>, plain: Vec<u8> },
    UnpackProgram { table: Vec<u8>, program: Vec<u8> },
    Bed { table: Vec<u8>, program: Vec<u8>, moves: u64 },
    Ways { table: Vec<u8>, program: Vec<u8> },
    Import { table: Vec<u8>, text: Vec<u8> },
}

impl Call {
    /// The name in C, without `braid_`.
    pub fn name(&self) -> &'static str {
        match self {
            Call::Reverse { .. } => "reverse",
            Call::LeftReverse { .. } => "left_reverse",
            Call::Enquire { .. } => "enquire",
            Call::Commit { .. } => "commit",
            Call::Clear { .. } => "clear",
            Call::MirrorClear { .. } => "mirror_clear",
            Call::Compare { .. } => "compare",
            Call::CompareSigned { .. } => "compare_signed",
            Call::Chain { .. } => "chain",
            Call::Remainder { .. } => "remainder",
            Call::Tray { .. } => "tray",
            Call::Check { .. } => "check",
            Call::PackTable { .. } => "pack_table",
            Call::UnpackTable { .. } => "unpack_table",
            Call::PackProgram { .. } => "pack_program",
            Call::UnpackProgram { .. } => "unpack_program",
            Call::Bed { .. } => "bed",
            Call::Ways { .. } => "ways",
            Call::Import { .. } => "import",
        }
    }

    /// The images, plain forms, texts and trays, in the order of the C call, each with its name there.
    pub fn images(&self) -> Vec<(&'static str, &[u8])> {
        match self {
            Call::Reverse { table, program, .. }
            | Call::LeftReverse { table, program, .. }
            | Call::Enquire { table, program, .. }
            | Call::Commit { table, program, .. }
            | Call::UnpackProgram { table, program }
            | Call::Bed { table, program, .. }
            | Call::Ways { table, program } => vec![("table", table), ("program", program)],
            Call::Clear { table, .. } | Call::MirrorClear { table, .. } | Call::UnpackTable { table } => vec![("table", table)],
            Call::Compare { table, first, second, .. }
            | Call::Chain { table, first, second, .. }
            | Call::CompareSigned { table, first, second, .. } => vec![("table", table), ("first", first), ("second", second)],
            Call::Remainder { table, done, pattern, .. } => vec![("table", table), ("done", done), ("pattern", pattern)],
            Call::Tray { table, tray, pattern, .. } => vec![("table", table), ("tray", tray), ("pattern", pattern)],
            Call::Check { table, first, second, entries } => {
                vec![("table", table), ("first", first), ("second", second), ("chain", entries)]
            }
            Call::PackTable { plain } => vec![("plain", plain)],
            Call::PackProgram { table, plain } => vec![("table", table), ("plain", plain)],
            Call::Import { table, text } => vec![("table", table), ("text", text)],
        }
    }

    pub fn allowance(&self) -> Option<u16> {
        match self {
            Call::Reverse { allowance, .. }
            | Call::LeftReverse { allowance, .. }
            | Call::Enquire { allowance, .. }
            | Call::Commit { allowance, .. }
            | Call::Clear { allowance, .. }
            | Call::MirrorClear { allowance, .. }
            | Call::Compare { allowance, .. }
            | Call::CompareSigned { allowance, .. }
            | Call::Chain { allowance, .. }
            | Call::Remainder { allowance, .. }
            | Call::Tray { allowance, .. } => Some(*allowance),
            _ => None,
        }
    }

    /// Every call with an allowance is lent a workspace, and check is.
    pub fn has_workspace(&self) -> bool {
        self.allowance().is_some() || matches!(self, Call::Check { .. })
    }

    pub fn has_answer(&self) -> bool {
        use Call::*;
        !matches!(self, Enquire { .. } | Clear { .. } | MirrorClear { .. } | Compare { .. } | CompareSigned { .. } | Check { .. })
    }

    /// The first value where it tells outcomes of one result apart: verdicts, and the kinds of places of a refusal. Elsewhere it is a length, and 0 stands for it.
    pub fn told_apart(&self, result: u8, values: [u64; 4]) -> u64 {
        use Call::*;
        let verdict = matches!(self, Compare { .. } | CompareSigned { .. } | Chain { .. } | Remainder { .. } | Check { .. });
        if verdict || result != 0 {
            values[0]
        } else {
            0
        }
    }
}
