//! The calls that are measured, under one form for each maker of them.
use crate::firmware::{self, Told};
use crate::gap;

/// Table, program, allowance, workspace, answer area.
pub type Reverse = fn(&[u8], &[u8], u16, &mut [u8], &mut [u8]) -> Told;
/// Table, two programs, allowance, workspace.
pub type Compare = fn(&[u8], &[u8], &[u8], u16, &mut [u8]) -> Told;
/// Table, tray, pattern, allowance, workspace, answer area.
pub type Tray = fn(&[u8], &[u8], &[u8], u16, &mut [u8], &mut [u8]) -> Told;

/// What one maker's calls are. All are called by their addresses, so that no maker's code grows into the measure.
#[derive(Clone, Copy)]
pub struct Library {
    pub name: &'static str,
    pub reverse: Reverse,
    pub compare: Compare,
    pub tray: Tray,
    pub clear: fn(&[u8], u16, &mut [u8]) -> Told,
    pub pack_table: fn(&[u8], &mut [u8]) -> Told,
    pub unpack_table: fn(&[u8], &mut [u8]) -> Told,
    pub pack_program: fn(&[u8], &[u8], &mut [u8]) -> Told,
    pub unpack_program: fn(&[u8], &[u8], &mut [u8]) -> Told,
}

pub const FIRMWARE: Library = Library {
    name: "the firmware",
    reverse: firmware::reverse,
    compare: firmware::compare,
    tray: firmware::tray,
    clear: firmware::clear,
    pack_table: firmware::pack_table,
    unpack_table: firmware::unpack_table,
    pack_program: firmware::pack_program,
    unpack_program: firmware::unpack_program,
};

pub const RUST: Library = Library {
    name: "Rust",
    reverse: |table, program, allowance, workspace, answer| {
        told(gap::reverse(table, program, allowance, workspace, answer), |(n, d, steps)| [n as u64, d as u64, steps.into(), 0])
    },
    compare: |table, first, second, allowance, workspace| {
        told(gap::compare(table, first, second, allowance, workspace), |(same, steps)| [u64::from(!same), steps.into(), 0, 0])
    },
    tray: |table, tray, pattern, allowance, workspace, answer| {
        told(gap::tray(table, tray, pattern, allowance, workspace, answer), |logs| [logs.into(), 0, 0, 0])
    },
    clear: |table, allowance, workspace| told(gap::clear(table, allowance, workspace), |()| [0; 4]),
    pack_table: |plain, answer| told(gap::pack_table(plain, answer), length),
    unpack_table: |table, answer| told(gap::unpack_table(table, answer), length),
    pack_program: |table, plain, answer| told(gap::pack_program(table, plain, answer), length),
    unpack_program: |table, program, answer| told(gap::unpack_program(table, program, answer), length),
};

/// A result of the Rust side as the firmware tells it; a refusal is only its number.
fn told<T>(result: Result<T, u8>, values: impl FnOnce(T) -> [u64; 4]) -> Told {
    result.map_or_else(|number| (number, [0; 4]), |answer| (0, values(answer)))
}

fn length(bytes: usize) -> [u64; 4] {
    [bytes as u64, 0, 0, 0]
}
