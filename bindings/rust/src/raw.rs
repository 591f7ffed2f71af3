//! The calls as C has them, on the caller's slices: the result is 0 for an answer, else the number of a refusal, and the four values are those of
//! specification 8.3. Borrows keep the areas apart from the images. The library also forbids that images of one call overlap; where two of them do, the later
//! one is copied.
use std::borrow::Cow;

mod c {
    extern "C" {
        pub fn braid_reverse(
            table: *const u8,
            table_length: u64,
            program: *const u8,
            program_length: u64,
            allowance: u16,
            workspace: *mut u8,
            workspace_length: u64,
            answer: *mut u8,
            answer_length: u64,
            values: *mut u64,
        ) -> u8;
        pub fn braid_left_reverse(
            table: *const u8,
            table_length: u64,
            program: *const u8,
            program_length: u64,
            allowance: u16,
            workspace: *mut u8,
            workspace_length: u64,
            answer: *mut u8,
            answer_length: u64,
            values: *mut u64,
        ) -> u8;
        pub fn braid_enquire(
            table: *const u8,
            table_length: u64,
            program: *const u8,
            program_length: u64,
            allowance: u16,
            workspace: *mut u8,
            workspace_length: u64,
            values: *mut u64,
        ) -> u8;
        pub fn braid_commit(
            table: *const u8,
            table_length: u64,
            program: *const u8,
            program_length: u64,
            allowance: u16,
            numerator: u64,
            denominator: u64,
            steps: u64,
            workspace: *mut u8,
            workspace_length: u64,
            answer: *mut u8,
            answer_length: u64,
            values: *mut u64,
        ) -> u8;
        pub fn braid_clear(
            table: *const u8,
            table_length: u64,
            allowance: u16,
            workspace: *mut u8,
            workspace_length: u64,
            values: *mut u64,
        ) -> u8;
        pub fn braid_mirror_clear(
            table: *const u8,
            table_length: u64,
            allowance: u16,
            workspace: *mut u8,
            workspace_length: u64,
            values: *mut u64,
        ) -> u8;
        pub fn braid_compare(
            table: *const u8,
            table_length: u64,
            first: *const u8,
            first_length: u64,
            second: *const u8,
            second_length: u64,
            allowance: u16,
            workspace: *mut u8,
            workspace_length: u64,
            values: *mut u64,
        ) -> u8;
        pub fn braid_compare_signed(
            table: *const u8,
            table_length: u64,
            first: *const u8,
            first_length: u64,
            second: *const u8,
            second_length: u64,
            allowance: u16,
            workspace: *mut u8,
            workspace_length: u64,
            values: *mut u64,
        ) -> u8;
        pub fn braid_chain(
            table: *const u8,
            table_length: u64,
            first: *const u8,
            first_length: u64,
            second: *const u8,
            second_length: u64,
            allowance: u16,
            workspace: *mut u8,
            workspace_length: u64,
            answer: *mut u8,
            answer_length: u64,
            values: *mut u64,
        ) -> u8;
        pub fn braid_remainder(
            table: *const u8,
            table_length: u64,
            done: *const u8,
            done_length: u64,
            pattern: *const u8,
            pattern_length: u64,
            allowance: u16,
            workspace: *mut u8,
            workspace_length: u64,
            answer: *mut u8,
            answer_length: u64,
            values: *mut u64,
        ) -> u8;
        pub fn braid_check(
            table: *const u8,
            table_length: u64,
            first: *const u8,
            first_length: u64,
            second: *const u8,
            second_length: u64,
            chain: *const u8,
            chain_length: u64,
            workspace: *mut u8,
            workspace_length: u64,
            values: *mut u64,
        ) -> u8;
        pub fn braid_pack_table(plain: *const u8, plain_length: u64, answer: *mut u8, answer_length: u64, values: *mut u64) -> u8;
        pub fn braid_unpack_table(table: *const u8, table_length: u64, answer: *mut u8, answer_length: u64, values: *mut u64) -> u8;
        pub fn braid_pack_program(
            table: *const u8,
            table_length: u64,
            plain: *const u8,
            plain_length: u64,
            answer: *mut u8,
            answer_length: u64,
            values: *mut u64,
        ) -> u8;
        pub fn braid_unpack_program(
            table: *const u8,
            table_length: u64,
            program: *const u8,
            program_length: u64,
            answer: *mut u8,
            answer_length: u64,
            values: *mut u64,
        ) -> u8;
        pub fn braid_bed(
            table: *const u8,
            table_length: u64,
            program: *const u8,
            program_length: u64,
            moves: u64,
            answer: *mut u8,
            answer_length: u64,
            values: *mut u64,
        ) -> u8;
        pub fn braid_ways(
            table: *const u8,
            table_length: u64,
            program: *const u8,
            program_length: u64,
            answer: *mut u8,
            answer_length: u64,
            values: *mut u64,
        ) -> u8;
        pub fn braid_import(
            table: *const u8,
            table_length: u64,
            text: *const u8,
            text_length: u64,
            answer: *mut u8,
            answer_length: u64,
            values: *mut u64,
        ) -> u8;
        pub fn braid_tray(
            table: *const u8,
            table_length: u64,
            tray: *const u8,
            tray_length: u64,
            pattern: *const u8,
            pattern_length: u64,
            allowance: u16,
            workspace: *mut u8,
            workspace_length: u64,
            answer: *mut u8,
            answer_length: u64,
            values: *mut u64,
        ) -> u8;
    }
}

/// The images of a call, none of which shares memory with one before it.
fn apart<'a, const N: usize>(images: [&'a [u8]; N]) -> [Cow<'a, [u8]>; N] {
    let shares = |one: &[u8], other: &[u8]| {
        let (from, to) = (one.as_ptr_range(), other.as_ptr_range());
        !one.is_empty() && !other.is_empty() && from.start < to.end && to.start < from.end
    };
    std::array::from_fn(|k| {
        if images[..k].iter().any(|before| shares(before, images[k])) {
            Cow::Owned(images[k].to_vec())
        } else {
            Cow::Borrowed(images[k])
        }
    })
}

/// Reverses a program (specification 6.2).
pub fn reverse(table: &[u8], program: &[u8], allowance: u16, workspace: &mut [u8], answer: &mut [u8], values: &mut [u64; 4]) -> u8 {
    let [table, program] = apart([table, program]);
    // SAFETY: every pointer is that of a slice with its length, the borrows keep areas, values and images apart, and the images are apart from each other.
    unsafe {
        c::braid_reverse(
            table.as_ptr(),
            table.len() as u64,
            program.as_ptr(),
            program.len() as u64,
            allowance,
            workspace.as_mut_ptr(),
            workspace.len() as u64,
            answer.as_mut_ptr(),
            answer.len() as u64,
            values.as_mut_ptr(),
        )
    }
}

/// Reverses a program from the finished end (6.12).
pub fn left_reverse(table: &[u8], program: &[u8], allowance: u16, workspace: &mut [u8], answer: &mut [u8], values: &mut [u64; 4]) -> u8 {
    let [table, program] = apart([table, program]);
    // SAFETY: as in `reverse`.
    unsafe {
        c::braid_left_reverse(
            table.as_ptr(),
            table.len() as u64,
            program.as_ptr(),
            program.len() as u64,
            allowance,
            workspace.as_mut_ptr(),
            workspace.len() as u64,
            answer.as_mut_ptr(),
            answer.len() as u64,
            values.as_mut_ptr(),
        )
    }
}

/// The sizes of a reversing's answer (6.15).
pub fn enquire(table: &[u8], program: &[u8], allowance: u16, workspace: &mut [u8], values: &mut [u64; 4]) -> u8 {
    let [table, program] = apart([table, program]);
    // SAFETY: as in `reverse`.
    unsafe {
        c::braid_enquire(
            table.as_ptr(),
            table.len() as u64,
            program.as_ptr(),
            program.len() as u64,
            allowance,
            workspace.as_mut_ptr(),
            workspace.len() as u64,
            values.as_mut_ptr(),
        )
    }
}

/// The answer of a reversing, for a caller who has its three numbers (6.16).
pub fn commit(
    table: &[u8],
    program: &[u8],
    allowance: u16,
    numbers: [u64; 3],
    workspace: &mut [u8],
    answer: &mut [u8],
    values: &mut [u64; 4],
) -> u8 {
    let [table, program] = apart([table, program]);
    // SAFETY: as in `reverse`.
    unsafe {
        c::braid_commit(
            table.as_ptr(),
            table.len() as u64,
            program.as_ptr(),
            program.len() as u64,
            allowance,
            numbers[0],
            numbers[1],
            numbers[2],
            workspace.as_mut_ptr(),
            workspace.len() as u64,
            answer.as_mut_ptr(),
            answer.len() as u64,
            values.as_mut_ptr(),
        )
    }
}

/// Makes both checks of a table (6.3).
pub fn clear(table: &[u8], allowance: u16, workspace: &mut [u8], values: &mut [u64; 4]) -> u8 {
    // SAFETY: as in `reverse`.
    unsafe {
        c::braid_clear(table.as_ptr(), table.len() as u64, allowance, workspace.as_mut_ptr(), workspace.len() as u64, values.as_mut_ptr())
    }
}

/// Clears the mirror of a table (6.13).
pub fn mirror_clear(table: &[u8], allowance: u16, workspace: &mut [u8], values: &mut [u64; 4]) -> u8 {
    // SAFETY: as in `reverse`.
    unsafe {
        c::braid_mirror_clear(
            table.as_ptr(),
            table.len() as u64,
            allowance,
            workspace.as_mut_ptr(),
            workspace.len() as u64,
            values.as_mut_ptr(),
        )
    }
}

/// Compares two programs of forward moves (6.4).
pub fn compare(table: &[u8], first: &[u8], second: &[u8], allowance: u16, workspace: &mut [u8], values: &mut [u64; 4]) -> u8 {
    let [table, first, second] = apart([table, first, second]);
    // SAFETY: as in `reverse`.
    unsafe {
        c::braid_compare(
            table.as_ptr(),
            table.len() as u64,
            first.as_ptr(),
            first.len() as u64,
            second.as_ptr(),
            second.len() as u64,
            allowance,
            workspace.as_mut_ptr(),
            workspace.len() as u64,
            values.as_mut_ptr(),
        )
    }
}

/// Compares two programs of any signs (6.18).
pub fn compare_signed(table: &[u8], first: &[u8], second: &[u8], allowance: u16, workspace: &mut [u8], values: &mut [u64; 4]) -> u8 {
    let [table, first, second] = apart([table, first, second]);
    // SAFETY: as in `reverse`.
    unsafe {
        c::braid_compare_signed(
            table.as_ptr(),
            table.len() as u64,
            first.as_ptr(),
            first.len() as u64,
            second.as_ptr(),
            second.len() as u64,
            allowance,
            workspace.as_mut_ptr(),
            workspace.len() as u64,
            values.as_mut_ptr(),
        )
    }
}

/// Compares two programs, and lists a chain between them (6.6).
pub fn chain(
    table: &[u8],
    first: &[u8],
    second: &[u8],
    allowance: u16,
    workspace: &mut [u8],
    answer: &mut [u8],
    values: &mut [u64; 4],
) -> u8 {
    let [table, first, second] = apart([table, first, second]);
    // SAFETY: as in `reverse`.
    unsafe {
        c::braid_chain(
            table.as_ptr(),
            table.len() as u64,
            first.as_ptr(),
            first.len() as u64,
            second.as_ptr(),
            second.len() as u64,
            allowance,
            workspace.as_mut_ptr(),
            workspace.len() as u64,
            answer.as_mut_ptr(),
            answer.len() as u64,
            values.as_mut_ptr(),
        )
    }
}

/// What is left of a pattern after a part done (6.10).
pub fn remainder(
    table: &[u8],
    done: &[u8],
    pattern: &[u8],
    allowance: u16,
    workspace: &mut [u8],
    answer: &mut [u8],
    values: &mut [u64; 4],
) -> u8 {
    let [table, done, pattern] = apart([table, done, pattern]);
    // SAFETY: as in `reverse`.
    unsafe {
        c::braid_remainder(
            table.as_ptr(),
            table.len() as u64,
            done.as_ptr(),
            done.len() as u64,
            pattern.as_ptr(),
            pattern.len() as u64,
            allowance,
            workspace.as_mut_ptr(),
            workspace.len() as u64,
            answer.as_mut_ptr(),
            answer.len() as u64,
            values.as_mut_ptr(),
        )
    }
}

/// Follows a chain from one program to another (6.7).
pub fn check(table: &[u8], first: &[u8], second: &[u8], chain: &[u8], workspace: &mut [u8], values: &mut [u64; 4]) -> u8 {
    let [table, first, second, chain] = apart([table, first, second, chain]);
    // SAFETY: as in `reverse`.
    unsafe {
        c::braid_check(
            table.as_ptr(),
            table.len() as u64,
            first.as_ptr(),
            first.len() as u64,
            second.as_ptr(),
            second.len() as u64,
            chain.as_ptr(),
            chain.len() as u64,
            workspace.as_mut_ptr(),
            workspace.len() as u64,
            values.as_mut_ptr(),
        )
    }
}

/// The image of a plain table (6.8).
pub fn pack_table(plain: &[u8], answer: &mut [u8], values: &mut [u64; 4]) -> u8 {
    // SAFETY: as in `reverse`.
    unsafe { c::braid_pack_table(plain.as_ptr(), plain.len() as u64, answer.as_mut_ptr(), answer.len() as u64, values.as_mut_ptr()) }
}

/// The plain form of a table image (6.8).
pub fn unpack_table(table: &[u8], answer: &mut [u8], values: &mut [u64; 4]) -> u8 {
    // SAFETY: as in `reverse`.
    unsafe { c::braid_unpack_table(table.as_ptr(), table.len() as u64, answer.as_mut_ptr(), answer.len() as u64, values.as_mut_ptr()) }
}

/// The image of a plain program (6.8).
pub fn pack_program(table: &[u8], plain: &[u8], answer: &mut [u8], values: &mut [u64; 4]) -> u8 {
    let [table, plain] = apart([table, plain]);
    // SAFETY: as in `reverse`.
    unsafe {
        c::braid_pack_program(
            table.as_ptr(),
            table.len() as u64,
            plain.as_ptr(),
            plain.len() as u64,
            answer.as_mut_ptr(),
            answer.len() as u64,
            values.as_mut_ptr(),
        )
    }
}

/// The plain form of a program image (6.8).
pub fn unpack_program(table: &[u8], program: &[u8], answer: &mut [u8], values: &mut [u64; 4]) -> u8 {
    let [table, program] = apart([table, program]);
    // SAFETY: as in `reverse`.
    unsafe {
        c::braid_unpack_program(
            table.as_ptr(),
            table.len() as u64,
            program.as_ptr(),
            program.len() as u64,
            answer.as_mut_ptr(),
            answer.len() as u64,
            values.as_mut_ptr(),
        )
    }
}

/// The bed after a program's first moves (6.11).
pub fn bed(table: &[u8], program: &[u8], moves: u64, answer: &mut [u8], values: &mut [u64; 4]) -> u8 {
    let [table, program] = apart([table, program]);
    // SAFETY: as in `reverse`.
    unsafe {
        c::braid_bed(
            table.as_ptr(),
            table.len() as u64,
            program.as_ptr(),
            program.len() as u64,
            moves,
            answer.as_mut_ptr(),
            answer.len() as u64,
            values.as_mut_ptr(),
        )
    }
}

/// Every word that lays the same as a program (6.14).
pub fn ways(table: &[u8], program: &[u8], answer: &mut [u8], values: &mut [u64; 4]) -> u8 {
    let [table, program] = apart([table, program]);
    // SAFETY: as in `reverse`.
    unsafe {
        c::braid_ways(
            table.as_ptr(),
            table.len() as u64,
            program.as_ptr(),
            program.len() as u64,
            answer.as_mut_ptr(),
            answer.len() as u64,
            values.as_mut_ptr(),
        )
    }
}

/// The moves that a text in the mills' notation means (6.17).
pub fn import(table: &[u8], text: &[u8], answer: &mut [u8], values: &mut [u64; 4]) -> u8 {
    let [table, text] = apart([table, text]);
    // SAFETY: as in `reverse`.
    unsafe {
        c::braid_import(
            table.as_ptr(),
            table.len() as u64,
            text.as_ptr(),
            text.len() as u64,
            answer.as_mut_ptr(),
            answer.len() as u64,
            values.as_mut_ptr(),
        )
    }
}

/// Compares up to 64 logs with one pattern (6.19).
pub fn tray(
    table: &[u8],
    tray: &[u8],
    pattern: &[u8],
    allowance: u16,
    workspace: &mut [u8],
    answer: &mut [u8],
    values: &mut [u64; 4],
) -> u8 {
    let [table, tray, pattern] = apart([table, tray, pattern]);
    // SAFETY: as in `reverse`.
    unsafe {
        c::braid_tray(
            table.as_ptr(),
            table.len() as u64,
            tray.as_ptr(),
            tray.len() as u64,
            pattern.as_ptr(),
            pattern.len() as u64,
            allowance,
            workspace.as_mut_ptr(),
            workspace.len() as u64,
            answer.as_mut_ptr(),
            answer.len() as u64,
            values.as_mut_ptr(),
        )
    }
}
