//! The second implementation under the C interface of specification 8, so that whatever judges a library can judge it.
use second::call::Call;
use second::expected::expected;
use second::image::{chain_image, read_forward, read_table};
use second::listing::listed;
use second::reversing::Most;

/// The chain that a call of chain lists after same.
fn chain(call: &Call) -> Vec<u8> {
    let Call::Chain { table, first, second, .. } = call else {
        return Vec::new();
    };
    let table = read_table(table).expect("the call was answered");
    let [first, second] = [first, second].map(|image| read_forward(image, table.moves).expect("the call was answered"));
    chain_image(table.moves, &listed(&table, &first, &second))
}

/// Leaves in the areas and the values what the call must leave, and gives its result. Areas are those that the call has, the workspace first.
fn leave(call: &Call, areas: &mut [&mut [u8]], values: &mut [u64]) -> u8 {
    let workspace = if call.has_workspace() { areas[0].len() } else { 0 };
    let answer = if call.has_answer() { areas[areas.len() - 1].len() } else { 0 };
    let must = expected(call, workspace, answer, &mut Most::default());
    if call.has_workspace() && !must.workspace_kept {
        areas[0].fill(0);
    }
    let written = if must.listed.is_some() { chain(call) } else { must.written };
    if let Some(answer) = areas.last_mut().filter(|_| call.has_answer()) {
        // A wrong version may have more to write than the area holds; that is for the judge to see.
        let length = written.len().min(answer.len());
        answer[..length].copy_from_slice(&written[..length]);
    }
    values.copy_from_slice(&must.values);
    must.result
}

/// Offers a call: its images with their lengths, its numbers, its areas with their lengths, and the values.
macro_rules! offer {
    ($name:ident($($image:ident $length:ident),*; $($number:ident: $type:ty),*; $($area:ident $size:ident),*) => $call:expr) => {
        /// # Safety
        /// The caller keeps the duties of specification 8.2.
        #[no_mangle]
        #[allow(clippy::too_many_arguments)]
        pub unsafe extern "C" fn $name(
            $($image: *const u8, $length: u64,)*
            $($number: $type,)*
            $($area: *mut u8, $size: u64,)*
            values: *mut u64,
        ) -> u8 {
            $(let $image = std::slice::from_raw_parts($image, $length as usize).to_vec();)*
            let mut areas: Vec<&mut [u8]> = vec![$(std::slice::from_raw_parts_mut($area, $size as usize)),*];
            leave(&$call, &mut areas, std::slice::from_raw_parts_mut(values, 4))
        }
    };
}

offer!(braid_reverse(table tl, program pl; allowance: u16; workspace wl, answer al) => Call::Reverse { table, program, allowance });
offer!(braid_left_reverse(table tl, program pl; allowance: u16; workspace wl, answer al) => Call::LeftReverse { table, program, allowance });
offer!(braid_enquire(table tl, program pl; allowance: u16; workspace wl) => Call::Enquire { table, program, allowance });
offer!(braid_commit(table tl, program pl; allowance: u16, n: u64, d: u64, steps: u64; workspace wl, answer al)
    => Call::Commit { table, program, allowance, numbers: [n, d, steps] });
offer!(braid_clear(table tl; allowance: u16; workspace wl) => Call::Clear { table, allowance });
offer!(braid_mirror_clear(table tl; allowance: u16; workspace wl) => Call::MirrorClear { table, allowance });
offer!(braid_compare(table tl, first fl, second sl; allowance: u16; workspace wl) => Call::Compare { table, first, second, allowance });
offer!(braid_compare_signed(table tl, first fl, second sl; allowance: u16; workspace wl) => Call::CompareSigned { table, first, second, allowance });
offer!(braid_chain(table tl, first fl, second sl; allowance: u16; workspace wl, answer al) => Call::Chain { table, first, second, allowance });
offer!(braid_remainder(table tl, done dl, pattern pl; allowance: u16; workspace wl, answer al) => Call::Remainder { table, done, pattern, allowance });
offer!(braid_check(table tl, first fl, second sl, entries el; ; workspace wl) => Call::Check { table, first, second, entries });
offer!(braid_pack_table(plain pl; ; answer al) => Call::PackTable { plain });
offer!(braid_unpack_table(table tl; ; answer al) => Call::UnpackTable { table });
offer!(braid_pack_program(table tl, plain pl; ; answer al) => Call::PackProgram { table, plain });
offer!(braid_unpack_program(table tl, program pl; ; answer al) => Call::UnpackProgram { table, program });
offer!(braid_bed(table tl, program pl; moves: u64; answer al) => Call::Bed { table, program, moves });
offer!(braid_ways(table tl, program pl; ; answer al) => Call::Ways { table, program });
offer!(braid_import(table tl, text xl; ; answer al) => Call::Import { table, text });
offer!(braid_tray(table tl, tray yl, pattern pl; allowance: u16; workspace wl, answer al) => Call::Tray { table, tray, pattern, allowance });
