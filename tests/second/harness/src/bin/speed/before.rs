//! The calls of a second archive, each with `before_` before its name, as tests/before.sh makes it.
use harness::firmware::told;
use harness::library::Library;

macro_rules! calls {
    ($($name:ident = $symbol:ident($($image:ident)*; $($allowance:ident)?; $($area:ident)*);)*) => {
        mod c {
            extern "C" {
                $(pub fn $symbol($($image: *const u8, _: u64,)* $($allowance: u16,)? $($area: *mut u8, _: u64,)* values: *mut u64) -> u8;)*
            }
        }
        /// The images of a call are different places: each measure makes its own for each.
        pub const BEFORE: Library = Library {
            name: "the library before",
            $($name: |$($image,)* $($allowance,)? $($area,)*| told(|values| unsafe {
                c::$symbol(
                    $($image.as_ptr(), $image.len() as u64,)*
                    $($allowance,)?
                    $($area.as_mut_ptr(), $area.len() as u64,)*
                    values.as_mut_ptr(),
                )
            }),)*
        };
    };
}

calls! {
    reverse = before_braid_reverse(table program; allowance; workspace answer);
    compare = before_braid_compare(table first second; allowance; workspace);
    tray = before_braid_tray(table tray pattern; allowance; workspace answer);
    clear = before_braid_clear(table; allowance; workspace);
    pack_table = before_braid_pack_table(plain; ; answer);
    unpack_table = before_braid_unpack_table(table; ; answer);
    pack_program = before_braid_pack_program(table plain; ; answer);
    unpack_program = before_braid_unpack_program(table program; ; answer);
}
