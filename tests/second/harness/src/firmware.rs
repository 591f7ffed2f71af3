//! The firmware's calls, by the Rust binding, with numbers around the four values that may not change.
use braid::raw;

/// What a call gives: the result and the four values.
pub type Told = (u8, [u64; 4]);

/// Calls with room for four values between two that may not change. They start as a number that no call gives.
pub fn told(call: impl FnOnce(&mut [u64; 4]) -> u8) -> Told {
    let mut values = [u64::MAX; 6];
    let inner: &mut [u64; 4] = (&mut values[1..5]).try_into().expect("four values");
    let result = call(inner);
    let four = *inner;
    assert_eq!((values[0], values[5]), (u64::MAX, u64::MAX), "numbers around the four values changed");
    (result, four)
}

macro_rules! calls {
    ($($name:ident($($input:ident: $type:ty),*);)*) => {
        $(pub fn $name($($input: $type),*) -> Told {
            told(|values| raw::$name($($input,)* values))
        })*
    };
}

calls! {
    reverse(table: &[u8], program: &[u8], allowance: u16, workspace: &mut [u8], answer: &mut [u8]);
    left_reverse(table: &[u8], program: &[u8], allowance: u16, workspace: &mut [u8], answer: &mut [u8]);
    enquire(table: &[u8], program: &[u8], allowance: u16, workspace: &mut [u8]);
    commit(table: &[u8], program: &[u8], allowance: u16, numbers: [u64; 3], workspace: &mut [u8], answer: &mut [u8]);
    clear(table: &[u8], allowance: u16, workspace: &mut [u8]);
    mirror_clear(table: &[u8], allowance: u16, workspace: &mut [u8]);
    compare(table: &[u8], first: &[u8], second: &[u8], allowance: u16, workspace: &mut [u8]);
    compare_signed(table: &[u8], first: &[u8], second: &[u8], allowance: u16, workspace: &mut [u8]);
    chain(table: &[u8], first: &[u8], second: &[u8], allowance: u16, workspace: &mut [u8], answer: &mut [u8]);
    remainder(table: &[u8], done: &[u8], pattern: &[u8], allowance: u16, workspace: &mut [u8], answer: &mut [u8]);
    tray(table: &[u8], tray: &[u8], pattern: &[u8], allowance: u16, workspace: &mut [u8], answer: &mut [u8]);
    check(table: &[u8], first: &[u8], second: &[u8], entries: &[u8], workspace: &mut [u8]);
    pack_table(plain: &[u8], answer: &mut [u8]);
    unpack_table(table: &[u8], answer: &mut [u8]);
    pack_program(table: &[u8], plain: &[u8], answer: &mut [u8]);
    unpack_program(table: &[u8], program: &[u8], answer: &mut [u8]);
    bed(table: &[u8], program: &[u8], moves: u64, answer: &mut [u8]);
    ways(table: &[u8], program: &[u8], answer: &mut [u8]);
    import(table: &[u8], text: &[u8], answer: &mut [u8]);
}
