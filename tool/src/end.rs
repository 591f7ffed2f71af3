//! How a command ends: with an answer, refused by the library, or as a wrong call.
use braid::Refusal;

/// Exit statuses.
pub const AS_HOPED: u8 = 0;
pub const OTHERWISE: u8 = 1;
pub const REFUSED: u8 = 2;
pub const WRONG: u8 = 3;

pub enum End {
    /// A wrong call, or a file that cannot be read or written: what, where and what to do.
    Wrong(String),
    /// A refusal, with what helps a person, a sentence a line.
    Refused(Refusal, Vec<String>),
}

pub type Done<T> = Result<T, End>;

pub fn wrong<T>(what: impl Into<String>) -> Done<T> {
    Err(End::Wrong(what.into()))
}
