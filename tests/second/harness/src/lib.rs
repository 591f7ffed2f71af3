//! The calls of the firmware through its C interface, held against the second implementation on random cases; and the gap algorithm in Rust for the measures of
//! speed.
pub mod cases;
pub mod firmware;
pub mod gap;
pub mod guarded;
pub mod judge;
pub mod library;
pub mod measures;
