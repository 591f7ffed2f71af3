//! A second implementation, written from docs/SPECIFICATION.md and not from the definitions that the firmware is proved against:
//! words are plain vectors, a step splices them, and every search starts at the first move. It links nothing. Beside it stand random tables, words and
//! texts, and the conformity kit's vectors, which are made of it. Above it stand two packages: `harness`, which holds the firmware against it, and `shell`,
//! which offers it under the C interface.
pub mod bed;
pub mod call;
pub mod chain;
pub mod classes;
pub mod expected;
pub mod free;
pub mod image;
pub mod listing;
pub mod mirror;
pub mod notation;
pub mod orders;
pub mod outcome;
pub mod patterns;
pub mod plain;
pub mod random;
pub mod reversing;
pub mod services;
pub mod signed;
pub mod table;
pub mod tables;
pub mod tray;
pub mod word;
