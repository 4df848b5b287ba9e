//! The archive beside a plain engine and the reference.
#![warn(clippy::all)]
#![forbid(unsafe_code)]

pub mod cases;
pub mod decks;
pub mod engines;
pub mod measure;
pub mod plain;
