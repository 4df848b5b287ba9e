//! An independent implementation of the reaction engine: decks, charges and commits.
//!
//! It is written from documents 01 and 02 alone, for comparison with the proved one:
//! plain data structures, one function for each sentence where that is possible.

pub mod cases;
pub mod charge;
pub mod comparison;
pub mod conversion;
pub mod deck;
pub mod engine;
pub mod expression;
pub mod generate;
pub mod graph;
pub mod random;
pub mod refusal;
pub mod script;
pub mod state;
pub mod stored;
pub mod stored_replays;

pub use conversion::convert;
pub use engine::{check, commit, input, section, settle, start};
pub use refusal::Refusal;
pub use state::State;
