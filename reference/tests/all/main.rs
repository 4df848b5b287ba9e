//! All tests, one program: they share what is compiled of `common`.

mod common;
mod conversion;
mod decks;
mod document_cases;
mod expression_faults;
mod generator;
mod left_alone;
mod lists;
mod refusals;
mod replay_text;
mod stored;
