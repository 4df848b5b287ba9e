//! What the program `rig` is made of. Every answer comes from the proved archive; why it is so is told by the
//! reading of decks that `reference` has.

pub mod calls;
pub mod chain;
pub mod check;
pub mod command;
pub mod fault;
pub mod fields;
pub mod firing;
pub mod frames;
pub mod graph;
pub mod host;
pub mod loading;
pub mod make;
pub mod names;
pub mod options;
pub mod order;
pub mod orders;
pub mod plot;
pub mod run;
pub mod stop;
pub mod text;
pub mod words;
