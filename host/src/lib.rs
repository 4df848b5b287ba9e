//! The proved reaction engine for Rust hosts.
//!
//! A [`Deck`] holds channels, rules and parts. A [`Rig`] runs one: values are entered, rules fire, and the
//! host commits the pending updates in whatever order it likes. Whatever it is given, the engine answers or
//! declines with a [`Refusal`]; a declined call changes nothing. ([`raw::Memory::start`] alone zeroes the
//! state where it is declined; where [`Rig::start`] is, there is no rig.)
//!
//! Decks whose rules have default actions are old ones: [`Deck::convert`] makes new decks of them.
//!
//! ```
//! use reaction::{Commit, Deck, Rig};
//!
//! // Rule 0 sends channel 0 to the other parts' channel 1; rule 1 sets channel 2 to channel 1 plus 1.
//! let deck = Deck::check(include_bytes!("../../crates/replay/data/d.deck"))?;
//! let mut rig = Rig::start(deck, 2)?;
//! assert_eq!(rig.input(0, &[(0, 4)])?, 2);
//! assert_eq!(rig.commit(0)?, Commit { applied: true, charge: 1 });
//! assert!(rig.settle(100)?.settled);
//! assert_eq!((rig.value(1, 1), rig.value(1, 2)), (Some(4), Some(5)));
//! # Ok::<(), reaction::Refusal>(())
//! ```
#![deny(missing_docs)]
#![warn(clippy::all)]

mod deck;
pub mod raw;
mod refusal;
mod rig;

pub use deck::{Deck, Section};
pub use refusal::Refusal;
pub use rig::{Commit, Rig, Settle, Update};

/// The archive that is linked: `crates/abi/out/libabi.a` where the kit has built it, else `dist/libreaction.a`, or
/// the one in the folder that `REACTION_ARCHIVE_DIR` named.
///
/// ```
/// println!("by {}", reaction::ARCHIVE);
/// ```
pub const ARCHIVE: &str = env!("REACTION_ARCHIVE");
