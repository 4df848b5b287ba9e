//! Why a call declines.

use std::error::Error;
use std::fmt;

/// Why a call declined: a number from 1 to 22, and where.
///
/// ```
/// use reaction::Deck;
///
/// let refusal = Deck::check(&[]).unwrap_err();
/// assert_eq!((refusal.number, refusal.place), (1, 0));
/// assert_eq!(refusal.to_string(), "refused 1 0: the deck ends inside a field or expression");
///
/// // A fault in an expression is at its exact byte: here a limit names channel 3, and there are three channels.
/// let mut bytes = include_bytes!("../../crates/replay/data/d.deck").to_vec();
/// bytes[69] = 3;
/// let refusal = Deck::check(bytes).unwrap_err();
/// assert_eq!(refusal.to_string(), "refused 3 69: an expression has an unknown operator or channel");
///
/// // The words are there also where a result that was to be accepted is shown.
/// let refusal = reaction::Refusal { number: 14, place: 0 };
/// let shown = r#"Refusal { number: 14, place: 0, name: "the place is not pending" }"#;
/// assert_eq!(format!("{refusal:?}"), shown);
/// ```
#[derive(Clone, Copy, PartialEq, Eq, Hash)]
pub struct Refusal {
    /// Which refusal it is.
    pub number: u32,
    /// For 1 the deck's length; for 2 to 5 and 18 to 20 an offset into the deck; for 6 the part; for 7 the channel;
    /// for 8 64 times part + rule; otherwise 0.
    ///
    /// For 19 of an expression that ends early it is the offset of the first byte behind the expression, and so may
    /// be the deck's length: `bytes.get(place)` finds no byte there.
    pub place: u32,
}

/// What the refusals 1 to 22 say.
const NAMES: [&str; 22] = [
    "the deck ends inside a field or expression",
    "a number of the deck is out of its range, or a list does not rise",
    "an expression has an unknown operator or channel",
    "a target stands twice in an action",
    "bytes follow the last section",
    "a part opens outside its limit",
    "the dependency graph has a cycle",
    "a carried rule's charge is above 65,535",
    "the pool's length is not a multiple of 10 from 10 to 655,350",
    "the state is not a good one",
    "there is no such part",
    "the input is not 1 to 32 pairs of known, different channels",
    "the charge after the input would exceed the pool's places",
    "the place is not pending",
    "the section number is above 2",
    "the budget is above 65,535",
    "the input would leave its part outside its limit",
    "a value of an expression is of the wrong type, or a far channel is not allowed there",
    "an expression ends early or has bytes left over",
    "a default action is not empty",
    "the conversion would have more than 64 rules",
    "the buffer is shorter than the new deck",
];

impl Refusal {
    /// What the refusal says, in words.
    ///
    /// ```
    /// use reaction::Refusal;
    ///
    /// assert_eq!(Refusal { number: 14, place: 0 }.name(), "the place is not pending");
    /// ```
    pub fn name(&self) -> &'static str {
        let index = (self.number as usize).wrapping_sub(1);
        NAMES.get(index).copied().unwrap_or("no refusal of the engine")
    }
}

impl fmt::Display for Refusal {
    fn fmt(&self, f: &mut fmt::Formatter) -> fmt::Result {
        write!(f, "refused {} {}: {}", self.number, self.place, self.name())
    }
}

impl fmt::Debug for Refusal {
    fn fmt(&self, f: &mut fmt::Formatter) -> fmt::Result {
        let Refusal { number, place } = self;
        let mut shown = f.debug_struct("Refusal");
        shown.field("number", number).field("place", place).field("name", &self.name()).finish()
    }
}

impl Error for Refusal {}
