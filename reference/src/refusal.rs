//! Refusals: their numbers by name. Document 01 has 1 to 16, document 02 the others.

/// A refusal is number and place.
#[derive(Clone, Copy, Debug, PartialEq, Eq, Hash)]
pub struct Refusal {
    pub number: u32,
    pub place: u32,
}

pub const DECK_ENDS: u32 = 1;
pub const OUT_OF_RANGE: u32 = 2;
/// An unknown operator or channel in an expression.
pub const UNKNOWN_BYTE: u32 = 3;
pub const TARGET_TWICE: u32 = 4;
pub const BYTES_FOLLOW: u32 = 5;
pub const OPENS_OUTSIDE_LIMIT: u32 = 6;
pub const CYCLE: u32 = 7;
pub const RULE_CHARGE: u32 = 8;
pub const POOL_LENGTH: u32 = 9;
pub const BAD_STATE: u32 = 10;
pub const UNKNOWN_PART: u32 = 11;
pub const INPUT_LIST: u32 = 12;
pub const INPUT_CHARGE: u32 = 13;
pub const PLACE: u32 = 14;
pub const SECTION: u32 = 15;
pub const BUDGET: u32 = 16;
pub const INPUT_OUTSIDE_LIMIT: u32 = 17;
/// A value of the wrong type, or a far channel where none may stand.
pub const WRONG_TYPE: u32 = 18;
/// An expression that ends early or has bytes left over.
pub const WRONG_END: u32 = 19;
/// A default action in a new deck.
pub const DEFAULT_ACTION: u32 = 20;
/// Converting would give more than 64 rules.
pub const RULES_RESULT: u32 = 21;
/// The buffer is too short for the converted deck.
pub const BUFFER_SHORT: u32 = 22;

impl Refusal {
    /// Places are deck offsets (a fault shows within 42,884 bytes), channels or
    /// 64 times part + rule, so they always fit.
    pub fn at(number: u32, place: usize) -> Refusal {
        Refusal { number, place: u32::try_from(place).unwrap_or(u32::MAX) }
    }

    /// A refusal whose place is 0: 9 to 17, 21 and 22.
    pub fn new(number: u32) -> Refusal {
        Refusal { number, place: 0 }
    }
}

/// `Ok` when the test holds, otherwise the refusal.
pub fn require(test: bool, refusal: Refusal) -> Result<(), Refusal> {
    if test {
        Ok(())
    } else {
        Err(refusal)
    }
}
