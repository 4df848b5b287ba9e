//! Decks that passed.

use crate::raw;
use crate::Refusal;

/// A deck that passed, with its bytes.
#[derive(Clone, Debug, PartialEq, Eq)]
pub struct Deck {
    bytes: Vec<u8>,
    channels: u32,
    rules: u32,
    parts: u32,
    largest_charge: u32,
}

/// The sections of a deck.
#[derive(Clone, Copy, Debug, PartialEq, Eq, Hash)]
pub enum Section {
    /// The labels of the channels.
    Channels,
    /// The rules.
    Rules,
    /// The parts with their opening values, carried rules and limits.
    Parts,
}

impl Deck {
    /// The deck that these bytes are, or why they do not pass. A deck with default actions is refused by 20: see
    /// [`Deck::convert`].
    ///
    /// ```
    /// use reaction::Deck;
    ///
    /// let bytes = include_bytes!("../../crates/replay/data/d.deck");
    /// let deck = Deck::check(bytes)?;
    /// assert_eq!((deck.channels(), deck.rules(), deck.parts()), (3, 2, 2));
    /// assert_eq!(Deck::check(&bytes[..74]).unwrap_err().number, 1);
    /// # Ok::<(), reaction::Refusal>(())
    /// ```
    pub fn check(bytes: impl Into<Vec<u8>>) -> Result<Deck, Refusal> {
        let bytes = bytes.into();
        let [channels, rules, parts, largest_charge] = raw::check(&bytes).result()?;
        Ok(Deck { bytes, channels, rules, parts, largest_charge })
    }

    /// The new deck that an old one becomes, or why the old one does not pass. Rules of an old deck may have default
    /// actions, and each of those becomes two rules; from a fresh start the new deck gives every input, commit and
    /// settle what the old one gave.
    ///
    /// ```
    /// use reaction::Deck;
    ///
    /// // Channels a and b; a rule with event a, the default action b = a and no other action; a part that carries it.
    /// let old = b"\x02ab\x01\x01\x00\x01\x01\x02\x01\x00\x00\x01\x11\x00\x01\0\0\0\0\0\0\0\0\x01\x00\x01\x11";
    /// assert_eq!(Deck::check(old).unwrap_err().to_string(), "refused 20 6: a default action is not empty");
    /// let deck = Deck::convert(old)?;
    /// assert_eq!(deck.rules(), 2);
    /// // It is done once: a new deck stays as it is.
    /// assert_eq!(Deck::convert(deck.bytes())?, deck);
    /// # Ok::<(), reaction::Refusal>(())
    /// ```
    pub fn convert(old: &[u8]) -> Result<Deck, Refusal> {
        // No new deck is longer, so the buffer is never too short.
        let mut bytes = vec![0; raw::LONGEST_DECK];
        let [length, ..] = raw::convert(old, &mut bytes).result()?;
        bytes.truncate(length as usize);
        bytes.shrink_to_fit();
        Deck::check(bytes)
    }

    /// The deck's bytes.
    pub fn bytes(&self) -> &[u8] {
        &self.bytes
    }

    /// The number of channels, 1 to 32.
    pub fn channels(&self) -> u32 {
        self.channels
    }

    /// The number of rules, up to 64.
    pub fn rules(&self) -> u32 {
        self.rules
    }

    /// The number of parts, 1 to 16.
    pub fn parts(&self) -> u32 {
        self.parts
    }

    /// The largest charge of any carried rule: so many updates at most follow from one rule that fires.
    pub fn largest_charge(&self) -> u32 {
        self.largest_charge
    }

    /// So many places always suffice for one input with nothing pending: the most rules that one part carries times
    /// [`Deck::largest_charge`], at least 1.
    ///
    /// An input at a part makes active only rules that the part carries. Each of them adds updates whose charges sum to
    /// its own charge at most, and that is at most the largest. An update that is pending already is not added again.
    /// With nothing pending before, the charge after the input is therefore at most the product, and 13, which is
    /// answered where it would exceed the places, is not answered. Commits lower the charge.
    ///
    /// No pool has more than 65,535 places. Where the product is larger, 65,535 is returned, and an input may still be
    /// refused by 13.
    ///
    /// ```
    /// use reaction::{Deck, Rig};
    ///
    /// // Both parts carry two rules, and the largest charge is 2.
    /// let deck = Deck::check(include_bytes!("../../crates/replay/data/d.deck"))?;
    /// let places = deck.places_for_an_input();
    /// assert_eq!(places, 4);
    /// let mut rig = Rig::start(deck, places)?;
    /// assert_eq!(rig.input(0, &[(0, 4), (1, 4)])?, 3);
    /// # Ok::<(), reaction::Refusal>(())
    /// ```
    pub fn places_for_an_input(&self) -> u16 {
        let product = u32::from(self.most_carried()).saturating_mul(self.largest_charge);
        u16::try_from(product.max(1)).unwrap_or(u16::MAX)
    }

    /// The most rules that one part carries.
    fn most_carried(&self) -> u8 {
        let mut parts = self.section(Section::Parts).get(1..).unwrap_or_default();
        let opening = 4 * self.channels as usize;
        let mut most = 0;
        // A part is its opening values, a count and so many rule numbers, a length and so many bytes of its limit.
        while let Some(&carried) = parts.get(opening) {
            most = most.max(carried);
            let limit = opening + 1 + usize::from(carried);
            let length = usize::from(parts.get(limit).copied().unwrap_or(0));
            parts = parts.get(limit + 1 + length..).unwrap_or_default();
        }
        most
    }

    /// The bytes of a section, from its count to its end.
    ///
    /// ```
    /// use reaction::{Deck, Section};
    ///
    /// let deck = Deck::check(include_bytes!("../../crates/replay/data/d.deck"))?;
    /// assert_eq!(deck.section(Section::Channels), b"\x03abc");
    /// # Ok::<(), reaction::Refusal>(())
    /// ```
    pub fn section(&self, section: Section) -> &[u8] {
        // The deck passed and the number is known, so the engine does not decline.
        raw::section(&self.bytes, section as u32).1
    }
}
