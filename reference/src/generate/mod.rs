//! Generated decks, calls and scripts, the same for the same seed.

pub mod calls;
pub mod decks;
pub mod defaults;
pub mod expression_faults;
pub mod expressions;
pub mod faults;
pub mod heavy;
pub mod limits;
pub mod scripts;

use crate::deck::{Deck, Form};
use crate::random::Random;

/// The largest counts of a generated deck.
#[derive(Clone, Copy, Debug)]
pub struct Size {
    pub channels: usize,
    pub rules: usize,
    pub parts: usize,
    /// Bytes of an expression, at least 6.
    pub expression: usize,
}

impl Size {
    pub const FULL: Size = Size {
        channels: Deck::CHANNELS,
        rules: Deck::RULES,
        parts: Deck::PARTS,
        expression: Deck::EXPRESSION,
    };
}

/// What a generated deck is like; whether it passes is said of the check of its form.
#[derive(Clone, Copy, Debug, PartialEq, Eq, Hash)]
pub enum Kind {
    /// Passes; any expressions.
    Valid,
    /// Passes; chained rules whose conditions are often true.
    Rich,
    /// A deck that passes, with bytes changed, removed, inserted, cut off or appended.
    Damaged,
    /// A deck that passes, with a fault inside one expression.
    Expression,
    /// Loops, and what looks like one.
    Cyclic,
    /// Charges around 65,535 and far beyond.
    Heavy,
    /// Parts that open outside their limit.
    Limit,
    /// The longest deck that passes, and what is just beyond it.
    Longest,
    /// Many default actions, and faults around them: as a new deck it is mostly refused with 20, and
    /// from an old one about 64 rules may result.
    Defaults,
    /// Random bytes.
    Noise,
}

impl Kind {
    pub const ALL: [(&'static str, Kind); 10] = [
        ("valid", Kind::Valid),
        ("rich", Kind::Rich),
        ("damaged", Kind::Damaged),
        ("expression", Kind::Expression),
        ("cyclic", Kind::Cyclic),
        ("heavy", Kind::Heavy),
        ("limit", Kind::Limit),
        ("longest", Kind::Longest),
        ("defaults", Kind::Defaults),
        ("noise", Kind::Noise),
    ];

    pub fn named(name: &str) -> Option<Kind> {
        Kind::ALL.iter().find(|(known, _)| *known == name).map(|&(_, kind)| kind)
    }
}

/// A new deck of this kind.
pub fn deck(kind: Kind, random: &mut Random, size: Size) -> Vec<u8> {
    deck_of_form(Form::New, kind, random, size)
}

/// An old deck of this kind.
pub fn old_deck(kind: Kind, random: &mut Random, size: Size) -> Vec<u8> {
    deck_of_form(Form::Old, kind, random, size)
}

fn deck_of_form(form: Form, kind: Kind, random: &mut Random, size: Size) -> Vec<u8> {
    match kind {
        Kind::Valid => decks::valid(random, size, form).encode().bytes,
        Kind::Rich => decks::rich(random, size, form).encode().bytes,
        Kind::Damaged => faults::damaged(random, size, form),
        Kind::Expression => expression_faults::broken(random, size, form),
        Kind::Cyclic => faults::cyclic(random, size, form).encode().bytes,
        Kind::Heavy => heavy::heavy(random, size, form).encode().bytes,
        Kind::Limit => faults::limit(random, size, form),
        Kind::Longest => faults::around_longest(random, form),
        Kind::Defaults => defaults::defaults(random, size),
        Kind::Noise => faults::noise(random),
    }
}

/// New deck n of a comparison, and its kind's name; it depends on the seed and n alone. Kinds take
/// turns; the longest decks, which are slow to make, come more seldom. Some decks are cut off
/// anywhere, or followed by many bytes more.
pub fn any_kind(seed: u64, number: u64) -> (&'static str, Vec<u8>) {
    any_kind_of_form(Form::New, seed, number)
}

/// Old deck n of a comparison.
pub fn any_old_kind(seed: u64, number: u64) -> (&'static str, Vec<u8>) {
    any_kind_of_form(Form::Old, seed, number)
}

fn any_kind_of_form(form: Form, seed: u64, number: u64) -> (&'static str, Vec<u8>) {
    let mut random = numbered(seed, number);
    let (mut name, mut kind) = Kind::ALL[number as usize % Kind::ALL.len()];
    if kind == Kind::Longest && random.chance(80) {
        (name, kind) = ("damaged", Kind::Damaged);
    }
    let mut deck = deck_of_form(form, kind, &mut random, Size::FULL);
    if random.chance(4) {
        deck.truncate(random.below(deck.len() + 1));
    } else if random.chance(1) {
        let more = random.pick(&[1, 1000, 25_988, 42_884, 70_000, 200_000]);
        deck.extend((0..more).map(|_| random.byte()));
    }
    (name, deck)
}

/// What case n of a comparison is made from.
pub fn numbered(seed: u64, number: u64) -> Random {
    Random::new(seed ^ number.wrapping_mul(0xD134_2543_DE82_EF95))
}
