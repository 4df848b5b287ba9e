//! The plain engine judges decks of both forms, faults in expressions among them, converts old ones, and judges inputs at
//! a limit, as the reference does. Lists of calls are compared by the package `fuzz`.

use bench::engines::{Engine, Reference};
use bench::plain;
use reaction::raw::{Memory, Returned, CHANNELS, PLACE};
use reference::deck::{Deck, Form};
use reference::generate::{deck, old_deck, Kind, Size};
use reference::random::Random;
use reference::stored;
use std::collections::BTreeSet;

/// Plain engines for new decks and for old ones.
struct Engines {
    new: plain::Engine,
    old: plain::Engine,
}

impl Engines {
    fn new() -> Engines {
        Engines { new: plain::Engine::new(), old: plain::Engine::for_old_decks() }
    }

    /// Compares what shows the deck, and what is made of it, with the reference.
    fn compare(&mut self, deck: &[u8]) {
        assert_eq!(Engine::check(&mut self.new, deck), Reference.check(deck), "{deck:?}");
        for number in 0..4 {
            let section = Engine::section(&mut self.new, deck, number);
            assert_eq!(section, Reference.section(deck, number), "section {number} of {deck:?}");
        }
        let passed = self.old.check(deck).map_err(|refusal| (refusal.number, refusal.place));
        let expected = Form::Old.check(deck).map_err(|refusal| (refusal.number, refusal.place));
        let expected = expected.map(|passed| [passed.channels, passed.rules, passed.parts, passed.charge]);
        assert_eq!(passed, expected, "{deck:?}");
        let [_, length, ..] = self.convert(deck, Deck::BYTES).answer;
        for length in [0, length.saturating_sub(1), length, length + 1] {
            self.convert(deck, length as usize);
        }
    }

    /// What both converters return; their buffers of so many sevens must be the same after it.
    fn convert(&mut self, deck: &[u8], length: usize) -> Returned {
        let (mut one, mut two) = (vec![7; length], vec![7; length]);
        let returned = Engine::convert(&mut self.new, deck, &mut one);
        assert_eq!(returned, Reference.convert(deck, &mut two), "{deck:?}, {length} bytes");
        assert!(one == two, "{deck:?}, {length} bytes");
        returned
    }
}

#[test]
fn agrees_on_generated_decks() {
    let mut engines = Engines::new();
    for (number, (_, kind)) in (0..800).zip(Kind::ALL.iter().cycle()) {
        engines.compare(&deck(*kind, &mut Random::new(number), Size::FULL));
        engines.compare(&old_deck(*kind, &mut Random::new(number), Size::FULL));
    }
}

#[test]
fn agrees_on_stored_decks() {
    let mut engines = Engines::new();
    for stored in stored::all() {
        engines.compare(&stored.deck);
    }
}

/// The deck has two channels, so that 2 and all above are unknown ones; 7 is no operator.
const EXPRESSION_BYTES: [u8; 11] = [0x00, 0x01, 0x02, 0x03, 0x06, 0x07, 0x10, 0x12, 0x13, 0x15, 0xFF];
/// So many bytes at most.
const LONGEST_EXPRESSION: u32 = 4;

/// All expressions of these bytes, sound or not.
fn expressions() -> impl Iterator<Item = Vec<u8>> {
    let count = EXPRESSION_BYTES.len();
    let bytes = move |length: u32, number: usize| -> Vec<u8> {
        (0..length).map(|digit| EXPRESSION_BYTES[number / count.pow(digit) % count]).collect()
    };
    (1..=LONGEST_EXPRESSION)
        .flat_map(move |length| (0..count.pow(length)).map(move |number| bytes(length, number)))
}

/// A deck with a rule of this kind and a part. The expression stands in the condition, the action, the limit or a default
/// action, by number; the others are sound, and there is no default action for them.
fn with_expression(kind: u8, number: usize, expression: &[u8]) -> Vec<u8> {
    let mut all: [&[u8]; 4] = [&[0x11], &[0x01, 0], &[0x11], &[0x01, 0]];
    all[number] = expression;
    let [condition, action, limit, default] = all.map(|bytes| [&[bytes.len() as u8], bytes].concat());
    let default_action = if number == 3 { [&[1, 1], &default[..]].concat() } else { vec![0] };
    let rule = [&[1, 0], &default_action[..], &[kind], &condition, &[1, 1], &action].concat();
    let part = [&[0; 8][..], &[1, 0], &limit].concat();
    [b"\x02ab\x01", &rule[..], &[1], &part].concat()
}

#[test]
fn agrees_on_short_expressions() {
    let mut engines = Engines::new();
    let (mut checked, mut converted) = (BTreeSet::new(), BTreeSet::new());
    for expression in expressions() {
        for (kind, number) in [0, 1].into_iter().flat_map(|kind| (0..4).map(move |number| (kind, number))) {
            let deck = with_expression(kind, number, &expression);
            let returned = Engine::check(&mut engines.new, &deck);
            assert_eq!(returned, Reference.check(&deck), "{deck:02x?}");
            checked.insert(returned.number);
            converted.insert(engines.convert(&deck, 64).number);
        }
    }
    assert_eq!(checked, BTreeSet::from([0, 3, 6, 18, 19, 20]));
    assert_eq!(converted, BTreeSet::from([0, 3, 6, 18, 19]));
}

/// Channels of deck D, whose part 1 keeps `C` below 10.
const A: i32 = 0;
const C: i32 = 2;

/// Deck D started, with `C` of part 1 written by hand.
fn deck_d_with(places: usize, c: i32) -> Memory {
    let mut memory = Memory::new(PLACE * places);
    Reference.start(&stored::deck_d(), &mut memory);
    memory.values[CHANNELS + C as usize] = c;
    memory
}

/// The number that an input of both engines comes to; a refused one must change nothing.
fn input(before: &Memory, part: u32, pairs: &[i32]) -> u32 {
    let (mut one, mut two) = (before.clone(), before.clone());
    let returned = Engine::input(&mut plain::Engine::new(), &stored::deck_d(), &mut one, part, pairs);
    let expected = Reference.input(&stored::deck_d(), &mut two, part, pairs);
    assert_eq!((returned, &one), (expected, &two), "{pairs:?} at part {part}");
    assert!(returned.number == 0 || one == *before, "{pairs:?} at part {part}");
    returned.number
}

#[test]
fn agrees_on_inputs_at_a_limit() {
    let mut numbers = Vec::new();
    for (places, c) in [1, 2].into_iter().flat_map(|places| [0, 9, 10, 12].map(|c| (places, c))) {
        let memory = deck_d_with(places, c);
        for part in 0..3 {
            numbers.push(input(&memory, part, &[A, 4]));
            for value in 8..13 {
                let lists = [vec![C, value], vec![A, 4, C, value], vec![C, 9, C, value]];
                numbers.extend(lists.map(|pairs| input(&memory, part, &pairs)));
            }
        }
    }
    for number in [0, 11, 12, 13, 17] {
        assert!(numbers.contains(&number), "{number} never came");
    }
}
