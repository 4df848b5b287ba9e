//! As many places as the library says suffice for any one input with nothing pending.

use reaction::{Deck, Refusal, Rig};
use reference::deck::{Deck as Fields, Form};
use reference::generate::expressions::value;
use reference::generate::{decks, numbered, old_deck, Kind, Size};
use reference::random::Random;
use reference::stored::{self, copy, deck_of};

const BAD_INPUT: u32 = 12;
const OVER_CAPACITY: u32 = 13;
const INPUT_OUTSIDE: u32 = 17;

/// Inputs to each part of a deck.
const INPUTS: usize = 6;

/// Generated decks of each kind.
const DECKS: u64 = 150;

fn passing(fields: &Fields) -> Deck {
    Deck::check(fields.encode().bytes).expect("a deck that passes")
}

/// Values for some of the channels, at times for all.
fn pairs(random: &mut Random, channels: u32) -> Vec<(u32, i32)> {
    let kept = random.pick(&[30, 100]);
    let mut named: Vec<u32> = (0..channels).filter(|_| random.chance(kept)).collect();
    random.shuffle(&mut named);
    named.into_iter().map(|channel| (channel, value(random))).collect()
}

/// Enters values at all parts, each time with nothing pending, and settles. The largest charge that was added; none
/// where the product is larger than the longest pool.
fn largest_added(random: &mut Random, deck: &Deck) -> Option<u32> {
    let places = deck.places_for_an_input();
    if places == u16::MAX {
        return None;
    }
    let mut rig = Rig::start(deck.clone(), places).expect("a good pool");
    let mut most = 0;
    for part in (0..deck.parts()).flat_map(|part| [part; INPUTS]) {
        let pairs = pairs(random, deck.channels());
        match rig.input(part, &pairs) {
            Ok(added) => most = most.max(added),
            Err(Refusal { number: INPUT_OUTSIDE, .. }) => {}
            Err(Refusal { number: BAD_INPUT, .. }) if pairs.is_empty() => {}
            Err(refusal) => panic!("{refusal:?} of {pairs:?} at part {part} with {places} places"),
        }
        assert!(rig.settle(65_535).expect("a good state").settled);
    }
    Some(most)
}

#[test]
fn they_suffice_on_generated_decks() {
    let (mut fired, mut many) = (0, 0);
    for number in 0..DECKS {
        let random = &mut numbered(1, number);
        let size = random.pick(&[Size { channels: 6, rules: 8, parts: 4, expression: 16 }, Size::FULL]);
        let rich = passing(&decks::rich(random, size, Form::New));
        let valid = passing(&decks::valid(random, size, Form::New));
        let converted = Deck::convert(&old_deck(Kind::Rich, random, size)).ok();
        for deck in [Some(rich), Some(valid), converted].iter().flatten() {
            let most = largest_added(random, deck).unwrap_or(0);
            fired += u32::from(most > 0);
            many += u32::from(most > deck.largest_charge());
        }
    }
    // Inputs fire rules, and often more than one charge is added.
    assert!(fired > 100 && many > 50, "{fired} {many}");
}

#[test]
fn they_suffice_on_stored_decks() {
    let random = &mut Random::new(1);
    let decks: Vec<Deck> =
        stored::all().into_iter().filter_map(|stored| Deck::check(stored.deck).ok()).collect();
    assert!(decks.len() > 10);
    for deck in decks {
        largest_added(random, &deck);
    }
}

/// Fewer do not where all rules that a part carries have the largest charge.
#[test]
fn they_are_needed() {
    let deck = deck_of(6, (1..6).map(|target| copy(0, target)).collect(), &[&[], &[0, 1, 2, 3, 4], &[2]]);
    let deck = passing(&deck);
    assert_eq!((deck.largest_charge(), deck.places_for_an_input()), (1, 5));
    let input = |places| Rig::start(deck.clone(), places).and_then(|mut rig| rig.input(1, &[(0, 4)]));
    assert_eq!(input(5), Ok(5));
    assert_eq!(input(4), Err(Refusal { number: OVER_CAPACITY, place: 0 }));
}

#[test]
fn one_place_is_the_least() {
    let no_rules = passing(&deck_of(1, vec![], &[&[]]));
    let none_carried = passing(&deck_of(2, vec![copy(0, 1)], &[&[], &[]]));
    for deck in [no_rules, none_carried] {
        assert_eq!(deck.places_for_an_input(), 1);
        assert_eq!(Rig::start(deck, 1).and_then(|mut rig| rig.input(0, &[(0, 4)])), Ok(0));
    }
}

/// An update of channel 1 has charge 65,535: it and the channels behind it have two rules each that set the next.
/// Channels 0 and 17 both set it, so that the longest pool has room for an input of one of them, and not of both.
#[test]
fn the_longest_pool_may_be_too_short() {
    let chain = (1..16).flat_map(|channel| [copy(channel, channel + 1), copy(channel, channel + 1)]);
    let rules = [copy(0, 1), copy(17, 1)].into_iter().chain(chain).collect();
    let deck = passing(&deck_of(18, rules, &[&(0..32).collect::<Vec<u8>>()]));
    assert_eq!((deck.largest_charge(), deck.places_for_an_input()), (65_535, 65_535));
    let input = |pairs: &[_]| Rig::start(deck.clone(), 65_535).and_then(|mut rig| rig.input(0, pairs));
    assert_eq!(input(&[(0, 4)]), Ok(65_535));
    assert_eq!(input(&[(0, 4), (17, 5)]), Err(Refusal { number: OVER_CAPACITY, place: 0 }));
}
