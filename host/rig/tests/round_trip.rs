//! The text of a deck gives the same deck, for every deck that passes, and that of docs/FORMAT.md the bytes shown there.

use reference::deck::{Deck, Form};
use reference::generate::decks::{rich, valid};
use reference::generate::{any_kind, numbered, Size};
use reference::stored::{self, deck_of};
use rig::make::make;
use rig::names::Names;
use rig::text::text;

/// Generated decks that pass.
const DECKS: u64 = 20_000;
const SEED: u64 = 24;
/// Most of them are of this size at most; one of a hundred of the largest.
const SMALL: Size = Size { channels: 8, rules: 8, parts: 4, expression: 24 };

/// The bytes that the text of a deck makes.
fn through_text(bytes: &[u8]) -> Vec<u8> {
    let (deck, _) = Deck::read(bytes).expect("a deck that can be read");
    let text = text(&deck, &Names::of_deck(&deck));
    make(&text).unwrap_or_else(|fault| panic!("{fault:?} in\n{text}")).bytes
}

#[test]
fn stored_decks_come_back() {
    let mut passed = 0;
    for (name, bytes) in stored::files().into_iter().chain(reference::stored_replays::files()) {
        if reaction::Deck::check(bytes.clone()).is_ok() {
            assert_eq!(through_text(&bytes), bytes, "{name}");
            passed += 1;
        }
    }
    assert!(passed > 15, "{passed} decks passed");
}

#[test]
fn generated_decks_come_back() {
    for number in 0..DECKS {
        let random = &mut numbered(SEED, number);
        let size = if number % 100 == 0 { Size::FULL } else { SMALL };
        let deck =
            if random.chance(50) { rich(random, size, Form::New) } else { valid(random, size, Form::New) };
        let bytes = deck.encode().bytes;
        assert!(reaction::Deck::check(bytes.clone()).is_ok(), "deck {number} passes");
        assert_eq!(through_text(&bytes), bytes, "deck {number}");
    }
}

#[test]
fn every_label_comes_back() {
    let mut deck = deck_of(32, Vec::new(), &[&[]]);
    for first in 33..=95 {
        deck.labels = (first..first + 32).collect();
        let bytes = deck.encode().bytes;
        assert_eq!(through_text(&bytes), bytes, "labels from {first}");
    }
    deck.labels = vec![b'a'; 32];
    let bytes = deck.encode().bytes;
    assert_eq!(through_text(&bytes), bytes);
}

#[test]
fn every_readable_deck_comes_back() {
    // Decks that open outside a limit, have a cycle or a charge too large have a text as well.
    let mut refused = 0;
    for number in 0..400 {
        let (kind, bytes) = any_kind(SEED + 1, number);
        if Deck::read(&bytes).is_ok() && reaction::Deck::check(bytes.clone()).is_err() {
            assert_eq!(through_text(&bytes), bytes, "deck {number}, {kind}");
            refused += 1;
        }
    }
    assert!(refused > 20, "{refused} decks were refused by 6, 7 or 8");
}

#[test]
fn the_example_of_the_page() {
    let page = include_str!("../../../docs/FORMAT.md");
    let behind = |mark: &str| page.split_once(mark).expect("the page has it").1;
    let text = behind("cat > arm.txt <<'END'\n").split_once("END\n").expect("its end").0;
    let shown = behind("here a bar stands").split("```").nth(1).expect("a block");
    let numbers = shown.split(|letter: char| !letter.is_ascii_digit()).filter(|number| !number.is_empty());
    let bytes: Vec<u8> = numbers.map(|number| number.parse().expect("a byte")).collect();
    assert_eq!(make(text).expect("a deck").bytes, bytes);
}
