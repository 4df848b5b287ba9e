//! Reading and writing decks, graph, charges, expressions, and the longest deck.

use crate::common::model::{evaluate, holds};
use crate::common::{assign, copy, deck_of, old_check_line, ways};
use reference::charge::Charges;
use reference::deck::{Deck, Field, Form, Kind as RuleKind, Rule};
use reference::engine::check_line;
use reference::expression::{Expression, Number, Scope, Truth};
use reference::generate::decks::{longest, longest_of};
use reference::generate::expressions::{number, truth, value};
use reference::generate::heavy::exact;
use reference::generate::{deck, old_deck, Kind, Size};
use reference::graph;
use reference::random::Random;
use reference::refusal::{DEFAULT_ACTION, WRONG_TYPE};
use reference::{check, section, Refusal};

#[test]
fn what_is_written_is_read() {
    let random = &mut Random::new(10);
    for round in 0..600 {
        let kind = random.pick(&[Kind::Valid, Kind::Rich, Kind::Cyclic, Kind::Heavy]);
        let (form, bytes) = match round % 2 {
            0 => (Form::New, deck(kind, random, Size::FULL)),
            _ => (Form::Old, old_deck(kind, random, Size::FULL)),
        };
        let (read, sections) = form.read(&bytes).unwrap();
        assert_eq!(read.encode().bytes, bytes, "round {round}");
        assert_eq!((sections[0].start, sections[2].end), (0, bytes.len()));
        assert!(sections[0].end == sections[1].start && sections[1].end == sections[2].start);
    }
}

#[test]
fn a_new_deck_is_an_old_one_without_default_actions() {
    let random = &mut Random::new(17);
    let (mut both, mut old_only) = (0, 0);
    for _ in 0..2000 {
        let kind = random.pick(&[Kind::Valid, Kind::Rich, Kind::Damaged, Kind::Defaults]);
        let size = Size { channels: 6, rules: 3, parts: 4, expression: 12 };
        let bytes = if random.chance(50) { deck(kind, random, size) } else { old_deck(kind, random, size) };
        match (Form::New.read(&bytes), Form::Old.read(&bytes)) {
            (Ok(new), Ok(old)) => {
                assert_eq!(new, old);
                assert!(new.0.rules.iter().all(|rule| rule.default_action.is_empty()));
                both += 1;
            }
            (Err(refusal), Ok((old, _))) => {
                // The place is the count of the first default action.
                let (at, _) = first_default(&old).unwrap();
                assert_eq!(refusal, Refusal::at(DEFAULT_ACTION, at));
                old_only += 1;
            }
            // Up to the fault both read the same.
            (Err(new), Err(old)) => {
                assert!(new == old || new.number == DEFAULT_ACTION && new.place < old.place)
            }
            (Ok(_), Err(old)) => panic!("only new: {old}"),
        }
    }
    assert!(both > 400 && old_only > 400, "{both} {old_only}");
}

/// Offset and kind of the count of the first default action that is not empty.
fn first_default(deck: &Deck) -> Option<(usize, Field)> {
    let encoded = deck.encode();
    let filled = |&(at, field): &(usize, Field)| field == Field::DefaultCount && encoded.bytes[at] > 0;
    encoded.fields.into_iter().find(filled)
}

#[test]
fn whatever_is_read_is_what_is_written() {
    let random = &mut Random::new(11);
    let mut read = 0;
    for _ in 0..3000 {
        let bytes = deck(Kind::Damaged, random, Size { channels: 6, rules: 6, parts: 4, expression: 12 });
        if let Ok((deck, _)) = Deck::read(&bytes) {
            assert_eq!(deck.encode().bytes, bytes);
            read += 1;
        }
    }
    assert!(read > 200, "{read}");
}

#[test]
fn every_prefix_ends_too_soon() {
    let random = &mut Random::new(12);
    for _ in 0..40 {
        let bytes = deck(Kind::Valid, random, Size { channels: 6, rules: 6, parts: 4, expression: 12 });
        for length in 0..bytes.len() {
            assert_eq!(check_line(&bytes[..length]), format!("refused 1 {length}"));
        }
    }
}

#[test]
fn the_longest_deck() {
    let random = &mut Random::new(13);
    for _ in 0..4 {
        let mut bytes = longest(random).encode().bytes;
        assert_eq!(bytes.len(), Deck::BYTES);
        assert!(check_line(&bytes).starts_with("passed 32 64 16 "));
        assert_eq!(
            [section(&bytes, 0), section(&bytes, 1), section(&bytes, 2)],
            [Ok(0..33), Ok(33..21_858), Ok(21_858..25_987)]
        );
        assert_eq!(check_line(&bytes[..25_986]), "refused 1 25986");
        bytes.push(0);
        assert_eq!(check_line(&bytes), "refused 5 25987");
        // One byte more shows the fault, however many follow.
        bytes.resize(100_000, 1);
        assert_eq!(check_line(&bytes), check_line(&bytes[..Deck::BYTES + 1]));
    }
}

#[test]
fn the_longest_old_deck() {
    let mut bytes = longest_of(&mut Random::new(13), Form::Old).encode().bytes;
    assert_eq!(bytes.len(), Deck::OLD_BYTES);
    assert!(old_check_line(&bytes).starts_with("passed 32 64 16 "));
    assert_eq!(old_check_line(&bytes[..42_882]), "refused 1 42882");
    // As a new deck it shows its fault long before its end.
    assert_eq!(check_line(&bytes), "refused 20 43");
    assert_eq!(check_line(&bytes[..Deck::BYTES + 1]), "refused 20 43");
    bytes.push(0);
    assert_eq!(old_check_line(&bytes), "refused 5 42883");
    bytes.resize(100_000, 1);
    assert_eq!(old_check_line(&bytes), old_check_line(&bytes[..Deck::OLD_BYTES + 1]));
}

#[test]
fn lowest_channel_that_reaches_itself() {
    let random = &mut Random::new(14);
    let mut acyclic = 0;
    for _ in 0..150 {
        let bytes = deck(Kind::Cyclic, random, Size { channels: 12, rules: 14, parts: 3, expression: 10 });
        let (deck, _) = Deck::read(&bytes).unwrap();
        let ways = ways(&graph::edges(&deck));
        let lowest = (0..32).find(|&channel| ways[channel] >> channel & 1 == 1);
        assert_eq!(graph::lowest_on_cycle(&deck), lowest);
        acyclic += usize::from(lowest.is_none());
    }
    assert!((20..130).contains(&acyclic), "{acyclic}");
}

#[test]
fn charges_by_hand() {
    // Channel 0 leads to 1 and 2 at once; 1 and 2 lead to 3; one rule listens to both.
    let both = Rule { events: vec![1, 2], ..copy(1, 3) };
    let fork = Rule { action: vec![assign(1, Number::Own(0)), assign(2, Number::Own(0))], ..copy(0, 1) };
    let everywhere = Rule { kind: RuleKind::Everywhere, ..fork.clone() };
    // A rule counts once however many of its events an update targets.
    assert_eq!(
        check_line(&deck_of(4, vec![fork, both.clone()], &[&[0, 1]]).encode().bytes),
        "passed 4 2 1 2"
    );
    let parts: &[&[u8]] = &[&[0, 1], &[1], &[]];
    // Sent to part 1, where a rule listens (charge 2), and to part 2, where none does (charge 1).
    assert_eq!(
        check_line(&deck_of(4, vec![everywhere.clone(), both], parts).encode().bytes),
        "passed 4 2 3 3"
    );
    // With no other part an everywhere rule adds 0 for its action.
    assert_eq!(check_line(&deck_of(4, vec![everywhere], &[&[0]]).encode().bytes), "passed 4 1 1 0");
}

#[test]
fn exact_charges() {
    let random = &mut Random::new(15);
    for charge in (1..40).chain([100, 999, 4096, 65_534, 65_535]) {
        let passed = check(&exact(random, charge, Form::New).encode().bytes).unwrap();
        assert_eq!(passed.charge as usize, charge);
        let passed = Form::Old.check(&exact(random, charge, Form::Old).encode().bytes).unwrap();
        assert_eq!(passed.charge as usize, charge);
    }
}

#[test]
fn charges_beyond_64_bits_saturate() {
    let steep = |event: u8| Rule {
        kind: RuleKind::Everywhere,
        default_action: copy(event, event + 1).action,
        ..copy(event, event + 1)
    };
    let rules: Vec<Rule> = (0..31).map(steep).collect();
    let all: Vec<u8> = (0..31).collect();
    let deck = deck_of(32, rules, &[&all[..]; 16]);
    // An update to channel 0 has a charge of more than 16^31.
    assert_eq!(Charges::new(&deck).of_update(0, 1), u64::MAX);
    assert_eq!(old_check_line(&deck.encode().bytes), "refused 8 0");
}

#[test]
fn operations_clamp() {
    let (low, high) = (i32::MIN, i32::MAX);
    let literal = |value| Box::new(Number::Literal(value));
    let cases = [
        (Number::Sum(literal(high), literal(1)), high),
        (Number::Sum(literal(low), literal(-1)), low),
        (Number::Sum(literal(high), literal(low)), -1),
        (Number::Difference(literal(low), literal(1)), low),
        (Number::Difference(literal(0), literal(low)), high),
        (Number::Product(literal(low), literal(low)), high),
        (Number::Product(literal(low), literal(high)), low),
        (Number::Product(literal(65_536), literal(-32_768)), low),
        (Number::Product(literal(46_341), literal(46_341)), high),
        (Number::Negation(literal(low)), high),
        (Number::Negation(literal(high)), -high),
        // Each operation clamps for itself.
        (Number::Difference(Number::Sum(literal(high), literal(5)).into(), literal(5)), high - 5),
    ];
    for (number, value) in cases {
        assert_eq!(number.evaluate(&[], &[]), value, "{number:?}");
    }
}

#[test]
fn expressions_of_every_length() {
    let random = &mut Random::new(16);
    for round in 0..4000 {
        let scope = Scope { channels: random.between(1, 32), far: random.chance(50) };
        let length = 1 + round % 64;
        let (number, truth) = (number(random, scope, length.max(2)), truth(random, scope, length));
        assert_eq!((number.encode().len(), truth.encode().len()), (length.max(2), length));
        let wrong_type = Refusal::at(WRONG_TYPE, 0);
        assert_eq!(Number::read_whole(&number.encode(), 0, scope), Ok(number.clone()));
        assert_eq!(Truth::read_whole(&truth.encode(), 0, scope), Ok(truth.clone()));
        assert_eq!(Truth::read_whole(&number.encode(), 0, scope), Err(wrong_type));
        assert_eq!(Number::read_whole(&truth.encode(), 0, scope), Err(wrong_type));
        let values: Vec<i32> = (0..64).map(|_| value(random)).collect();
        let (own, far) = values.split_at(32);
        assert_eq!(number.evaluate(own, far), evaluate(&number, own, far));
        assert_eq!(truth.holds(own, far), holds(&truth, own, far));
    }
}
