//! Decks with many default actions, and faults around them.

use super::decks::{bare, lighten, rich, valid};
use super::expression_faults::break_one;
use super::faults::damage;
use super::heavy::link;
use super::Size;
use crate::deck::{Deck, Encoded, Field, Form, Kind};
use crate::random::Random;

/// A deck with default actions that the old check passes, or one with a fault as well.
pub fn defaults(random: &mut Random, size: Size) -> Vec<u8> {
    let mut encoded = with_defaults(random, size).encode();
    match random.below(12) {
        0 | 1 => around_count(random, &mut encoded),
        2 => drop(break_one(random, &mut encoded)),
        3 => damage(random, &mut encoded),
        _ => {}
    }
    encoded.bytes
}

/// A deck with a default action at least.
fn with_defaults(random: &mut Random, size: Size) -> Deck {
    if size.rules > Deck::RULES / 2 && random.chance(60) {
        let rules = random.between(Deck::RULES / 2 + 1, size.rules);
        let any = random.between(rules, 2 * rules);
        let resulting = random.pick(&[Deck::RULES, Deck::RULES, Deck::RULES + 1, any]);
        return crowded(random, rules, resulting);
    }
    let has_default = |deck: &Deck| deck.rules.iter().any(|rule| !rule.default_action.is_empty());
    loop {
        let deck = match random.below(3) {
            0 => valid(random, size, Form::Old),
            _ => rich(random, size, Form::Old),
        };
        if has_default(&deck) {
            return deck;
        }
    }
}

/// So many short rules, of which a conversion makes so many.
pub fn crowded(random: &mut Random, rules: usize, resulting: usize) -> Deck {
    let (channels, parts) = (random.between(2, 6), random.between(1, 4));
    let mut deck = bare(random, channels, parts);
    let mut order: Vec<usize> = (0..rules).collect();
    random.shuffle(&mut order);
    for place in order {
        let event = random.below(channels - 1);
        let target = random.between(event + 1, channels - 1) as u8;
        let default = place < resulting - rules;
        let actions = [default, !default || random.chance(60)];
        let kind = random.pick(&[Kind::Here, Kind::Everywhere]);
        deck.rules.push(link(random, channels, &[event as u8], target, actions, kind));
    }
    for part in &mut deck.parts {
        let carried = random.pick(&[5, 20, 60]);
        part.carried = (0..rules as u8).filter(|_| random.chance(carried)).collect();
    }
    lighten(&mut deck);
    deck
}

/// Another count of a default action, or the deck ends just before it, after it or a little later; mostly
/// it is one that no other stands before.
fn around_count(random: &mut Random, encoded: &mut Encoded) {
    let is_count = |&&(_, field): &&(usize, Field)| field == Field::DefaultCount;
    let counts: Vec<usize> = encoded.fields.iter().filter(is_count).map(|&(at, _)| at).collect();
    let first = counts.iter().position(|&at| encoded.bytes[at] > 0).unwrap_or(0);
    let last = if random.chance(70) { first } else { counts.len() - 1 };
    let at = counts[random.between(first, last)];
    match random.below(3) {
        0 => encoded.bytes.truncate(at + random.below(8)),
        _ => encoded.bytes[at] = random.pick(&[0, 1, 2, 3, 4, 5, 5, 6, 255]),
    }
}
