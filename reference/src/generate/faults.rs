//! Decks with faults, and decks that only look as if they had one.

use super::decks::{bare, longest_of, rich, valid};
use super::heavy::{heavy, link};
use super::Size;
use crate::deck::{Deck, Encoded, Field, Form, Kind, Rule};
use crate::expression::Truth;
use crate::random::Random;

/// A deck that passes.
pub fn passing(random: &mut Random, size: Size, form: Form) -> Deck {
    if random.chance(50) {
        valid(random, size, form)
    } else {
        rich(random, size, form)
    }
}

/// A deck that passes, damaged once or twice.
pub fn damaged(random: &mut Random, size: Size, form: Form) -> Vec<u8> {
    let mut deck = passing(random, size, form);
    if random.chance(20) {
        break_list(random, &mut deck);
        return deck.encode().bytes;
    }
    let mut encoded = deck.encode();
    damage(random, &mut encoded);
    // A second damage must find a byte to change.
    if random.chance(25) && !encoded.bytes.is_empty() {
        damage(random, &mut encoded);
    }
    encoded.bytes
}

/// A target that stands twice, or a list that does not rise.
fn break_list(random: &mut Random, deck: &mut Deck) {
    let mut lists: Vec<&mut Vec<u8>> = deck.parts.iter_mut().map(|part| &mut part.carried).collect();
    for rule in &mut deck.rules {
        for action in [&mut rule.default_action, &mut rule.action] {
            if action.len() > 1 && random.chance(60) {
                let first = random.below(action.len() - 1);
                let second = random.between(first + 1, action.len() - 1);
                action[second].target = action[first].target;
                return;
            }
        }
        lists.push(&mut rule.events);
    }
    random.shuffle(&mut lists);
    if let Some(list) = lists.into_iter().find(|list| list.len() > 1) {
        let second = random.between(1, list.len() - 1);
        if random.chance(50) {
            list[second] = list[second - 1];
        } else {
            list.swap(second - 1, second);
        }
    }
}

/// One change of any kind to a deck's bytes, of which there must be some.
pub fn damage(random: &mut Random, encoded: &mut Encoded) {
    match random.below(12) {
        0..=3 => change_field(random, encoded),
        4..=6 => change_expression(random, encoded),
        7 => encoded.bytes.truncate(cut(random, encoded)),
        8 => {
            let more = random.between(1, 3);
            encoded.bytes.extend((0..more).map(|_| random.byte()));
        }
        9 => {
            let at = random.below(encoded.bytes.len());
            encoded.bytes.remove(at);
        }
        10 => {
            let at = random.below(encoded.bytes.len() + 1);
            encoded.bytes.insert(at, random.byte());
        }
        _ => {
            let at = random.below(encoded.bytes.len());
            encoded.bytes[at] = random.byte();
        }
    }
}

/// The offset of a field, each kind of field being as likely as another.
fn any_field(random: &mut Random, encoded: &Encoded) -> usize {
    let mut kinds = Vec::new();
    for &(_, kind) in &encoded.fields {
        if !kinds.contains(&kind) {
            kinds.push(kind);
        }
    }
    let kind = random.pick(&kinds);
    field_of(random, encoded, kind).unwrap_or(0)
}

fn field_of(random: &mut Random, encoded: &Encoded, kind: Field) -> Option<usize> {
    let inside = |&&(at, field): &&(usize, Field)| field == kind && at < encoded.bytes.len();
    let fields: Vec<usize> = encoded.fields.iter().filter(inside).map(|&(at, _)| at).collect();
    (!fields.is_empty()).then(|| random.pick(&fields))
}

/// A field gets a number at or beyond an end of some range.
fn change_field(random: &mut Random, encoded: &mut Encoded) {
    let at = any_field(random, encoded);
    let old = encoded.bytes[at];
    let any = random.byte();
    let ends = [0, 1, 2, 4, 5, 8, 9, 16, 17, 32, 33, 64, 65, 126, 127, 255];
    let end = random.pick(&ends);
    encoded.bytes[at] = random.pick(&[old.wrapping_add(1), old.wrapping_sub(1), end, end, any]);
}

/// An expression gets another operator or byte, or is a byte longer or shorter.
fn change_expression(random: &mut Random, encoded: &mut Encoded) {
    let Some(start) = field_of(random, encoded, Field::Expression) else { return };
    let length = usize::from(encoded.bytes[start - 1]);
    let inside = (start + random.below(length)).min(encoded.bytes.len() - 1);
    match random.below(5) {
        0 => encoded.bytes[start] = random.below(24) as u8,
        1 => encoded.bytes[inside] = random.below(24) as u8,
        2 => encoded.bytes[inside] = random.byte(),
        3 => {
            encoded.bytes[start - 1] = encoded.bytes[start - 1].wrapping_add(1);
            encoded.bytes.insert(inside, random.below(24) as u8);
        }
        _ => {
            encoded.bytes[start - 1] = encoded.bytes[start - 1].wrapping_sub(1);
            encoded.bytes.remove(inside);
        }
    }
}

/// Where to cut a deck short: at a field, just inside one, or anywhere.
fn cut(random: &mut Random, encoded: &Encoded) -> usize {
    match random.below(3) {
        0 => any_field(random, encoded),
        1 => any_field(random, encoded) + 1,
        _ => random.below(encoded.bytes.len()),
    }
}

/// Rings, loops of one channel, rings with a link that nobody carries, and diamonds.
pub fn cyclic(random: &mut Random, size: Size, form: Form) -> Deck {
    match random.below(6) {
        0 => passing_with_loop(random, size, form),
        1 => ring(random, size, form, false),
        2 => ring(random, size, form, true),
        3 => diamonds(random, size, form),
        4 => any_graph(random, size),
        _ => rich_ring(random, size, form),
    }
}

/// Adds a rule at the end, carried by some parts.
fn add_rule(random: &mut Random, deck: &mut Deck, rule: Rule, carriers: &[usize]) {
    let number = deck.rules.len() as u8;
    deck.rules.push(rule);
    for &part in carriers {
        deck.parts[part].carried.push(number);
    }
    if random.chance(30) && !carriers.is_empty() {
        let part = random.below(deck.parts.len());
        if !deck.parts[part].carries(number.into()) {
            deck.parts[part].carried.push(number);
        }
    }
}

/// A link that is carried by one part, or by nobody.
fn add_link(random: &mut Random, deck: &mut Deck, [event, target]: [u8; 2], form: Form, carried: bool) {
    let actions = match form {
        Form::Old => random.pick(&[[true, false], [false, true], [true, true]]),
        Form::New => [false, true],
    };
    let kind = random.pick(&[Kind::Here, Kind::Everywhere]);
    let rule = link(random, deck.labels.len(), &[event], target, actions, kind);
    let carrier = random.below(deck.parts.len());
    add_rule(random, deck, rule, if carried { std::slice::from_ref(&carrier) } else { &[] });
}

/// A channel leads to itself; sometimes nobody carries the rule.
fn passing_with_loop(random: &mut Random, size: Size, form: Form) -> Deck {
    let mut deck = passing(random, Size { rules: size.rules - 1, ..size }, form);
    let channel = random.below(deck.labels.len()) as u8;
    let carried = random.chance(75);
    add_link(random, &mut deck, [channel, channel], form, carried);
    deck
}

/// Some channels in a random order.
fn some_channels(random: &mut Random, channels: usize, count: usize) -> Vec<u8> {
    let mut chosen: Vec<u8> = (0..channels as u8).collect();
    random.shuffle(&mut chosen);
    chosen.truncate(count);
    chosen
}

/// A ring of links at different parts; broken if nobody carries one of them.
fn ring(random: &mut Random, size: Size, form: Form, broken: bool) -> Deck {
    let channels = random.between(2, size.channels);
    let parts = random.between(1, size.parts);
    let mut deck = bare(random, channels, parts);
    let length = random.between(2, channels.min(size.rules));
    let ring = some_channels(random, channels, length);
    let uncarried = random.below(length);
    for (number, &channel) in ring.iter().enumerate() {
        let carried = !broken || number != uncarried;
        add_link(random, &mut deck, [channel, ring[(number + 1) % length]], form, carried);
    }
    deck
}

/// A rich deck with a ring across it.
fn rich_ring(random: &mut Random, size: Size, form: Form) -> Deck {
    let mut deck = rich(random, Size { rules: size.rules - 2, ..size }, form);
    let pair = some_channels(random, deck.labels.len(), 2);
    add_link(random, &mut deck, [pair[0], pair[1]], form, true);
    add_link(random, &mut deck, [pair[1], pair[0]], form, true);
    deck
}

/// Diamonds one below the other: many ways from the first channel to the last, no cycle.
fn diamonds(random: &mut Random, size: Size, form: Form) -> Deck {
    let most = ((size.channels - 1) / 3).min(size.rules / 4).max(1);
    let count = random.between(1, most.min(6));
    let parts = random.between(1, size.parts);
    let mut deck = bare(random, 3 * count + 1, parts);
    let order = some_channels(random, 3 * count + 1, 3 * count + 1);
    for diamond in order.windows(4).step_by(3) {
        for (from, to) in [(0, 1), (0, 2), (1, 3), (2, 3)] {
            add_link(random, &mut deck, [diamond[from], diamond[to]], form, true);
        }
    }
    deck
}

/// Links from anywhere to anywhere.
fn any_graph(random: &mut Random, size: Size) -> Deck {
    let channels = random.between(1, size.channels);
    let parts = random.between(1, size.parts);
    let mut deck = bare(random, channels, parts);
    let all: Vec<u8> = (0..channels as u8).collect();
    for _ in 0..random.between(1, size.rules.min(channels)) {
        let count = random.between(1, channels.min(3));
        let events = random.rising(&all, count);
        let target = random.below(channels) as u8;
        let rule = link(random, channels, &events, target, [false, true], Kind::Here);
        let carrier = random.below(parts);
        add_rule(random, &mut deck, rule, &[carrier]);
    }
    deck
}

/// A part, or several, open outside their limit; often a later fault comes with it.
pub fn limit(random: &mut Random, size: Size, form: Form) -> Vec<u8> {
    let mut deck = match random.below(4) {
        0 => cyclic(random, size, form),
        1 => heavy(random, size, form),
        _ => passing(random, size, form),
    };
    for _ in 0..random.between(1, 2) {
        let part = random.below(deck.parts.len());
        let opening = deck.parts[part].opening.clone();
        let limit = &mut deck.parts[part].limit;
        if limit.holds(&opening, &[]) {
            *limit = opposite(limit);
        }
    }
    let mut bytes = deck.encode().bytes;
    if random.chance(10) {
        bytes.push(random.byte());
    }
    bytes
}

/// False where the limit holds, and no longer than the longest expression.
fn opposite(limit: &Truth) -> Truth {
    match limit {
        Truth::Not(inner) => inner.as_ref().clone(),
        Truth::True => Truth::False,
        other => Truth::Not(other.clone().into()),
    }
}

/// The longest deck that passes, one byte longer, one shorter, or with its last byte changed.
pub fn around_longest(random: &mut Random, form: Form) -> Vec<u8> {
    let mut bytes = longest_of(random, form).encode().bytes;
    match random.below(6) {
        0 => bytes.push(random.byte()),
        1 => {
            bytes.pop();
        }
        2 => {
            let last = bytes.len() - 1;
            bytes[last] = random.byte();
        }
        _ => {}
    }
    bytes
}

/// A few random bytes, the first ones often a possible beginning.
pub fn noise(random: &mut Random) -> Vec<u8> {
    let length = random.below(80);
    let top = random.pick(&[4, 20, 130, 256]);
    let mut bytes: Vec<u8> = (0..length).map(|_| random.below(top) as u8).collect();
    let channels = random.between(1, 3);
    if random.chance(60) && length > channels {
        bytes[0] = channels as u8;
        bytes[1..=channels].fill(b'a');
    }
    bytes
}
