//! Decks that pass.

use super::expressions::{likely_truth, lively_number, near_limit, number, truth, value};
use super::Size;
use crate::charge::Charges;
use crate::deck::{Action, Assignment, Deck, Form, Kind, Part, Rule};
use crate::expression::{Number, Scope, Truth};
use crate::random::Random;
use crate::state::MOST_PLACES;

/// How expressions and links are chosen.
#[derive(Clone, Copy, PartialEq, Eq)]
enum Style {
    Any,
    Lively,
}

pub fn valid(random: &mut Random, size: Size, form: Form) -> Deck {
    layered(random, size, Style::Any, form)
}

pub fn rich(random: &mut Random, size: Size, form: Form) -> Deck {
    layered(random, size, Style::Lively, form)
}

/// A count that tends to be small.
fn count(random: &mut Random, low: usize, high: usize) -> usize {
    let most = random.between(low, high);
    random.between(low, most)
}

/// A deck whose channels stand in an order that every edge follows.
fn layered(random: &mut Random, size: Size, style: Style, form: Form) -> Deck {
    let [channels, rules, parts] = match style {
        Style::Any => {
            [count(random, 1, size.channels), count(random, 0, size.rules), count(random, 1, size.parts)]
        }
        Style::Lively => {
            [random.between(2, size.channels), random.between(1, size.rules), random.between(1, size.parts)]
        }
    };
    let mut deck = bare(random, channels, parts);
    let mut order: Vec<u8> = (0..channels as u8).collect();
    random.shuffle(&mut order);
    let defaults = if form == Form::Old { 40 } else { 0 };
    deck.rules = (0..rules).map(|_| layered_rule(random, &order, size, style, defaults)).collect();
    for part in &mut deck.parts {
        part.carried = carried(random, rules, style);
        part.limit = limit(random, part, size, style);
    }
    lighten(&mut deck);
    deck
}

/// Channels and parts without rules; every limit is true.
pub fn bare(random: &mut Random, channels: usize, parts: usize) -> Deck {
    let labels = (0..channels).map(|_| random.within(33..=126) as u8).collect();
    let part = |_| Part {
        opening: (0..channels).map(|_| if random.chance(40) { 0 } else { value(random) }).collect(),
        carried: Vec::new(),
        limit: Truth::True,
    };
    Deck { labels, rules: Vec::new(), parts: (0..parts).map(part).collect() }
}

/// Of a hundred rules so many have a default action.
fn layered_rule(random: &mut Random, order: &[u8], size: Size, style: Style, defaults: usize) -> Rule {
    let (low, high) = order.split_at(random.between(1, order.len()));
    // Links between neighbours make long chains.
    let reach = if style == Style::Lively { 3 } else { order.len() };
    let low = &low[low.len().saturating_sub(reach)..];
    let high = &high[..high.len().min(reach)];
    let most_events = if style == Style::Lively { 2 } else { Deck::EVENTS };
    let events = random.between(1, low.len().min(most_events));
    let events = random.rising(low, events);
    let kind = random.pick(&[Kind::Here, Kind::Everywhere]);
    let own = Scope { channels: order.len(), far: false };
    let scope = Scope { far: kind == Kind::Everywhere, ..own };
    let event = random.pick(&events);
    Rule {
        default_action: if random.chance(defaults) {
            action(random, high, own, size, style, event)
        } else {
            Action::new()
        },
        condition: condition(random, scope, size, style, event),
        action: if random.chance(90) {
            action(random, high, scope, size, style, event)
        } else {
            Action::new()
        },
        events,
        kind,
    }
}

fn action(random: &mut Random, targets: &[u8], scope: Scope, size: Size, style: Style, event: u8) -> Action {
    let mut targets = targets.to_vec();
    random.shuffle(&mut targets);
    targets.truncate(count(random, 1, Deck::ASSIGNMENTS));
    let mut expression = |scope| match style {
        Style::Any => any_number(random, scope, size),
        Style::Lively => lively_number(random, scope, event),
    };
    targets.iter().map(|&target| Assignment { target, expression: expression(scope) }).collect()
}

fn condition(random: &mut Random, scope: Scope, size: Size, style: Style, event: u8) -> Truth {
    match style {
        Style::Any => any_truth(random, scope, size),
        Style::Lively => likely_truth(random, scope, event),
    }
}

fn any_number(random: &mut Random, scope: Scope, size: Size) -> Number {
    let length = count(random, 2, size.expression);
    number(random, scope, length)
}

fn any_truth(random: &mut Random, scope: Scope, size: Size) -> Truth {
    let length = count(random, 1, size.expression);
    truth(random, scope, length)
}

fn carried(random: &mut Random, rules: usize, style: Style) -> Vec<u8> {
    let numbers: Vec<u8> = (0..rules as u8).collect();
    let least = if style == Style::Lively { rules / 2 } else { 0 };
    let count = random.between(least, rules);
    random.rising(&numbers, count)
}

/// A limit that the part's opening values meet.
fn limit(random: &mut Random, part: &Part, size: Size, style: Style) -> Truth {
    let scope = Scope { channels: part.opening.len(), far: false };
    // Room for the opposite, which is a byte longer.
    let shorter = Size { expression: size.expression - 1, ..size };
    let limit = match style {
        Style::Lively if random.chance(30) => Truth::True,
        Style::Any if random.chance(70) => any_truth(random, scope, shorter),
        _ => near_limit(random, &part.opening, shorter.expression),
    };
    met(limit, part)
}

/// The limit or, where the opening values do not meet it, its opposite.
pub fn met(limit: Truth, part: &Part) -> Truth {
    if limit.holds(&part.opening, &[]) {
        return limit;
    }
    match limit {
        Truth::Not(opposite) => *opposite,
        other => Truth::Not(other.into()),
    }
}

/// Takes rules out of carried lists until every charge is small enough.
pub fn lighten(deck: &mut Deck) {
    loop {
        let charges = Charges::new(deck);
        let heavy = charges.of_carried_rules().find(|&(_, _, charge)| charge > MOST_PLACES as u64);
        let Some((part, rule, _)) = heavy else { return };
        deck.parts[part].carried.retain(|&number| usize::from(number) != rule);
    }
}

/// The longest new deck that passes.
pub fn longest(random: &mut Random) -> Deck {
    longest_of(random, Form::New)
}

/// The longest deck of a form that passes: every count and every length at its most.
///
/// The channels stand in four blocks of eight, and rules lead from a block to the next.
/// Only three rules each leave the second and the third block, so that no charge is
/// above 16 (1 + 3 16 (1 + 3 16)) = 37,648.
pub fn longest_of(random: &mut Random, form: Form) -> Deck {
    let mut deck = bare(random, Deck::CHANNELS, Deck::PARTS);
    let mut order: Vec<u8> = (0..Deck::CHANNELS as u8).collect();
    random.shuffle(&mut order);
    let blocks: Vec<&[u8]> = order.chunks(Deck::EVENTS).collect();
    let mut sources = [0; Deck::RULES];
    sources[..6].copy_from_slice(&[1, 1, 1, 2, 2, 2]);
    random.shuffle(&mut sources);
    deck.rules =
        sources.iter().map(|&block| longest_rule(random, blocks[block], blocks[block + 1], form)).collect();
    for part in &mut deck.parts {
        part.carried = (0..Deck::RULES as u8).collect();
        part.limit = longest_limit(random, part);
    }
    deck
}

fn longest_rule(random: &mut Random, events: &[u8], targets: &[u8], form: Form) -> Rule {
    let kind = random.pick(&[Kind::Here, Kind::Everywhere]);
    let own = Scope { channels: Deck::CHANNELS, far: false };
    let scope = Scope { far: kind == Kind::Everywhere, ..own };
    Rule {
        events: random.rising(events, Deck::EVENTS),
        default_action: match form {
            Form::Old => longest_action(random, targets, own),
            Form::New => Action::new(),
        },
        kind,
        condition: truth(random, scope, Deck::EXPRESSION),
        action: longest_action(random, targets, scope),
    }
}

fn longest_action(random: &mut Random, targets: &[u8], scope: Scope) -> Action {
    let mut targets = targets.to_vec();
    random.shuffle(&mut targets);
    let assignment = |&target| Assignment { target, expression: number(random, scope, Deck::EXPRESSION) };
    targets[..Deck::ASSIGNMENTS].iter().map(assignment).collect()
}

fn longest_limit(random: &mut Random, part: &Part) -> Truth {
    let scope = Scope { channels: Deck::CHANNELS, far: false };
    loop {
        let limit = truth(random, scope, Deck::EXPRESSION);
        if limit.holds(&part.opening, &[]) {
            return limit;
        }
    }
}
