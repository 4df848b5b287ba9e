//! Decks whose charges are near 65,535 or far beyond it.

use super::decks::{bare, met};
use super::expressions::{channel, likely_truth, near_limit};
use super::Size;
use crate::deck::{Action, Assignment, Deck, Form, Kind, Rule};
use crate::expression::Scope;
use crate::random::Random;

/// Charges near 65,535 (both sides of it), or steep ones, up to far beyond 2^64.
pub fn heavy(random: &mut Random, size: Size, form: Form) -> Deck {
    let mut deck = any_heavy(random, size, form);
    // Inputs that find no room and would break a limit as well.
    for part in &mut deck.parts {
        if random.chance(40) {
            part.limit = met(near_limit(random, &part.opening, size.expression - 1), part);
        }
    }
    deck
}

fn any_heavy(random: &mut Random, size: Size, form: Form) -> Deck {
    if random.chance(40) {
        let charge = match random.below(3) {
            0 => 65_535,
            1 => 65_536,
            _ => random.between(65_500, 65_570),
        };
        return exact(random, charge, form);
    }
    // With seven channels and six rules an update must come six times to the next channel to reach
    // 65,536. Each other part brings one, and a default action one more.
    let channels = random.between(7, size.channels.max(7));
    let times = if channels < 12 { 6 } else { 2 };
    let least = if form == Form::Old { times } else { times + 1 };
    let parts = random.between(least, size.parts.max(7));
    let mut deck = steep(random, channels, parts, form);
    if random.chance(50) {
        drop_some(random, &mut deck);
    }
    deck
}

/// A rule that leads from these events to one target, in either or both actions.
pub fn link(
    random: &mut Random,
    channels: usize,
    events: &[u8],
    target: u8,
    actions: [bool; 2],
    kind: Kind,
) -> Rule {
    let own = Scope { channels, far: false };
    let scope = Scope { far: kind == Kind::Everywhere, ..own };
    let event = random.pick(events);
    let mut action = |wanted, scope| match wanted {
        true => vec![Assignment { target, expression: channel(random, scope) }],
        false => Action::new(),
    };
    let (default_action, action) = (action(actions[0], own), action(actions[1], scope));
    Rule {
        events: events.to_vec(),
        default_action,
        kind,
        condition: likely_truth(random, scope, event),
        action,
    }
}

/// Rule j listens to the channels up to j and leads to channel j + 1, at every part:
/// charges grow by a factor at each channel.
fn steep(random: &mut Random, channels: usize, parts: usize, form: Form) -> Deck {
    let mut deck = bare(random, channels, parts);
    for rule in 0..channels - 1 {
        let events: Vec<u8> = (rule.saturating_sub(7)..=rule).map(|event| event as u8).collect();
        let default = form == Form::Old && random.chance(90);
        let target = rule as u8 + 1;
        deck.rules.push(link(random, channels, &events, target, [default, true], Kind::Everywhere));
    }
    carry_all(&mut deck);
    deck
}

fn carry_all(deck: &mut Deck) {
    for part in &mut deck.parts {
        part.carried = (0..deck.rules.len() as u8).collect();
    }
}

/// Some parts carry fewer rules, so that the lowest place is not always 0.
fn drop_some(random: &mut Random, deck: &mut Deck) {
    for part in &mut deck.parts {
        let kept = random.pick(&[40, 70, 100, 100]);
        part.carried.retain(|_| random.chance(kept));
    }
}

/// A deck whose largest rule charge is exactly this, at least 1.
///
/// An update to a channel of the chain has charge 1 + a q + b, where q is the charge of
/// the next channel's update and b counts actions on a channel that nobody listens to.
pub fn exact(random: &mut Random, charge: usize, form: Form) -> Deck {
    loop {
        let steps = steps(random, charge);
        let parts = random.between(1, 4);
        let mut deck = bare(random, steps.len() + 3, parts);
        let mut order: Vec<u8> = (0..deck.labels.len() as u8).collect();
        random.shuffle(&mut order);
        let (idle, chain) = (order[0], &order[1..]);
        let mut repeat =
            |event, target, times| repeat(random, &mut deck, [chain[event], target], times, form);
        repeat(0, chain[1], 1);
        for (step, &(factor, rest)) in steps.iter().enumerate() {
            repeat(step + 1, chain[step + 2], factor);
            repeat(step + 1, idle, rest);
        }
        if deck.rules.len() <= Deck::RULES {
            random.shuffle(&mut deck.rules);
            carry_all(&mut deck);
            return deck;
        }
    }
}

/// The pairs (a, b) from the first channel's charge down to 1.
fn steps(random: &mut Random, mut charge: usize) -> Vec<(usize, usize)> {
    let mut steps = Vec::new();
    while charge > 1 {
        let factor = random.between(2, 4).min(charge - 1);
        steps.push((factor, (charge - 1) % factor));
        charge = (charge - 1) / factor;
    }
    steps
}

/// Rules from one channel to another whose actions count so many times in all.
fn repeat(random: &mut Random, deck: &mut Deck, [event, target]: [u8; 2], mut times: usize, form: Form) {
    let (channels, others) = (deck.labels.len(), deck.parts.len() - 1);
    while times > 0 {
        let everywhere = others > 0 && others <= times && random.chance(60);
        let (kind, weight) = if everywhere { (Kind::Everywhere, others) } else { (Kind::Here, 1) };
        let default = form == Form::Old && weight < times;
        deck.rules.push(link(random, channels, &[event], target, [default, true], kind));
        times -= weight + usize::from(default);
    }
}
