//! The chain of rules that makes a charge.

use crate::names::Names;
use reference::charge::Charges;
use reference::deck::{target_set, Deck, Kind};

/// A charge above 65,535 in a sentence, and the costliest way through the rules, a line for each step.
pub fn chain(deck: &Deck, names: &Names, part: usize, rule: usize) -> (String, Vec<String>) {
    let charges = Charges::new(deck);
    let charge = shown(charges.of_rule(part, rule));
    let sentence = format!(
        "The charge of rule {} at part {} is {charge}, above 65,535: so many commits could follow when it fires.",
        names.rules[rule], names.parts[part]
    );
    let mut steps = Vec::new();
    let mut next = Some((part, rule));
    while let Some((part, rule)) = next {
        let Some(receiver) = costliest_receiver(deck, &charges, part, rule) else { break };
        let targets = target_set(&deck.rules[rule].action);
        let count = receivers(deck, part, rule).len();
        steps.push(format!(
            "    rule {} at part {}: charge {}, {} of {} at part {}",
            names.rules[rule],
            names.parts[part],
            shown(charges.of_rule(part, rule)),
            if count == 1 { "its update".to_string() } else { format!("{count} updates, the costliest") },
            shown(charges.of_update(receiver, targets)),
            names.parts[receiver],
        ));
        next = costliest_listener(deck, &charges, receiver, targets).map(|rule| (receiver, rule));
    }
    (sentence, steps)
}

/// The parts to which a rule at a part goes.
fn receivers(deck: &Deck, part: usize, rule: usize) -> Vec<usize> {
    match deck.rules[rule].kind {
        Kind::Here => vec![part],
        Kind::Everywhere => (0..deck.parts.len()).filter(|&other| other != part).collect(),
    }
}

fn costliest_receiver(deck: &Deck, charges: &Charges, part: usize, rule: usize) -> Option<usize> {
    let targets = target_set(&deck.rules[rule].action);
    if targets == 0 {
        return None;
    }
    // The lowest of several that cost the same.
    receivers(deck, part, rule).into_iter().rev().max_by_key(|&receiver| charges.of_update(receiver, targets))
}

/// Of the rules that an update of these targets can make active at a part.
fn costliest_listener(deck: &Deck, charges: &Charges, part: usize, targets: u32) -> Option<usize> {
    let listens = |rule: &usize| deck.rules[*rule].events.iter().any(|event| targets >> event & 1 == 1);
    let carried = deck.parts[part].carried.iter().map(|&rule| usize::from(rule));
    let listeners: Vec<usize> =
        carried.filter(listens).filter(|&rule| charges.of_rule(part, rule) > 0).collect();
    listeners.into_iter().rev().max_by_key(|&rule| charges.of_rule(part, rule))
}

/// A charge with commas; charges beyond 64 bits are only known to be that large.
fn shown(charge: u64) -> String {
    if charge == u64::MAX {
        return "more than 64 bits hold".to_string();
    }
    let digits = charge.to_string();
    let mut text = String::new();
    for (index, digit) in digits.chars().enumerate() {
        if index > 0 && (digits.len() - index).is_multiple_of(3) {
            text.push(',');
        }
        text.push(digit);
    }
    text
}
