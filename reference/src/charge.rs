//! Charges of updates and rules on an acyclic deck.

use crate::deck::{channel_set, target_set, Deck, Kind, Rule};
use std::cell::Cell;

/// What the charge of a rule depends on.
struct Links {
    events: u32,
    /// The targets of the default action; empty for an empty action.
    default_targets: u32,
    targets: u32,
    kind: Kind,
}

impl Links {
    fn of(rule: &Rule) -> Links {
        Links {
            events: channel_set(&rule.events),
            default_targets: target_set(&rule.default_action),
            targets: target_set(&rule.action),
            kind: rule.kind,
        }
    }
}

/// The charges of an acyclic deck.
///
/// Each rule at a part is worked out once. Sums saturate: a charge can be far
/// beyond 64 bits, and only charges up to 65,535 pass.
pub struct Charges {
    rules: Vec<Links>,
    carried: Vec<Vec<u8>>,
    /// By part and rule, once known.
    known: Vec<Vec<Cell<Option<u64>>>>,
}

impl Charges {
    /// The deck must be acyclic: the two charges are defined from each other.
    pub fn new(deck: &Deck) -> Charges {
        Charges {
            rules: deck.rules.iter().map(Links::of).collect(),
            carried: deck.parts.iter().map(|part| part.carried.clone()).collect(),
            known: vec![vec![Cell::new(None); deck.rules.len()]; deck.parts.len()],
        }
    }

    /// The charge of an update with these targets at a part.
    pub fn of_update(&self, part: usize, targets: u32) -> u64 {
        self.carried[part]
            .iter()
            .map(|&rule| usize::from(rule))
            .filter(|&rule| self.rules[rule].events & targets != 0)
            .fold(1, |sum: u64, rule| sum.saturating_add(self.of_rule(part, rule)))
    }

    /// The charge of a rule at a part.
    pub fn of_rule(&self, part: usize, rule: usize) -> u64 {
        let known = &self.known[part][rule];
        if let Some(charge) = known.get() {
            return charge;
        }
        let links = &self.rules[rule];
        let default = self.of_action(part, links.default_targets);
        let action = match links.kind {
            Kind::Here => self.of_action(part, links.targets),
            Kind::Everywhere => (0..self.carried.len())
                .filter(|&other| other != part)
                .fold(0, |sum: u64, other| sum.saturating_add(self.of_action(other, links.targets))),
        };
        let charge = default.saturating_add(action);
        known.set(Some(charge));
        charge
    }

    /// An empty action adds 0.
    fn of_action(&self, part: usize, targets: u32) -> u64 {
        if targets == 0 {
            0
        } else {
            self.of_update(part, targets)
        }
    }

    /// Part, rule and charge for each rule that a part carries, in rising order.
    pub fn of_carried_rules(&self) -> impl Iterator<Item = (usize, usize, u64)> + '_ {
        self.carried.iter().enumerate().flat_map(move |(part, carried)| {
            carried.iter().map(move |&rule| (part, rule.into(), self.of_rule(part, rule.into())))
        })
    }
}
