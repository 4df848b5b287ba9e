//! The dependency graph.

use crate::deck::{target_set, Deck};

/// For each channel the set of channels that it has an edge to.
pub fn edges(deck: &Deck) -> [u32; Deck::CHANNELS] {
    let mut edges = [0; Deck::CHANNELS];
    for rule in deck.carried_rules() {
        let targets = target_set(&rule.default_action) | target_set(&rule.action);
        for &event in &rule.events {
            edges[usize::from(event)] |= targets;
        }
    }
    edges
}

/// The channels that can be reached from one of these by one or more edges.
fn reachable(edges: &[u32; Deck::CHANNELS], from: u32) -> u32 {
    let mut reached = 0;
    loop {
        let further = (0..Deck::CHANNELS)
            .filter(|channel| (from | reached) >> channel & 1 == 1)
            .fold(reached, |set, channel| set | edges[channel]);
        if further == reached {
            return reached;
        }
        reached = further;
    }
}

/// The lowest channel that can reach itself.
pub fn lowest_on_cycle(deck: &Deck) -> Option<usize> {
    let edges = edges(deck);
    (0..Deck::CHANNELS).find(|&channel| reachable(&edges, 1 << channel) >> channel & 1 == 1)
}

/// The channels of a deck that are left alone where these are named: not among them, and not reached from one.
pub fn left_alone(deck: &Deck, named: u32) -> u32 {
    let known = u32::MAX >> (Deck::CHANNELS - deck.labels.len());
    known & !named & !reachable(&edges(deck), named)
}
