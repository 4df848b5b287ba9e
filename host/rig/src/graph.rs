//! The dependency graph: an edge for each event and target of a carried rule.

use crate::loading::Readable;
use reference::charge::Charges;
use reference::deck::{Deck, Kind};
use std::collections::VecDeque;
use std::fmt::Write;

/// An edge between channels, and the rule that makes it.
#[derive(Clone, Copy, Debug, PartialEq, Eq)]
pub struct Edge {
    pub from: usize,
    pub to: usize,
    pub rule: usize,
}

#[derive(Clone, Debug)]
pub struct Graph {
    pub edges: Vec<Edge>,
    channels: usize,
}

impl Graph {
    pub fn of(deck: &Deck) -> Graph {
        let carried = |rule: &usize| deck.parts.iter().any(|part| part.carries(*rule));
        let mut edges = Vec::new();
        for rule in (0..deck.rules.len()).filter(carried) {
            for &event in &deck.rules[rule].events {
                for assignment in &deck.rules[rule].action {
                    edges.push(Edge { from: event.into(), to: assignment.target.into(), rule });
                }
            }
        }
        Graph { edges, channels: deck.labels.len() }
    }

    /// A shortest path from a channel to another by one or more edges; none where there is no path.
    pub fn path(&self, from: usize, to: usize) -> Option<Vec<Edge>> {
        let mut reached_by: Vec<Option<Edge>> = vec![None; self.channels];
        let mut waiting = VecDeque::from([from]);
        while let Some(channel) = waiting.pop_front() {
            for edge in self.edges.iter().filter(|edge| edge.from == channel) {
                if reached_by[edge.to].is_none() {
                    reached_by[edge.to] = Some(*edge);
                    waiting.push_back(edge.to);
                }
            }
        }
        let mut path = vec![reached_by[to]?];
        while path[path.len() - 1].from != from {
            path.push(reached_by[path[path.len() - 1].from]?);
        }
        path.reverse();
        Some(path)
    }

    /// A shortest way from a channel back to itself; empty where there is none.
    pub fn cycle(&self, channel: usize) -> Vec<Edge> {
        self.path(channel, channel).unwrap_or_default()
    }

    /// Whether an edge is part of a cycle.
    fn cyclic(&self, edge: &Edge) -> bool {
        edge.from == edge.to || self.path(edge.to, edge.from).is_some()
    }
}

/// The graph for Graphviz. Edges of rules that go everywhere are dashed, cycles are red.
pub fn dot(readable: &Readable, title: &str) -> String {
    let (deck, names) = (&readable.deck, &readable.names);
    let graph = Graph::of(deck);
    let cyclic = graph.edges.iter().any(|edge| graph.cyclic(edge));
    let charges = (!cyclic).then(|| Charges::new(deck));
    let mut text =
        format!("digraph {} {{\n  rankdir=LR;\n  node [shape=box, style=rounded];\n", quoted(title));
    for (number, name) in names.channels.iter().enumerate() {
        let on_cycle = if graph.path(number, number).is_some() { ", color=red, fontcolor=red" } else { "" };
        // Writing into a string cannot fail.
        let _ = writeln!(text, "  c{number} [label={}{on_cycle}];", quoted(name));
    }
    for edge in &graph.edges {
        let label = match &charges {
            Some(charges) => {
                format!("{}\ncharge {}", names.rules[edge.rule], largest(deck, charges, edge.rule))
            }
            None => names.rules[edge.rule].clone(),
        };
        let dashed = if deck.rules[edge.rule].kind == Kind::Everywhere { ", style=dashed" } else { "" };
        let red = if graph.cyclic(edge) { ", color=red, fontcolor=red" } else { "" };
        let _ = writeln!(text, "  c{} -> c{} [label={}{dashed}{red}];", edge.from, edge.to, quoted(&label));
    }
    text + "}\n"
}

/// The largest charge of a rule at the parts that carry it.
fn largest(deck: &Deck, charges: &Charges, rule: usize) -> u64 {
    let parts = (0..deck.parts.len()).filter(|&part| deck.parts[part].carries(rule));
    parts.map(|part| charges.of_rule(part, rule)).max().unwrap_or(0)
}

/// A string of Graphviz.
fn quoted(text: &str) -> String {
    format!("\"{}\"", text.replace('\\', "\\\\").replace('"', "\\\"").replace('\n', "\\n"))
}
