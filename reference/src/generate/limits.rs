//! The edges of a limit: faults show where a part is only just within it or only just outside.

use crate::expression::{Number, Truth};
use crate::random::Random;

/// A part's limit, and where to look for an edge of it.
#[derive(Clone, Debug)]
pub struct Limit {
    truth: Truth,
    /// The channels that it names: only they can bring a part outside.
    pub channels: Vec<u8>,
    /// Values that often lie on different sides.
    probes: Vec<i32>,
}

/// Two neighbouring values of a channel.
#[derive(Clone, Copy, Debug, PartialEq, Eq)]
pub struct Edge {
    pub within: i32,
    pub outside: i32,
}

impl Limit {
    pub fn of(truth: &Truth) -> Limit {
        let mut leaves = Vec::new();
        leaves_of_truth(truth, &mut leaves);
        let (mut channels, mut probes) = (Vec::new(), vec![i32::MIN, -1, 0, 1, i32::MAX]);
        for leaf in leaves {
            match *leaf {
                Number::Literal(value) => {
                    probes.extend([value.saturating_sub(1), value, value.saturating_add(1)]);
                }
                Number::Own(channel) if !channels.contains(&channel) => channels.push(channel),
                _ => {}
            }
        }
        Limit { truth: truth.clone(), channels, probes }
    }

    /// An edge that the channel comes to while the other values stay; none where no probe lies on
    /// the one side or none on the other.
    pub fn edge(&self, random: &mut Random, values: &[i32], channel: u8) -> Option<Edge> {
        let mut values = values.to_vec();
        let current = values[usize::from(channel)];
        let mut holds = |value| {
            values[usize::from(channel)] = value;
            self.truth.holds(&values, &[])
        };
        let (mut within, mut outside) = (None, None);
        let first = random.below(self.probes.len());
        for &probe in [current].iter().chain(&self.probes[first..]).chain(&self.probes[..first]) {
            let side = if holds(probe) { &mut within } else { &mut outside };
            side.get_or_insert(probe);
            if let (Some(within), Some(outside)) = (within, outside) {
                return Some(between(within, outside, holds));
            }
        }
        None
    }
}

/// Halves the stretch from a value within to one outside until they are neighbours.
fn between(within: i32, outside: i32, mut holds: impl FnMut(i32) -> bool) -> Edge {
    let (mut within, mut outside) = (i64::from(within), i64::from(outside));
    while (within - outside).abs() > 1 {
        let middle = (within + outside) / 2;
        let side = if holds(middle as i32) { &mut within } else { &mut outside };
        *side = middle;
    }
    Edge { within: within as i32, outside: outside as i32 }
}

/// The literals and channels of a truth.
fn leaves_of_truth<'a>(truth: &'a Truth, leaves: &mut Vec<&'a Number>) {
    match truth {
        Truth::False | Truth::True => {}
        Truth::Not(a) => leaves_of_truth(a, leaves),
        Truth::And(a, b) | Truth::Or(a, b) => [a, b].into_iter().for_each(|a| leaves_of_truth(a, leaves)),
        Truth::Less(a, b) | Truth::Equal(a, b) => [a, b].into_iter().for_each(|a| leaves_of(a, leaves)),
    }
}

/// The literals and channels of a number.
fn leaves_of<'a>(number: &'a Number, leaves: &mut Vec<&'a Number>) {
    match number {
        Number::Literal(_) | Number::Own(_) | Number::Far(_) => leaves.push(number),
        Number::Negation(a) => leaves_of(a, leaves),
        Number::Sum(a, b) | Number::Difference(a, b) | Number::Product(a, b) => {
            [a, b].into_iter().for_each(|a| leaves_of(a, leaves));
        }
    }
}
