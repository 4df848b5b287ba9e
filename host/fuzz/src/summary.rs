//! What a run came to.

use reaction::raw::Returned;
use std::collections::BTreeMap;
use std::fmt;

/// The largest number of a refusal.
const REFUSALS: usize = 22;

/// What calls that are accepted come to, by call.
const ACCEPTED: [&str; 9] = [
    "check passed",
    "section found",
    "start started",
    "input added",
    "commit applied",
    "commit discarded",
    "settle settled",
    "settle spent",
    "convert converted",
];

/// Where an old deck and its conversion are compared.
const BESIDE: &str = "on an old deck beside its conversion";

/// Calls by kind, accepted ones by their answer, refused ones by number.
#[derive(Default)]
pub struct Summary {
    calls: BTreeMap<&'static str, u64>,
    accepted: BTreeMap<&'static str, u64>,
    refused: [u64; REFUSALS + 1],
    /// Calls that were made on an old deck as well, beside its conversion.
    pub beside: u64,
}

impl Summary {
    pub fn count(&mut self, name: &'static str, returned: &Returned) {
        *self.calls.entry(name).or_default() += 1;
        match returned.number as usize {
            0 => *self.accepted.entry(accepted(name, &returned.answer)).or_default() += 1,
            number => self.refused[number.min(REFUSALS)] += 1,
        }
    }

    pub fn calls(&self) -> u64 {
        self.calls.values().sum()
    }

    /// Accepted answers and refusals that never came: a run that misses one has not tried everything.
    pub fn missing(&self) -> Vec<String> {
        let accepted = ACCEPTED.iter().filter(|kind| !self.accepted.contains_key(*kind));
        let refused = (1..=REFUSALS).filter(|&number| self.refused[number] == 0);
        let beside = (self.beside == 0).then(|| BESIDE.to_string());
        accepted
            .map(|kind| kind.to_string())
            .chain(refused.map(|number| format!("refused {number}")))
            .chain(beside)
            .collect()
    }
}

fn accepted(name: &str, answer: &[u32; 5]) -> &'static str {
    match (name, answer) {
        ("check", _) => "check passed",
        ("section", _) => "section found",
        ("start", _) => "start started",
        ("input", _) => "input added",
        ("commit", [_, 1, ..]) => "commit applied",
        ("commit", _) => "commit discarded",
        ("convert", _) => "convert converted",
        (_, [_, _, 1, ..]) => "settle settled",
        _ => "settle spent",
    }
}

impl fmt::Display for Summary {
    fn fmt(&self, f: &mut fmt::Formatter) -> fmt::Result {
        for (name, count) in self.calls.iter().chain(&self.accepted) {
            writeln!(f, "{count:10}  {name}")?;
        }
        for (number, count) in self.refused.iter().enumerate().skip(1) {
            writeln!(f, "{count:10}  refused {number}")?;
        }
        writeln!(f, "{:10}  {BESIDE}", self.beside)?;
        write!(f, "{} calls", self.calls())
    }
}
