//! `rig orders`: the same inputs under many orders of commits.

use crate::calls::{Call, WHOLE_BUDGET};
use crate::firing::Update;
use crate::host::{Answer, Event};
use crate::order::Order;
use crate::run::{update_in_words, Script};
use reaction::raw::CHANNELS;
use std::io::{self, IsTerminal, Write};

/// One order from the start to the end.
#[derive(Clone, Debug, PartialEq, Eq)]
pub struct Try {
    /// As `rig run --order` names it.
    pub order: String,
    pub commits: u64,
    /// The charge that the accepted inputs added: the bound on the commits.
    pub added: u64,
    /// The lines whose calls were refused.
    pub refused: Vec<usize>,
    /// Whether nothing was pending at the end.
    pub settled: bool,
    /// The values of every channel of every part, part by part.
    pub values: Vec<i32>,
}

/// The calls of a script with their lines; what is still pending at the end is settled too.
fn calls(script: &Script) -> impl Iterator<Item = (usize, &Call)> {
    const END: &Call = &Call::Settle { budget: WHOLE_BUDGET };
    script.lines.iter().map(|line| (line.number, &line.call)).chain([(0, END)])
}

/// Runs a script under an order.
pub fn attempt(script: &Script, name: &str) -> Try {
    let mut host = script.host(Order::named(name), false);
    let mut tried = Try {
        order: name.to_string(),
        commits: 0,
        added: 0,
        refused: Vec::new(),
        settled: false,
        values: Vec::new(),
    };
    for (number, call) in calls(script) {
        match host.perform(call).answer {
            Answer::Added { charge } => tried.added += u64::from(charge),
            Answer::Settled { commits, .. } => tried.commits += u64::from(commits),
            Answer::Refused(_) => tried.refused.push(number),
            _ => {}
        }
    }
    tried.settled = host.memory.pending == 0;
    let deck = &script.readable.deck;
    for part in 0..deck.parts.len() {
        tried.values.extend(&host.memory.values[CHANNELS * part..][..deck.labels.len()]);
    }
    tried
}

/// What is committed under an order, one after the other.
fn committed(script: &Script, name: &str) -> Vec<Update> {
    let mut host = script.host(Order::named(name), true);
    let events = calls(script).flat_map(|(_, call)| host.perform(call).events);
    let update = |event| match event {
        Event::Applied(update) | Event::Discarded(update) => Some(update),
        Event::Made(_) => None,
    };
    events.filter_map(update).collect()
}

/// All orders: the oldest first, the newest first, then seeds from 1 on.
pub fn attempts(script: &Script, count: usize) -> Vec<Try> {
    let show = io::stderr().is_terminal();
    let mut tries = Vec::new();
    for index in 0..count {
        let name = match index {
            0 => "oldest".to_string(),
            1 => "newest".to_string(),
            seed => (seed - 1).to_string(),
        };
        tries.push(attempt(script, &name));
        if show {
            // Progress that cannot be shown is no fault.
            let _ = write!(io::stderr(), "\r{} of {count} orders", index + 1);
        }
    }
    if show {
        let _ = write!(io::stderr(), "\r\x1b[K");
    }
    tries
}

/// What the orders came to, in words.
pub fn report(script: &Script, tries: &[Try]) -> String {
    let settled = tries.iter().filter(|tried| tried.settled).count();
    let most = tries.iter().max_by_key(|tried| tried.commits);
    let mut text = format!("{} orders, {settled} of them settled.\n", tries.len());
    if let Some(most) = most {
        text += &format!(
            "The most commits were {}, in order {}; the bound by charge is {}.\n",
            most.commits, most.order, most.added
        );
    }
    let left_out = script.lines.iter().filter(|line| matches!(line.call, Call::Commit { .. })).count();
    if left_out > 0 {
        text += &format!("{left_out} `commit` lines were left out: the orders decide.\n");
    }
    text + &refusals(script, tries) + &differences(script, tries)
}

/// Calls that were refused, in all orders or in some.
fn refusals(script: &Script, tries: &[Try]) -> String {
    let mut text = String::new();
    for line in &script.lines {
        let refused = tries.iter().filter(|tried| tried.refused.contains(&line.number));
        let count = refused.count();
        if count > 0 {
            text += &format!(
                "line {}, {}: refused in {count} of {} orders.\n",
                line.number,
                line.text,
                tries.len()
            );
        }
    }
    text
}

/// The channels whose end values differ, and two orders that show it.
fn differences(script: &Script, tries: &[Try]) -> String {
    let Some(first) = tries.first() else { return String::new() };
    let names = &script.readable.names;
    let channels = names.channels.len();
    let mut text = String::new();
    let mut shown = None;
    for place in 0..first.values.len() {
        if let Some(other) = tries.iter().find(|tried| tried.values[place] != first.values[place]) {
            text += &format!(
                "  {}.{}: {} in order {}, {} in order {}\n",
                names.parts[place / channels],
                names.channels[place % channels],
                first.values[place],
                first.order,
                other.values[place],
                other.order
            );
            shown = shown.or(Some(other));
        }
    }
    match shown {
        None => "All orders left the same values.\n".to_string(),
        Some(other) => format!("The orders left other values of\n{text}{}", pair(script, first, other)),
    }
}

/// Two orders from where they part, so that a rigger sees which commit made the difference.
fn pair(script: &Script, one: &Try, other: &Try) -> String {
    let (first, second) = (committed(script, &one.order), committed(script, &other.order));
    let same = first.iter().zip(&second).take_while(|(a, b)| a == b).count();
    let next = |tried: &Try, updates: &[Update]| match updates.get(same) {
        Some(update) => format!("  {}: {}\n", tried.order, update_in_words(script, update)),
        None => format!("  {}: nothing\n", tried.order),
    };
    format!(
        "The two orders part at commit {}:\n{}{}`rig run --order {} --trace` and `--order {} --trace` show them.\n",
        same + 1,
        next(one, &first),
        next(other, &second),
        one.order,
        other.order
    )
}
