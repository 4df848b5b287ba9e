//! Cases as theorems of antt, each to be proved by computing its definition.

use reference::cases::Case;
use reference::deck::{channel_set, Deck};
use reference::engine::{Answer, Call, Committed, Settled};
use reference::graph;
use reference::refusal::Refusal;
use reference::state::State;
use std::fmt::Display;
use std::ops::Range;

/// What every module of cases begins with, a template for `Definitions::header`.
pub const HEADER: &str = include_str!("header.antt.txt");

/// A theorem by its name: what the definitions come to, and what the reference answers.
pub fn theorems(name: &str, case: &Case) -> String {
    match case {
        Case::Check { deck, line } => {
            theorem(name, &format!("line (check {})", bytes(deck)), &format!("ascii \"{line}\\n\""))
        }
        Case::Section { deck, number, answer } => section(name, deck, *number, answer),
        Case::Convert { deck, length, answer } => {
            let wanted = answer.as_ref().map_or_else(refused, |new| format!("accepted {}", bytes(new)));
            theorem(name, &format!("conversion {} {length}", bytes(deck)), &wanted)
        }
        Case::Start { deck, pool_before, answer, state, pool_after } => theorem(
            name,
            &format!("replied (start {} {})", bytes(deck), numbers(pool_before)),
            &seen(&[started(answer)], state, pool_after),
        ),
        Case::Run { .. } => run(name, case) + &alone(name, case),
        Case::Memory { deck, state_before, pool_before, call, answer, state_after, pool_after } => theorem(
            name,
            &format!("replied (made {} {} {})", bytes(deck), memory(state_before, pool_before), a_call(call)),
            &seen(&[answered(answer)], state_after, pool_after),
        ),
    }
}

fn theorem(name: &str, found: &str, wanted: &str) -> String {
    format!("{name} : {found}\n    ≡ {wanted}\nunfolding everything\n{name} = refl\n\n")
}

/// The stretch with the two numbers; and where it begins.
fn section(name: &str, deck: &[u8], number: u32, answer: &Result<Range<usize>, Refusal>) -> String {
    let (range, refusal) = match answer {
        Ok(range) => (range.clone(), (0, 0)),
        Err(refusal) => (0..0, (refusal.number, refusal.place)),
    };
    let (from, stretch, deck) = (range.start, bytes(&deck[range]), bytes(deck));
    let wanted = format!("record {{ stretch = {stretch}; number = {}; place = {} }}", refusal.0, refusal.1);
    theorem(name, &format!("section {deck} {number}"), &wanted)
        + &theorem(&format!("{name}-from"), &format!("section_from {deck} {number}"), &from.to_string())
}

/// The calls on memory; and the definition of a list, where the start is accepted.
fn run(name: &str, case: &Case) -> String {
    let Case::Run { deck, pool_length, start, calls, answers, state, pool } = case else {
        return String::new();
    };
    let answers: Vec<String> = answers.iter().map(answered).collect();
    let (deck, calls) = (bytes(deck), list(calls.iter().map(a_call)));
    let wanted = seen(&answers, state, pool);
    let called = format!("ran (run {deck} (replicate {pool_length} (pos 7)) {calls})");
    let mut text = theorem(name, &called, &wanted);
    if start.is_ok() {
        let listed = format!("listing_of (passing New {deck}) {pool_length} {calls}");
        text += &theorem(&format!("{name}-listed"), &listed, &wanted);
    }
    text
}

/// Where the start is accepted: the channels that the calls named, those that are then left alone, and those
/// that each channel by itself would leave alone.
fn alone(name: &str, case: &Case) -> String {
    let Case::Run { deck, start: Ok(()), calls, answers, .. } = case else {
        return String::new();
    };
    let names = names(calls, answers);
    let (read, _) = Deck::read(deck).unwrap();
    let alone = |named| {
        let channels = graph::left_alone(&read, named);
        list((0..Deck::CHANNELS).filter(|channel| channels >> channel & 1 == 1))
    };
    let each = list((0..read.labels.len()).map(|channel| alone(1 << channel)));
    let (calls, answers) = (list(calls.iter().map(a_call)), list(answers.iter().map(answered)));
    let found = format!("alone_by (passing New {}) (named {calls} {answers})", bytes(deck));
    let (names, alone) = (bytes(&names), alone(channel_set(&names)));
    let wanted = format!("record {{ names = {names}; alone = {alone}; each = {each} }}");
    theorem(&format!("{name}-alone"), &found, &wanted)
}

/// The channels of every accepted input's pairs.
fn names(calls: &[Call], answers: &[Answer]) -> Vec<u8> {
    let accepted = calls.iter().zip(answers).filter_map(|called| match called {
        (Call::Input { pairs, .. }, Answer::Added(_)) => Some(pairs),
        _ => None,
    });
    accepted.flat_map(|pairs| pairs.iter().step_by(2)).map(|&channel| channel as u8).collect()
}

/// The answers, and the numbers that are not 0.
fn seen(answers: &[String], state: &State, pool: &[i32]) -> String {
    format!(
        "record {{ answers = {}; values = {}; pending = {}; length = {}; pool = {} }}",
        list(answers.iter()),
        entries(&state.values),
        state.pending,
        pool.len(),
        entries(pool)
    )
}

fn memory(state: &State, pool: &[i32]) -> String {
    format!("(memory {} {} {})", entries(&state.values), state.pending, numbers(pool))
}

fn a_call(call: &Call) -> String {
    match call {
        Call::Input { part, pairs } => format!("(input {part} {})", numbers(pairs)),
        Call::Commit { place } => format!("(commit {place})"),
        Call::Settle { budget } => format!("(settle {budget})"),
    }
}

fn answered(answer: &Answer) -> String {
    match answer {
        Answer::Added(charge) => format!("accepted (added {charge})"),
        Answer::Committed(Committed { applied: true, charge }) => format!("accepted (applied {charge})"),
        Answer::Committed(Committed { applied: false, charge }) => format!("accepted (discarded {charge})"),
        Answer::Settled(Settled { settled: true, commits }) => format!("accepted (settled {commits})"),
        Answer::Settled(Settled { settled: false, commits }) => format!("accepted (spent {commits})"),
        Answer::Refused(refusal) => refused(refusal),
    }
}

fn started(answer: &Result<(), Refusal>) -> String {
    answer.as_ref().map_or_else(refused, |_| "accepted started".to_string())
}

fn refused(refusal: &Refusal) -> String {
    format!("refused {} {}", refusal.number, refusal.place)
}

fn list(items: impl Iterator<Item = impl Display>) -> String {
    let items: String = items.map(|item| format!("{item} ∷ ")).collect();
    format!("({items}[])")
}

fn bytes(deck: &[u8]) -> String {
    list(deck.iter())
}

fn numbers(pool: &[i32]) -> String {
    list(pool.iter().map(|number| whole(*number)))
}

fn entries(values: &[i32]) -> String {
    let filled = values.iter().enumerate().filter(|(_, value)| **value != 0);
    list(filled.map(|(at, value)| format!("record {{ at = {at}; value = {} }}", whole(*value))))
}

fn whole(number: i32) -> String {
    match number {
        0.. => format!("pos {number}"),
        _ => format!("negsuc {}", -1 - i64::from(number)),
    }
}
