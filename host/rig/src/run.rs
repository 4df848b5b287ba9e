//! `rig run`: the calls of a text, each with its answer.

use crate::calls::{calls, Call, Line};
use crate::firing::Update;
use crate::frames::Frames;
use crate::host::{Answer, Event, Host};
use crate::loading::{text_of, Loaded, Readable};
use crate::order::Order;
use crate::stop::Stop;
use crate::text::formula;
use reaction::raw::CHANNELS;
use reference::refusal::INPUT_OUTSIDE_LIMIT;

/// A deck that passed, with names, and the calls of a text.
pub struct Script {
    pub deck: reaction::Deck,
    pub readable: Readable,
    pub lines: Vec<Line>,
}

impl Script {
    pub fn read(deck: &str, file: &str) -> Result<Script, Stop> {
        let loaded = Loaded::read(deck)?;
        let (deck, readable) = (loaded.checked()?, loaded.readable()?);
        let text = text_of(file)?;
        let lines = calls(&text, &readable.names).map_err(|fault| Stop::Refused(fault.shown(file, &text)))?;
        Ok(Script { deck, readable, lines: started(lines) })
    }

    pub fn host(&self, order: Option<Order>, traced: bool) -> Host<'_> {
        Host::new(&self.deck, &self.readable.deck, order, traced)
    }
}

/// A text that does not begin with a start gets one, with the pool that is lent where no length is given.
fn started(mut lines: Vec<Line>) -> Vec<Line> {
    if !matches!(lines.first(), Some(Line { call: Call::Start { .. }, .. })) {
        lines.insert(0, Line { number: 0, text: "start".to_string(), call: Call::Start { length: None } });
    }
    lines
}

/// What a run prints, and what it leaves.
pub struct Ran {
    pub answers: String,
    pub frames: Frames,
    /// The refusals in words, a line each.
    pub refusals: Vec<String>,
}

/// Makes the calls of a script.
pub fn run(script: &Script, order: Option<Order>, trace: bool) -> Ran {
    let mut host = script.host(order, trace);
    let width = script.lines.iter().map(|line| line.text.chars().count()).max().unwrap_or(0).min(WIDEST);
    let mut ran = Ran { answers: String::new(), frames: Frames::new(&script.readable), refusals: Vec::new() };
    for line in &script.lines {
        let told = host.perform(&line.call);
        let answer = in_words(script, &line.call, &told.answer);
        let blanks = " ".repeat(width.saturating_sub(line.text.chars().count()));
        ran.answers += &format!("{}{blanks}  {answer}\n", line.text);
        told.events.iter().for_each(|event| ran.answers += &event_in_words(script, event));
        if told.answer.refused() {
            ran.refusals.push(format!("line {}: {}: {answer}", line.number, line.text));
        }
        ran.frames.after(&line.call, &told.answer, &host.memory);
    }
    ran.frames.finish(&host.memory);
    ran.answers += &left(script, &host);
    ran
}

/// Answers stand in a column up to here.
const WIDEST: usize = 44;

/// An answer in the words of `replay`; a refusal in words.
fn in_words(script: &Script, call: &Call, answer: &Answer) -> String {
    match answer {
        Answer::Started => "started".to_string(),
        Answer::Added { charge } => format!("added {charge}"),
        Answer::Committed { applied: true, charge } => format!("applied {charge}"),
        Answer::Committed { applied: false, charge } => format!("discarded {charge}"),
        Answer::Settled { commits, settled: true } => format!("settled {commits}"),
        Answer::Settled { commits, settled: false } => format!("spent {commits}"),
        Answer::Section { from, to } => format!("section {from} {to}"),
        Answer::LeftOut => "left out".to_string(),
        Answer::NotPending => "refused: no pending update sets that channel".to_string(),
        Answer::Refused(refusal) => {
            format!("refused {}: {}{}", refusal.number, refusal.name(), hint(script, call, refusal.number))
        }
    }
}

/// What helps with a refusal: the limit, for an input that would leave its part outside.
fn hint(script: &Script, call: &Call, number: u32) -> String {
    match (call, number) {
        (Call::Input { part, .. }, INPUT_OUTSIDE_LIMIT) => {
            limit(script, *part as usize).map_or(String::new(), |limit| format!(", `{limit}`"))
        }
        _ => String::new(),
    }
}

fn limit(script: &Script, part: usize) -> Option<String> {
    let part = script.readable.deck.parts.get(part)?;
    Some(formula(&part.limit, &script.readable.names))
}

/// An update by names: `left_thigh bulge = 10`.
pub fn update_in_words(script: &Script, update: &Update) -> String {
    let names = &script.readable.names;
    let name =
        |names: &[String], number: usize| names.get(number).cloned().unwrap_or_else(|| number.to_string());
    let pairs: Vec<String> = update
        .pairs
        .iter()
        .map(|&(channel, value)| format!("{} = {value}", name(&names.channels, channel)))
        .collect();
    format!("{} {}", name(&names.parts, update.part), pairs.join(", "))
}

/// What happened on the way to an answer, on a line of its own.
fn event_in_words(script: &Script, event: &Event) -> String {
    let names = &script.readable.names;
    match event {
        Event::Made(made) => {
            let already = if made.new { "" } else { " (pending already)" };
            let (rule, part) = (&names.rules[made.rule], &names.parts[made.at]);
            format!("    rule {rule} at {part}: {}{already}\n", update_in_words(script, &made.update))
        }
        Event::Applied(update) => format!("  commit {}: applied\n", update_in_words(script, update)),
        Event::Discarded(update) => {
            let limit = limit(script, update.part).unwrap_or_default();
            format!("  commit {}: discarded by the limit `{limit}`\n", update_in_words(script, update))
        }
    }
}

/// What is left at the end: the pending updates, and the values that are not the opening ones.
fn left(script: &Script, host: &Host) -> String {
    let (deck, names) = (&script.readable.deck, &script.readable.names);
    let mut text = format!("left: {} pending", host.memory.pending);
    for (number, part) in deck.parts.iter().enumerate() {
        let values = &host.memory.values[CHANNELS * number..];
        for (channel, (opening, value)) in part.opening.iter().zip(values).enumerate() {
            if opening != value {
                text += &format!("\n  {} {} {value}", names.parts[number], names.channels[channel]);
            }
        }
    }
    text + "\n"
}
