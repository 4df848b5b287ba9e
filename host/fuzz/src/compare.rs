//! The engines beside the reference, step by step.

use crate::step::{Outcome, Step};
use crate::summary::Summary;
use bench::engines::{Engine, Reference};
use bench::plain;
use reaction::raw::Memory;
use reference::script::Host;
use std::fmt::{Display, Write};
use std::mem::{replace, take};

/// An engine and the memory that it is lent.
struct Party {
    engine: Box<dyn Engine>,
    memory: Memory,
}

/// A deck that was converted. An engine for old decks goes on with it where the others have the new deck, and must come to
/// the same.
struct Old {
    deck: Vec<u8>,
    party: Party,
}

/// The engines and what they are lent, all alike.
pub struct Comparison {
    parties: Vec<Party>,
    old: Option<Old>,
    /// What the reference is lent, where the generators look at it.
    pub host: Host<'static>,
    pub deck: Vec<u8>,
    /// The steps of this case.
    steps: Vec<Step>,
    pub summary: Summary,
}

/// A text that says how an engine differs from the reference.
#[derive(Debug)]
pub struct Difference(pub String);

impl Comparison {
    pub fn new(engines: Vec<Box<dyn Engine>>) -> Comparison {
        let party = |engine| Party { engine, memory: Memory::new(0) };
        Comparison {
            parties: engines.into_iter().map(party).collect(),
            old: None,
            host: Host::new(&[]),
            deck: Vec::new(),
            steps: Vec::new(),
            summary: Summary::default(),
        }
    }

    /// Forgets the last case: a new deck, memory of zeros and no pool.
    pub fn begin(&mut self, deck: Vec<u8>) {
        self.host = Host::new(&[]);
        for party in &mut self.parties {
            party.memory = Memory::new(0);
        }
        self.steps = vec![Step::Deck(deck.clone())];
        self.deck = deck;
        self.old = None;
    }

    /// Performs a step by the reference and by all engines, and compares all that they hand back.
    pub fn step(&mut self, step: Step) -> Result<(), Difference> {
        if let Step::Deck(bytes) = &step {
            self.deck.clone_from(bytes);
            self.old = None;
        }
        self.steps.push(step);
        let step = &self.steps[self.steps.len() - 1];
        let mut memory = Memory {
            values: self.host.state.values,
            pending: self.host.state.pending,
            pool: take(&mut self.host.pool),
        };
        let outcome = step.perform(&mut Reference, &self.deck, &mut memory);
        let with_old = self.old.as_mut().filter(|_| step.hides_the_deck());
        self.summary.beside += u64::from(with_old.is_some() && outcome.is_some());
        let old = with_old.map(|old| (&old.deck, &mut old.party));
        for (deck, party) in self.parties.iter_mut().map(|party| (&self.deck, party)).chain(old) {
            let other = step.perform(party.engine.as_mut(), deck, &mut party.memory);
            if other != outcome || outcome.is_some() && party.memory != memory {
                return Err(difference(&self.steps, party, [other, outcome], &memory));
            }
        }
        if let (Some(name), Some(outcome)) = (step.name(), outcome) {
            self.summary.count(name, &outcome.returned);
            self.lend_converted(outcome, &memory);
        }
        (self.host.state.values, self.host.state.pending) = (memory.values, memory.pending);
        self.host.pool = memory.pool;
        Ok(())
    }

    /// After a conversion the new deck is lent, as `replay` does. Where it differs, the old one goes on beside it.
    fn lend_converted(&mut self, outcome: Outcome, memory: &Memory) {
        let Outcome { returned, mut buffer, .. } = outcome;
        // No other call has a buffer.
        if returned.number != 0 || buffer.is_empty() {
            return;
        }
        buffer.truncate(returned.answer[1] as usize);
        if buffer != self.deck {
            let deck = replace(&mut self.deck, buffer);
            let engine = Box::new(plain::Engine::for_old_decks());
            self.old = Some(Old { deck, party: Party { engine, memory: memory.clone() } });
        }
    }
}

/// The case so far and both answers, the party's and the reference's.
fn difference(steps: &[Step], party: &Party, outcomes: [Option<Outcome>; 2], memory: &Memory) -> Difference {
    let mut text = String::new();
    for step in steps {
        // Writing into a string cannot fail.
        let _ = writeln!(text, "{step}");
    }
    for (name, outcome) in [party.engine.name(), "reference"].iter().zip(&outcomes) {
        let numbers = outcome.as_ref().map(|outcome| (outcome.returned, outcome.stretch));
        let _ = writeln!(text, "{name}: {numbers:?}");
    }
    let (one, two) = (&party.memory, memory);
    if one.pending != two.pending {
        let _ = writeln!(text, "pending {}, reference {}", one.pending, two.pending);
    }
    text.push_str(&first_difference("value", &one.values, &two.values));
    text.push_str(&first_difference("pool", &one.pool, &two.pool));
    let [one, two] = outcomes.map(|outcome| outcome.map_or_else(Vec::new, |outcome| outcome.buffer));
    text.push_str(&first_difference("buffer", &one, &two));
    Difference(text)
}

/// A line for the first number that differs, if there is one.
fn first_difference<T: PartialEq + Display>(name: &str, one: &[T], two: &[T]) -> String {
    let index = one.iter().zip(two).position(|(one, two)| one != two);
    index.map_or_else(String::new, |index| {
        format!("{name} {index} is {}, reference {}\n", one[index], two[index])
    })
}

#[cfg(test)]
mod tests {
    use super::*;
    use reference::script::{parse, Line};
    use reference::stored::deck_e;

    fn line(text: &str) -> Line {
        parse(text.as_bytes()).expect("a line")
    }

    /// Deck E converted; the old deck that goes on beside it has another byte.
    fn beside(at: usize, byte: u8) -> Result<(), Difference> {
        let mut comparison = Comparison::new(Vec::new());
        comparison.begin(deck_e());
        comparison.step(Step::Line(line("convert 73")))?;
        assert_ne!(comparison.deck, deck_e());
        if let Some(old) = &mut comparison.old {
            old.deck[at] = byte;
        }
        let lines = ["start 30", "input 0 0 4", "section 1", "commit 1", "settle 9"];
        lines.map(line).map(Step::Line).into_iter().try_for_each(|step| comparison.step(step))?;
        assert_eq!(comparison.summary.beside, 4);
        Ok(())
    }

    /// The default action sets b; an old deck in which it sets c, or in which part 1 opens with another a, comes to
    /// something else.
    #[test]
    fn the_old_deck_is_compared() {
        let deck = deck_e();
        assert!(beside(8, deck[8]).is_ok());
        for (at, byte) in [(8, 2), (49, 1)] {
            let Err(Difference(text)) = beside(at, byte) else { panic!("byte {at} not found") };
            assert!(text.contains("plain, on the old deck: "), "{text}");
        }
    }
}
