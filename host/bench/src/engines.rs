//! The three engines behind one interface: the archive, the plain engine and the reference.

use crate::plain;
use reaction::raw::{self, Memory, Returned};
use reference::State;

/// The seven calls, on memory of any content.
pub trait Engine {
    /// What it is called in a table.
    fn name(&self) -> &'static str;
    fn check(&mut self, deck: &[u8]) -> Returned;
    fn section<'d>(&mut self, deck: &'d [u8], number: u32) -> (Returned, &'d [u8]);
    fn start(&mut self, deck: &[u8], memory: &mut Memory) -> Returned;
    fn input(&mut self, deck: &[u8], memory: &mut Memory, part: u32, pairs: &[i32]) -> Returned;
    fn commit(&mut self, deck: &[u8], memory: &mut Memory, place: u32) -> Returned;
    fn settle(&mut self, deck: &[u8], memory: &mut Memory, budget: u32) -> Returned;
    fn convert(&mut self, deck: &[u8], buffer: &mut [u8]) -> Returned;
}

/// The proved engine, through the archive.
pub struct Archive;

impl Engine for Archive {
    fn name(&self) -> &'static str {
        "archive"
    }

    fn check(&mut self, deck: &[u8]) -> Returned {
        raw::check(deck)
    }

    fn section<'d>(&mut self, deck: &'d [u8], number: u32) -> (Returned, &'d [u8]) {
        raw::section(deck, number)
    }

    fn start(&mut self, deck: &[u8], memory: &mut Memory) -> Returned {
        memory.start(deck)
    }

    fn input(&mut self, deck: &[u8], memory: &mut Memory, part: u32, pairs: &[i32]) -> Returned {
        memory.input(deck, part, pairs)
    }

    fn commit(&mut self, deck: &[u8], memory: &mut Memory, place: u32) -> Returned {
        memory.commit(deck, place)
    }

    fn settle(&mut self, deck: &[u8], memory: &mut Memory, budget: u32) -> Returned {
        memory.settle(deck, budget)
    }

    fn convert(&mut self, deck: &[u8], buffer: &mut [u8]) -> Returned {
        raw::convert(deck, buffer)
    }
}

/// What a call that is accepted hands back, filled up with zeros.
fn accepted<const N: usize>(numbers: [u32; N]) -> Returned {
    let mut answer = [0; raw::ANSWER];
    answer[1..=N].copy_from_slice(&numbers);
    Returned { number: 0, answer }
}

fn refused(number: u32, place: u32) -> Returned {
    Returned { number, answer: [place, 0, 0, 0, 0] }
}

impl Engine for plain::Engine {
    fn name(&self) -> &'static str {
        self.name()
    }

    fn check(&mut self, deck: &[u8]) -> Returned {
        returned(self.check(deck).map(accepted))
    }

    fn section<'d>(&mut self, deck: &'d [u8], number: u32) -> (Returned, &'d [u8]) {
        let section = self.section(deck, number);
        (returned(section.map(|_| accepted([]))), section.unwrap_or_default())
    }

    fn start(&mut self, deck: &[u8], memory: &mut Memory) -> Returned {
        returned(self.start(deck, memory).map(|()| accepted([])))
    }

    fn input(&mut self, deck: &[u8], memory: &mut Memory, part: u32, pairs: &[i32]) -> Returned {
        returned(self.input(deck, memory, part, pairs).map(|charge| accepted([charge])))
    }

    fn commit(&mut self, deck: &[u8], memory: &mut Memory, place: u32) -> Returned {
        returned(self.commit(deck, memory, place).map(|(applied, charge)| accepted([applied.into(), charge])))
    }

    fn settle(&mut self, deck: &[u8], memory: &mut Memory, budget: u32) -> Returned {
        returned(self.settle(deck, memory, budget).map(|(made, settled)| accepted([made, settled.into()])))
    }

    fn convert(&mut self, deck: &[u8], buffer: &mut [u8]) -> Returned {
        returned(self.convert(deck, buffer).map(|length| accepted([length])))
    }
}

fn returned(answer: Result<Returned, reaction::Refusal>) -> Returned {
    answer.unwrap_or_else(|refusal| refused(refusal.number, refusal.place))
}

/// The reference. It keeps its states in a type of its own, so they are copied to and fro.
pub struct Reference;

impl Reference {
    fn on_state(
        memory: &mut Memory,
        call: impl FnOnce(&mut [i32], &mut State) -> Result<Returned, reference::Refusal>,
    ) -> Returned {
        let mut state = State { values: memory.values, pending: memory.pending };
        let answer = call(&mut memory.pool, &mut state);
        (memory.values, memory.pending) = (state.values, state.pending);
        Reference::returned(answer)
    }

    fn returned(answer: Result<Returned, reference::Refusal>) -> Returned {
        answer.unwrap_or_else(|refusal| refused(refusal.number, refusal.place))
    }
}

impl Engine for Reference {
    fn name(&self) -> &'static str {
        "reference"
    }

    fn check(&mut self, deck: &[u8]) -> Returned {
        let answer = reference::check(deck);
        Reference::returned(
            answer.map(|passed| accepted([passed.channels, passed.rules, passed.parts, passed.charge])),
        )
    }

    fn section<'d>(&mut self, deck: &'d [u8], number: u32) -> (Returned, &'d [u8]) {
        let section = reference::section(deck, number).map(|range| &deck[range]);
        (Reference::returned(section.map(|_| accepted([]))), section.unwrap_or_default())
    }

    fn start(&mut self, deck: &[u8], memory: &mut Memory) -> Returned {
        Reference::on_state(memory, |pool, state| {
            let answer;
            (answer, *state) = reference::start(deck, pool);
            answer.map(|()| accepted([]))
        })
    }

    fn input(&mut self, deck: &[u8], memory: &mut Memory, part: u32, pairs: &[i32]) -> Returned {
        Reference::on_state(memory, |pool, state| {
            reference::input(deck, pool, state, part, pairs).map(|charge| accepted([charge]))
        })
    }

    fn commit(&mut self, deck: &[u8], memory: &mut Memory, place: u32) -> Returned {
        Reference::on_state(memory, |pool, state| {
            let answer = reference::commit(deck, pool, state, place);
            answer.map(|done| accepted([done.applied.into(), done.charge]))
        })
    }

    fn settle(&mut self, deck: &[u8], memory: &mut Memory, budget: u32) -> Returned {
        Reference::on_state(memory, |pool, state| {
            let answer = reference::settle(deck, pool, state, budget);
            answer.map(|done| accepted([done.commits, done.settled.into()]))
        })
    }

    fn convert(&mut self, deck: &[u8], buffer: &mut [u8]) -> Returned {
        let answer = reference::convert(deck, buffer);
        Reference::returned(answer.map(|length| accepted([length as u32])))
    }
}
