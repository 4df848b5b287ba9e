//! A host that makes the calls of a text on the archive, and tells why what is pending is pending.

use crate::calls::{Call, Place, WHOLE_BUDGET};
use crate::firing::{changed, fire, pending, Made, Update};
use crate::order::Order;
use reaction::raw::{self, Memory, PLACE, VALUES};
use reaction::Refusal;
use reference::deck::Deck;

/// The places that are lent where no length is given and no input needs more.
const PLACES: usize = 2_048;

/// What a call came to.
#[derive(Clone, Debug, PartialEq, Eq)]
pub enum Answer {
    Started,
    Added {
        charge: u32,
    },
    Committed {
        applied: bool,
        charge: u32,
    },
    Settled {
        commits: u32,
        settled: bool,
    },
    Section {
        from: usize,
        to: usize,
    },
    /// The order decides what is committed.
    LeftOut,
    /// No pending update sets that channel.
    NotPending,
    Refused(Refusal),
}

impl Answer {
    pub fn refused(&self) -> bool {
        matches!(self, Answer::Refused(_) | Answer::NotPending)
    }
}

/// What happened on the way to an answer.
#[derive(Clone, Debug, PartialEq, Eq)]
pub enum Event {
    Made(Made),
    Applied(Update),
    Discarded(Update),
}

/// What a call came to, with what happened on the way.
#[derive(Clone, Debug, PartialEq, Eq)]
pub struct Told {
    pub answer: Answer,
    pub events: Vec<Event>,
}

/// Values and pending updates as they were before a call.
struct Before {
    values: [i32; VALUES],
    waiting: Vec<Update>,
}

pub struct Host<'a> {
    deck: &'a reaction::Deck,
    read: &'a Deck,
    pub memory: Memory,
    /// Where one was asked for.
    order: Option<Order>,
    /// Whether events are told, for which every pending update is looked at in each call.
    traced: bool,
}

impl<'a> Host<'a> {
    pub fn new(deck: &'a reaction::Deck, read: &'a Deck, order: Option<Order>, traced: bool) -> Host<'a> {
        Host { deck, read, memory: Memory::new(0), order, traced }
    }

    pub fn perform(&mut self, call: &Call) -> Told {
        let mut events = Vec::new();
        let answer = match call {
            Call::Start { length } => self.start(*length),
            Call::Input { part, pairs } => self.input(*part, pairs, &mut events),
            Call::Commit { .. } if self.order.is_some() => Ok(Answer::LeftOut),
            Call::Commit { place } => match self.place(*place) {
                Some(place) => self.commit(place, &mut events),
                None => Ok(Answer::NotPending),
            },
            Call::Settle { budget } => self.settle(*budget, &mut events),
            Call::Section { number } => self.section(*number),
        };
        Told { answer: answer.unwrap_or_else(Answer::Refused), events }
    }

    fn start(&mut self, length: Option<usize>) -> Result<Answer, Refusal> {
        let places = usize::from(self.deck.places_for_an_input()).max(PLACES);
        self.memory = Memory::new(length.unwrap_or(PLACE * places));
        self.memory.start(self.deck.bytes()).result().map(|_| Answer::Started)
    }

    fn input(&mut self, part: u32, pairs: &[i32], events: &mut Vec<Event>) -> Result<Answer, Refusal> {
        let before = self.before();
        let [charge, ..] = self.memory.input(self.deck.bytes(), part, pairs).result()?;
        if let Some(Before { values, mut waiting }) = before {
            self.tell_firing(&values, part as usize, &mut waiting, events);
        }
        Ok(Answer::Added { charge })
    }

    /// Commits a place, and tells what it was.
    fn commit(&mut self, place: u32, events: &mut Vec<Event>) -> Result<Answer, Refusal> {
        let before = self.before();
        let [applied, charge, ..] = self.memory.commit(self.deck.bytes(), place).result()?;
        let applied = applied == 1;
        if let Some(Before { values, mut waiting }) = before {
            let update = waiting.remove(place as usize);
            let part = update.part;
            events.push(if applied { Event::Applied(update) } else { Event::Discarded(update) });
            if applied {
                self.tell_firing(&values, part, &mut waiting, events);
            }
        }
        Ok(Answer::Committed { applied, charge })
    }

    /// What a trace starts from.
    fn before(&self) -> Option<Before> {
        self.traced.then(|| Before { values: self.memory.values, waiting: pending(&self.memory) })
    }

    /// What the rules made of the values that the engine has now.
    fn tell_firing(&self, before: &[i32], part: usize, waiting: &mut Vec<Update>, events: &mut Vec<Event>) {
        let changed = changed(before, &self.memory.values, part);
        let made = fire(self.read, &self.memory.values, part, &changed, waiting);
        events.extend(made.into_iter().map(Event::Made));
        // A trace that is not the engine's would be worse than none.
        assert_eq!(*waiting, pending(&self.memory), "what was traced is not what the engine has");
    }

    /// A settle is as many commits, of place 0 or of the places that the order names.
    fn settle(&mut self, budget: u32, events: &mut Vec<Event>) -> Result<Answer, Refusal> {
        // With no budget a settle tests all that it is lent, and changes nothing.
        let tested = if budget > WHOLE_BUDGET { budget } else { 0 };
        self.memory.settle(self.deck.bytes(), tested).result()?;
        let mut commits = 0;
        while commits < budget && self.memory.pending > 0 {
            let place = self.order.as_mut().map_or(0, |order| order.next(self.memory.pending));
            self.commit(place, events)?;
            commits += 1;
        }
        Ok(Answer::Settled { commits, settled: self.memory.pending == 0 })
    }

    fn section(&self, number: u32) -> Result<Answer, Refusal> {
        let (returned, stretch) = raw::section(self.deck.bytes(), number);
        returned.result()?;
        let from = stretch.as_ptr() as usize - self.deck.bytes().as_ptr() as usize;
        Ok(Answer::Section { from, to: from + stretch.len() })
    }

    /// The place of a pending update; none where it is named and no such update is pending.
    fn place(&self, place: Place) -> Option<u32> {
        match place {
            Place::Number(number) => Some(number),
            Place::Named { part, channel } => {
                let sets = |update: &Update| {
                    update.part == part as usize
                        && update.pairs.iter().any(|&(target, _)| target == channel as usize)
                };
                pending(&self.memory).iter().position(sets).map(|place| place as u32)
            }
        }
    }
}
