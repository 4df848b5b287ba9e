//! The six calls on new decks. Each tests afresh what it is given, in the order of the refusals.
//!
//! Old decks have the same calls behind their own check: a converted deck must do what the old one did.

use crate::charge::Charges;
use crate::deck::{Assignment, Deck, Form, Kind, Rule, Sections};
use crate::graph;
use crate::refusal::{self, require, Refusal};
use crate::state::{base, below, places, Machine, State, Update, MOST_PLACES};
use std::collections::BTreeMap;
use std::fmt;
use std::ops::Range;

/// What check answers: R, M, N and the largest charge of any carried rule.
#[derive(Clone, Copy, Debug, PartialEq, Eq)]
pub struct Passed {
    pub channels: u32,
    pub rules: u32,
    pub parts: u32,
    pub charge: u32,
}

/// What commit answers: applied or discarded, and the charge now pending.
#[derive(Clone, Copy, Debug, PartialEq, Eq)]
pub struct Committed {
    pub applied: bool,
    pub charge: u32,
}

/// What settle answers: settled or spent, and the number of commits made.
#[derive(Clone, Copy, Debug, PartialEq, Eq)]
pub struct Settled {
    pub settled: bool,
    pub commits: u32,
}

/// A call on a state and a pool.
#[derive(Clone, Debug, PartialEq, Eq)]
pub enum Call {
    Input { part: u32, pairs: Vec<i32> },
    Commit { place: u32 },
    Settle { budget: u32 },
}

/// What a call on a state and a pool answers.
#[derive(Clone, Copy, Debug, PartialEq, Eq)]
pub enum Answer {
    Added(u32),
    Committed(Committed),
    Settled(Settled),
    Refused(Refusal),
}

impl Call {
    /// Makes the call on a deck of this form.
    pub fn perform(&self, form: Form, deck: &[u8], pool: &mut [i32], state: &mut State) -> Answer {
        let answer = match self {
            Call::Input { part, pairs } => form.input(deck, pool, state, *part, pairs).map(Answer::Added),
            Call::Commit { place } => form.commit(deck, pool, state, *place).map(Answer::Committed),
            Call::Settle { budget } => form.settle(deck, pool, state, *budget).map(Answer::Settled),
        };
        answer.unwrap_or_else(Answer::Refused)
    }
}

impl fmt::Display for Refusal {
    fn fmt(&self, f: &mut fmt::Formatter) -> fmt::Result {
        write!(f, "refused {} {}", self.number, self.place)
    }
}

impl fmt::Display for Passed {
    fn fmt(&self, f: &mut fmt::Formatter) -> fmt::Result {
        write!(f, "passed {} {} {} {}", self.channels, self.rules, self.parts, self.charge)
    }
}

impl fmt::Display for Answer {
    fn fmt(&self, f: &mut fmt::Formatter) -> fmt::Result {
        match self {
            Answer::Added(charge) => write!(f, "added {charge}"),
            Answer::Committed(Committed { applied: true, charge }) => write!(f, "applied {charge}"),
            Answer::Committed(Committed { applied: false, charge }) => write!(f, "discarded {charge}"),
            Answer::Settled(Settled { settled: true, commits }) => write!(f, "settled {commits}"),
            Answer::Settled(Settled { settled: false, commits }) => write!(f, "spent {commits}"),
            Answer::Refused(refusal) => refusal.fmt(f),
        }
    }
}

/// A deck that passed.
struct Engine {
    deck: Deck,
    sections: Sections,
    charges: Charges,
}

pub fn check(deck: &[u8]) -> Result<Passed, Refusal> {
    Form::New.check(deck)
}

/// The line that the program for checking prints, without its newline.
pub fn check_line(deck: &[u8]) -> String {
    check(deck).map_or_else(|refusal| refusal.to_string(), |passed| passed.to_string())
}

/// The section's stretch of the deck, as offsets.
pub fn section(deck: &[u8], number: u32) -> Result<Range<usize>, Refusal> {
    Form::New.section(deck, number)
}

/// A refused start hands back a state of zeros and leaves the pool as lent.
pub fn start(deck: &[u8], pool: &mut [i32]) -> (Result<(), Refusal>, State) {
    Form::New.start(deck, pool)
}

/// The charge added.
pub fn input(
    deck: &[u8],
    pool: &mut [i32],
    state: &mut State,
    part: u32,
    pairs: &[i32],
) -> Result<u32, Refusal> {
    Form::New.input(deck, pool, state, part, pairs)
}

pub fn commit(deck: &[u8], pool: &mut [i32], state: &mut State, place: u32) -> Result<Committed, Refusal> {
    Form::New.commit(deck, pool, state, place)
}

pub fn settle(deck: &[u8], pool: &mut [i32], state: &mut State, budget: u32) -> Result<Settled, Refusal> {
    Form::New.settle(deck, pool, state, budget)
}

/// The calls on decks of a form.
impl Form {
    pub fn check(self, deck: &[u8]) -> Result<Passed, Refusal> {
        let engine = Engine::new(self, deck)?;
        let largest = engine.charges.of_carried_rules().map(|(_, _, charge)| charge).max();
        Ok(Passed {
            channels: engine.deck.labels.len() as u32,
            rules: engine.deck.rules.len() as u32,
            parts: engine.deck.parts.len() as u32,
            charge: largest.unwrap_or(0) as u32,
        })
    }

    pub fn section(self, deck: &[u8], number: u32) -> Result<Range<usize>, Refusal> {
        let engine = Engine::new(self, deck)?;
        let section = engine.sections.get(number as usize);
        section.cloned().ok_or(Refusal::new(refusal::SECTION))
    }

    pub fn start(self, deck: &[u8], pool: &mut [i32]) -> (Result<(), Refusal>, State) {
        let mut state = State::ZERO;
        let engine = Engine::for_pool(self, deck, pool);
        let answer = engine.map(|engine| engine.opening().store(pool, &mut state));
        (answer, state)
    }

    pub fn input(
        self,
        deck: &[u8],
        pool: &mut [i32],
        state: &mut State,
        part: u32,
        pairs: &[i32],
    ) -> Result<u32, Refusal> {
        let (engine, mut machine) = Engine::for_state(self, deck, pool, state)?;
        let before = machine.charge();
        engine.input(&mut machine, part, pairs)?;
        require(machine.charge() <= capacity(pool), Refusal::new(refusal::INPUT_CHARGE))?;
        machine.store(pool, state);
        Ok((machine.charge() - before) as u32)
    }

    pub fn commit(
        self,
        deck: &[u8],
        pool: &mut [i32],
        state: &mut State,
        place: u32,
    ) -> Result<Committed, Refusal> {
        let (engine, mut machine) = Engine::for_state(self, deck, pool, state)?;
        let applied = engine.commit(&mut machine, place as usize).ok_or(Refusal::new(refusal::PLACE))?;
        machine.store(pool, state);
        Ok(Committed { applied, charge: machine.charge() as u32 })
    }

    pub fn settle(
        self,
        deck: &[u8],
        pool: &mut [i32],
        state: &mut State,
        budget: u32,
    ) -> Result<Settled, Refusal> {
        let (engine, mut machine) = Engine::for_state(self, deck, pool, state)?;
        require(budget <= 65_535, Refusal::new(refusal::BUDGET))?;
        let mut commits = 0;
        while commits < budget && engine.commit(&mut machine, 0).is_some() {
            commits += 1;
        }
        machine.store(pool, state);
        Ok(Settled { settled: machine.pending() == 0, commits })
    }
}

/// C, the number of places of a pool of legal length.
fn capacity(pool: &[i32]) -> u64 {
    places(pool.len()).map_or(0, |places| places as u64)
}

impl Engine {
    /// Tests a deck: 1 to 8, 18 and 19, and for a new one 20.
    fn new(form: Form, bytes: &[u8]) -> Result<Engine, Refusal> {
        let (deck, sections) = form.read(bytes)?;
        let outside = deck.parts.iter().position(|part| !part.limit.holds(&part.opening, &[]));
        refuse_at(outside, refusal::OPENS_OUTSIDE_LIMIT)?;
        refuse_at(graph::lowest_on_cycle(&deck), refusal::CYCLE)?;
        let charges = Charges::new(&deck);
        let heavy = charges.of_carried_rules().find(|&(_, _, charge)| charge > MOST_PLACES as u64);
        refuse_at(heavy.map(|(part, rule, _)| 64 * part + rule), refusal::RULE_CHARGE)?;
        Ok(Engine { deck, sections, charges })
    }

    /// Tests a deck, then the pool's length: 9.
    fn for_pool(form: Form, bytes: &[u8], pool: &[i32]) -> Result<Engine, Refusal> {
        let engine = Engine::new(form, bytes)?;
        require(places(pool.len()).is_some(), Refusal::new(refusal::POOL_LENGTH))?;
        Ok(engine)
    }

    /// Tests a deck and the pool's length, then the state: 10.
    fn for_state(
        form: Form,
        bytes: &[u8],
        pool: &[i32],
        state: &State,
    ) -> Result<(Engine, Machine), Refusal> {
        let engine = Engine::for_pool(form, bytes, pool)?;
        let machine = Machine::load(&engine.deck, &engine.charges, pool, state);
        Ok((engine, machine.ok_or(Refusal::new(refusal::BAD_STATE))?))
    }

    /// The opening values, nothing pending.
    fn opening(&self) -> Machine {
        let mut values = State::ZERO.values;
        for (number, part) in self.deck.parts.iter().enumerate() {
            values[base(number)..][..part.opening.len()].copy_from_slice(&part.opening);
        }
        Machine::new(values)
    }

    /// Tests the input (11, 12, 17), sets the values and fires.
    fn input(&self, machine: &mut Machine, part: u32, pairs: &[i32]) -> Result<(), Refusal> {
        let part = part as usize;
        require(part < self.deck.parts.len(), Refusal::new(refusal::UNKNOWN_PART))?;
        let list = self.input_list(pairs).ok_or(Refusal::new(refusal::INPUT_LIST))?;
        let changed = assign(machine, part, list);
        require(self.within_limit(machine, part), Refusal::new(refusal::INPUT_OUTSIDE_LIMIT))?;
        self.fire(machine, part, changed);
        Ok(())
    }

    fn within_limit(&self, machine: &Machine, part: usize) -> bool {
        self.deck.parts[part].limit.holds(machine.part(part), &[])
    }

    /// 1 to 32 pairs of known, different channels.
    fn input_list(&self, pairs: &[i32]) -> Option<BTreeMap<u8, i32>> {
        let legal = pairs.len().is_multiple_of(2) && (1..=32).contains(&(pairs.len() / 2));
        if !legal {
            return None;
        }
        let mut list = BTreeMap::new();
        for pair in pairs.chunks_exact(2) {
            let channel = below(pair[0], self.deck.labels.len())?;
            if list.insert(channel, pair[1]).is_some() {
                return None;
            }
        }
        Some(list)
    }

    /// Commits a place: whether its update was applied, or none if nothing is pending there.
    fn commit(&self, machine: &mut Machine, place: usize) -> Option<bool> {
        let update = machine.take_out(place, &self.charges)?;
        let part = update.part();
        let before = machine.values;
        let changed = assign(machine, part, update.pairs().iter().copied());
        let applied = self.within_limit(machine, part);
        if applied {
            self.fire(machine, part, changed);
        } else {
            machine.values = before;
        }
        Some(applied)
    }

    /// The firing at a part for changed channels.
    fn fire(&self, machine: &mut Machine, part: usize, changed: u32) {
        let active: Vec<&Rule> = self.deck.parts[part]
            .carried
            .iter()
            .map(|&number| &self.deck.rules[usize::from(number)])
            .filter(|rule| rule.events.iter().any(|&event| changed >> event & 1 == 1))
            .collect();
        for rule in &active {
            self.act(machine, &rule.default_action, part, part);
            if rule.kind == Kind::Here {
                self.act_if_true(machine, rule, part, part);
            }
        }
        for rule in active.iter().filter(|rule| rule.kind == Kind::Everywhere) {
            for receiver in (0..self.deck.parts.len()).filter(|&receiver| receiver != part) {
                self.act_if_true(machine, rule, part, receiver);
            }
        }
    }

    fn act_if_true(&self, machine: &mut Machine, rule: &Rule, sender: usize, receiver: usize) {
        if rule.condition.holds(machine.part(sender), machine.part(receiver)) {
            self.act(machine, &rule.action, sender, receiver);
        }
    }

    /// Adds a non-empty action to the receiver, evaluated now.
    fn act(&self, machine: &mut Machine, action: &[Assignment], sender: usize, receiver: usize) {
        if action.is_empty() {
            return;
        }
        let (own, far) = (machine.part(sender), machine.part(receiver));
        let list =
            action.iter().map(|assignment| (assignment.target, assignment.expression.evaluate(own, far)));
        let update = Update::new(receiver, list);
        machine.add(update, &self.charges);
    }
}

/// Sets values at a part; the answer is the set of channels whose value differs.
fn assign(machine: &mut Machine, part: usize, list: impl IntoIterator<Item = (u8, i32)>) -> u32 {
    let mut changed = 0;
    for (channel, value) in list {
        let slot = &mut machine.values[base(part) + usize::from(channel)];
        if *slot != value {
            *slot = value;
            changed |= 1 << channel;
        }
    }
    changed
}

fn refuse_at(place: Option<usize>, number: u32) -> Result<(), Refusal> {
    place.map_or(Ok(()), |place| Err(Refusal::at(number, place)))
}
