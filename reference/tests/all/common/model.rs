//! A plain model of lists of calls: values, a list of pending updates, and charges by
//! direct recursion. It shares only the deck's syntax with the library.

use reference::deck::{Action, Deck, Kind, Rule};
use reference::engine::{Answer, Call, Committed, Settled};
use reference::expression::{Number, Truth};
use reference::{Refusal, State};

type Pairs = Vec<(usize, i32)>;

pub struct Model<'a> {
    deck: &'a Deck,
    places: u64,
    pub values: Vec<Vec<i32>>,
    pub pending: Vec<(usize, Pairs)>,
    /// Parts whose limit was met right after each applied commit, and those where it wasn't.
    pub within: usize,
    pub outside: usize,
}

pub fn evaluate(number: &Number, own: &[i32], far: &[i32]) -> i32 {
    let whole = |operand: &Number| i128::from(evaluate(operand, own, far));
    let result = match number {
        Number::Literal(value) => i128::from(*value),
        Number::Own(channel) => own[*channel as usize].into(),
        Number::Far(channel) => far[*channel as usize].into(),
        Number::Sum(a, b) => whole(a) + whole(b),
        Number::Difference(a, b) => whole(a) - whole(b),
        Number::Product(a, b) => whole(a) * whole(b),
        Number::Negation(a) => -whole(a),
    };
    result.clamp(-2_147_483_648, 2_147_483_647) as i32
}

pub fn holds(truth: &Truth, own: &[i32], far: &[i32]) -> bool {
    match truth {
        Truth::False | Truth::True => *truth == Truth::True,
        Truth::Not(a) => !holds(a, own, far),
        Truth::And(a, b) => holds(a, own, far) & holds(b, own, far),
        Truth::Or(a, b) => holds(a, own, far) | holds(b, own, far),
        Truth::Less(a, b) => evaluate(a, own, far) < evaluate(b, own, far),
        Truth::Equal(a, b) => evaluate(a, own, far) == evaluate(b, own, far),
    }
}

/// Update u at part p: 1, plus the charge at p of every rule carried by p that listens.
pub fn update_charge(deck: &Deck, part: usize, targets: &[usize]) -> u64 {
    let listens = |rule: &Rule| rule.events.iter().any(|&event| targets.contains(&event.into()));
    let carried = deck.parts[part].carried.iter().map(|&rule| &deck.rules[rule as usize]);
    1 + carried.filter(|rule| listens(rule)).map(|rule| rule_charge(deck, part, rule)).sum::<u64>()
}

pub fn rule_charge(deck: &Deck, part: usize, rule: &Rule) -> u64 {
    let action_charge = |part, action: &Action| {
        let targets: Vec<usize> = action.iter().map(|assignment| assignment.target.into()).collect();
        if targets.is_empty() {
            0
        } else {
            update_charge(deck, part, &targets)
        }
    };
    let others = (0..deck.parts.len()).filter(|&other| other != part);
    action_charge(part, &rule.default_action)
        + match rule.kind {
            Kind::Here => action_charge(part, &rule.action),
            Kind::Everywhere => others.map(|other| action_charge(other, &rule.action)).sum(),
        }
}

impl<'a> Model<'a> {
    pub fn new(deck: &'a Deck, places: usize) -> Model<'a> {
        let values = deck.parts.iter().map(|part| part.opening.clone()).collect();
        Model { deck, places: places as u64, values, pending: Vec::new(), within: 0, outside: 0 }
    }

    pub fn charge(&self) -> u64 {
        let channels = |pairs: &Pairs| pairs.iter().map(|pair| pair.0).collect::<Vec<_>>();
        self.pending.iter().map(|(part, pairs)| update_charge(self.deck, *part, &channels(pairs))).sum()
    }

    pub fn step(&mut self, call: &Call) -> Answer {
        let refused = |number| Answer::Refused(Refusal { number, place: 0 });
        match call {
            Call::Input { part, pairs } => {
                self.input(*part as usize, pairs).map_or_else(refused, Answer::Added)
            }
            Call::Commit { place } if *place as usize >= self.pending.len() => refused(14),
            Call::Commit { place } => {
                let applied = self.commit(*place as usize);
                Answer::Committed(Committed { applied, charge: self.charge() as u32 })
            }
            Call::Settle { budget } if *budget > 65_535 => refused(16),
            Call::Settle { budget } => self.settle(*budget),
        }
    }

    fn input(&mut self, part: usize, pairs: &[i32]) -> Result<u32, u32> {
        if part >= self.deck.parts.len() {
            return Err(11);
        }
        let channels: Vec<i32> = pairs.iter().step_by(2).copied().collect();
        let known = channels.iter().all(|&channel| (0..self.deck.labels.len() as i32).contains(&channel));
        let different = (1..channels.len()).all(|last| !channels[..last].contains(&channels[last]));
        if pairs.len() % 2 == 1 || channels.is_empty() || channels.len() > 32 || !known || !different {
            return Err(12);
        }
        let list: Pairs = pairs.chunks(2).map(|pair| (pair[0] as usize, pair[1])).collect();
        if !self.limit_holds_with(part, &list) {
            return Err(17);
        }
        let (values, pending, before) = (self.values.clone(), self.pending.clone(), self.charge());
        self.apply(part, &list);
        if self.charge() > self.places {
            (self.values, self.pending) = (values, pending);
            return Err(13);
        }
        Ok((self.charge() - before) as u32)
    }

    /// Whether a part would be within its limit with these values set.
    fn limit_holds_with(&self, part: usize, list: &Pairs) -> bool {
        let mut values = self.values[part].clone();
        for &(channel, value) in list {
            values[channel] = value;
        }
        holds(&self.deck.parts[part].limit, &values, &[])
    }

    /// Sets values and fires for the channels that differ.
    fn apply(&mut self, part: usize, list: &Pairs) {
        let before = self.values[part].clone();
        for &(channel, value) in list {
            self.values[part][channel] = value;
        }
        let changed = |event: &u8| before[*event as usize] != self.values[part][*event as usize];
        let carried = self.deck.parts[part].carried.iter().map(|&rule| &self.deck.rules[rule as usize]);
        let active: Vec<&Rule> = carried.filter(|rule| rule.events.iter().any(changed)).collect();
        let mut found = Vec::new();
        for rule in &active {
            found.push((part, self.assignments(&rule.default_action, part, part)));
            if rule.kind == Kind::Here && holds(&rule.condition, &self.values[part], &[]) {
                found.push((part, self.assignments(&rule.action, part, part)));
            }
        }
        for rule in active.iter().filter(|rule| rule.kind == Kind::Everywhere) {
            for other in (0..self.deck.parts.len()).filter(|&other| other != part) {
                if holds(&rule.condition, &self.values[part], &self.values[other]) {
                    found.push((other, self.assignments(&rule.action, part, other)));
                }
            }
        }
        for update in found {
            if !update.1.is_empty() && !self.pending.contains(&update) {
                self.pending.push(update);
            }
        }
    }

    fn assignments(&self, action: &Action, own: usize, far: usize) -> Pairs {
        let value = |number| evaluate(number, &self.values[own], &self.values[far]);
        action.iter().map(|assignment| (assignment.target.into(), value(&assignment.expression))).collect()
    }

    /// Whether the update was applied.
    fn commit(&mut self, place: usize) -> bool {
        let (part, list) = self.pending.remove(place);
        if !self.limit_holds_with(part, &list) {
            return false;
        }
        self.apply(part, &list);
        if holds(&self.deck.parts[part].limit, &self.values[part], &[]) {
            self.within += 1;
        } else {
            self.outside += 1;
        }
        true
    }

    fn settle(&mut self, budget: u32) -> Answer {
        let mut commits = 0;
        while commits < budget && !self.pending.is_empty() {
            self.commit(0);
            commits += 1;
        }
        Answer::Settled(Settled { settled: self.pending.is_empty(), commits })
    }

    /// The state and the pool that say what the model holds.
    pub fn memory(&self) -> (State, Vec<i32>) {
        let mut state = State::ZERO;
        for (part, values) in self.values.iter().enumerate() {
            for (channel, &value) in values.iter().enumerate() {
                state.values[32 * part + channel] = value;
            }
        }
        state.pending = self.pending.len() as u32;
        let mut pool = vec![0; 10 * self.places as usize];
        for (place, (part, pairs)) in self.pending.iter().enumerate() {
            pool[10 * place] = *part as i32;
            pool[10 * place + 1] = pairs.len() as i32;
            for (number, &(channel, value)) in pairs.iter().enumerate() {
                pool[10 * place + 2 + 2 * number] = channel as i32;
                pool[10 * place + 3 + 2 * number] = value;
            }
        }
        (state, pool)
    }
}
