//! Small cases with what the reference answers, for comparison by slower means.

use crate::conversion::convert;
use crate::deck::Deck;
use crate::engine::{check_line, section, start, Answer, Call};
use crate::generate::calls::{any, bad_length, buffer_length, damage, hand_written, Known};
use crate::generate::defaults::crowded;
use crate::generate::{self, deck, old_deck, Kind};
use crate::random::Random;
use crate::refusal::{self, Refusal};
use crate::script::Host;
use crate::state::{State, PLACE};
use std::ops::Range;

/// The largest numbers of a case.
#[derive(Clone, Copy, Debug)]
pub struct Size {
    pub deck: generate::Size,
    /// C, the places of a pool.
    pub places: usize,
    pub calls: usize,
}

impl Size {
    /// Only a deck that is refused by 8 or 21 may be larger: with so few rules and parts
    /// no charge would be above 65,535, and no conversion would give 65 rules.
    pub const SMALL: Size = Size {
        deck: generate::Size { channels: 6, rules: 6, parts: 4, expression: 16 },
        places: 12,
        calls: 12,
    };
}

/// A case: what is lent and asked, and what the answer and the memory are afterwards.
// States are large; cases are few.
#[allow(clippy::large_enum_variant)]
#[derive(Clone, Debug)]
pub enum Case {
    /// The line that the program for checking prints.
    Check { deck: Vec<u8>, line: String },
    /// The stretch that section hands back, or its refusal.
    Section { deck: Vec<u8>, number: u32, answer: Result<Range<usize>, Refusal> },
    /// What the converter writes to a buffer of this length, or its refusal.
    Convert { deck: Vec<u8>, length: usize, answer: Result<Vec<u8>, Refusal> },
    /// A start on a pool that holds other numbers before.
    Start {
        deck: Vec<u8>,
        pool_before: Vec<i32>,
        answer: Result<(), Refusal>,
        state: State,
        pool_after: Vec<i32>,
    },
    /// A start and calls after it, each on what the last one left, and what is left at the
    /// end. Every number of the pool is 7 before the start. Where the start is refused,
    /// the calls follow on a state of zeros and that pool.
    Run {
        deck: Vec<u8>,
        pool_length: usize,
        start: Result<(), Refusal>,
        calls: Vec<Call>,
        answers: Vec<Answer>,
        state: State,
        pool: Vec<i32>,
    },
    /// One call on memory of any content.
    Memory {
        deck: Vec<u8>,
        state_before: State,
        pool_before: Vec<i32>,
        call: Call,
        answer: Answer,
        state_after: State,
        pool_after: Vec<i32>,
    },
}

impl Case {
    fn check(deck: Vec<u8>) -> Case {
        Case::Check { line: check_line(&deck), deck }
    }

    fn section(deck: Vec<u8>, number: u32) -> Case {
        Case::Section { answer: section(&deck, number), number, deck }
    }

    fn convert(deck: Vec<u8>, length: usize) -> Case {
        let mut buffer = vec![0; length];
        let written = convert(&deck, &mut buffer);
        Case::Convert { answer: written.map(|length| buffer[..length].to_vec()), length, deck }
    }

    fn start(deck: Vec<u8>, pool_before: Vec<i32>) -> Case {
        let mut pool_after = pool_before.clone();
        let (answer, state) = start(&deck, &mut pool_after);
        Case::Start { deck, pool_before, answer, state, pool_after }
    }

    /// Every refusal among its answers.
    pub fn refusals(&self) -> Vec<Refusal> {
        let refused = |answer: &Answer| match answer {
            Answer::Refused(refusal) => Some(*refusal),
            _ => None,
        };
        match self {
            Case::Check { deck, .. } => crate::check(deck).err().into_iter().collect(),
            Case::Section { answer, .. } => answer.clone().err().into_iter().collect(),
            Case::Convert { answer, .. } => answer.clone().err().into_iter().collect(),
            Case::Start { answer, .. } => answer.err().into_iter().collect(),
            Case::Run { start, answers, .. } => {
                start.err().into_iter().chain(answers.iter().filter_map(refused)).collect()
            }
            Case::Memory { answer, .. } => refused(answer).into_iter().collect(),
        }
    }

    fn is_accepted(&self) -> bool {
        self.refusals().is_empty()
    }

    /// Whether the converter split a rule.
    fn splits(&self) -> bool {
        matches!(self, Case::Convert { deck, answer: Ok(new), .. } if new != deck)
    }

    /// Whether this word is an answer in a list of calls.
    pub fn run_answers(&self, word: &str) -> bool {
        let said = |answer: &Answer| answer.to_string().split(' ').next() == Some(word);
        matches!(self, Case::Run { answers, .. } if answers.iter().any(said))
    }
}

/// Far more than are needed: an engine that never gives what is wanted must not be tried for ever.
const MOST_TRIES: usize = 100_000;

/// The answers of calls other than refusals; where one is applied, an input was accepted before.
const ANSWERS: [&str; 4] = ["applied", "discarded", "settled", "spent"];

/// So many cases. In each forty is every refusal and every other answer.
pub fn generate(seed: u64, count: usize, size: &Size) -> Vec<Case> {
    let mut maker = Maker { random: Random::new(seed), size: *size };
    (0..count).map(|number| maker.case(number % 40)).collect()
}

struct Maker {
    random: Random,
    size: Size,
}

impl Maker {
    fn case(&mut self, turn: usize) -> Case {
        match turn {
            0..=21 => self.aimed(turn as u32 + 1),
            22..=25 => {
                let word = ANSWERS[turn - 22];
                self.until(|maker| maker.run(Kind::Rich), |case| case.run_answers(word))
            }
            26..=29 => {
                let kind = self.random.pick(&[Kind::Rich, Kind::Rich, Kind::Valid]);
                self.run(kind)
            }
            30..=33 => self.memory(Kind::Rich),
            34 => self.until(|maker| maker.convert(Kind::Rich), Case::splits),
            35 => self.convert(Kind::Valid),
            36 => self.until(|maker| maker.section(Kind::Valid), Case::is_accepted),
            37 => self.until(|maker| maker.start(Kind::Valid), Case::is_accepted),
            38 => self.check(Kind::Valid),
            _ => {
                let kind = self.random.pick(&[Kind::Rich, Kind::Cyclic, Kind::Damaged, Kind::Expression]);
                self.check(kind)
            }
        }
    }

    /// A case that has what is wanted: tried until it occurs.
    fn until(&mut self, make: impl Fn(&mut Maker) -> Case, wanted: impl Fn(&Case) -> bool) -> Case {
        let found = (0..MOST_TRIES).map(|_| make(self)).find(wanted);
        found.expect("what is wanted occurs within the most tries")
    }

    /// A case with this refusal.
    fn aimed(&mut self, number: u32) -> Case {
        let refused = |case: &Case| case.refusals().iter().any(|refusal| refusal.number == number);
        self.until(|maker| maker.attempt(number), refused)
    }

    fn attempt(&mut self, number: u32) -> Case {
        match number {
            refusal::UNKNOWN_BYTE | refusal::WRONG_TYPE | refusal::WRONG_END => {
                self.any_call(Kind::Expression)
            }
            refusal::DECK_ENDS..=refusal::BYTES_FOLLOW => self.any_call(Kind::Damaged),
            refusal::OPENS_OUTSIDE_LIMIT => self.any_call(Kind::Limit),
            refusal::CYCLE => self.any_call(Kind::Cyclic),
            refusal::RULE_CHARGE if self.random.chance(20) => self.convert(Kind::Heavy),
            refusal::RULE_CHARGE => self.check(Kind::Heavy),
            refusal::DEFAULT_ACTION => self.any_call(Kind::Defaults),
            refusal::RULES_RESULT => self.convert_crowded(),
            refusal::BUFFER_SHORT => self.convert(Kind::Rich),
            refusal::SECTION => self.section(Kind::Rich),
            refusal::POOL_LENGTH => self.any_call(Kind::Rich),
            refusal::BAD_STATE => self.memory(Kind::Rich),
            // By hand, a part can be outside its limit before the input.
            refusal::INPUT_OUTSIDE_LIMIT if self.random.chance(50) => self.memory(Kind::Rich),
            _ => self.run(Kind::Rich),
        }
    }

    fn any_call(&mut self, kind: Kind) -> Case {
        match self.random.below(12) {
            0..=5 => self.check(kind),
            6 => self.section(kind),
            7 => self.start(kind),
            8 => self.memory(kind),
            9 => self.run(kind),
            _ => self.convert(kind),
        }
    }

    fn deck(&mut self, kind: Kind) -> Vec<u8> {
        deck(kind, &mut self.random, self.size.deck)
    }

    fn pool_length(&mut self) -> usize {
        if self.random.chance(90) {
            return PLACE * self.random.between(1, self.size.places);
        }
        // A slow comparison is spared the longest lengths.
        (bad_length(&mut self.random) as usize).min(PLACE * self.size.places + 1)
    }

    fn check(&mut self, kind: Kind) -> Case {
        Case::check(self.deck(kind))
    }

    fn section(&mut self, kind: Kind) -> Case {
        let number = self.random.pick(&[0, 1, 2, 3, u32::MAX]);
        Case::section(self.deck(kind), number)
    }

    fn convert(&mut self, kind: Kind) -> Case {
        let deck = old_deck(kind, &mut self.random, self.size.deck);
        let length = buffer_length(&mut self.random, &deck) as usize;
        Case::convert(deck, length)
    }

    /// One rule too many, or two; the buffer may be too short as well.
    fn convert_crowded(&mut self) -> Case {
        let rules = Deck::RULES / 2 + 1;
        let resulting = Deck::RULES + self.random.between(1, 2);
        let mut deck = crowded(&mut self.random, rules, resulting);
        // A slow comparison is spared large charges.
        deck.parts.iter_mut().for_each(|part| part.carried.truncate(4));
        let length = self.random.pick(&[0, Deck::BYTES]);
        Case::convert(deck.encode().bytes, length)
    }

    fn start(&mut self, kind: Kind) -> Case {
        let length = self.pool_length();
        let pool = (0..length).map(|_| self.random.within(-3..=12)).collect();
        Case::start(self.deck(kind), pool)
    }

    fn run(&mut self, kind: Kind) -> Case {
        let deck = self.deck(kind);
        let known = Known::of(&deck);
        let pool_length = self.pool_length();
        let mut host = Host::new(&deck);
        let start = host.start(pool_length);
        let (mut calls, mut answers) = (Vec::new(), Vec::new());
        for _ in 0..self.random.between(1, self.size.calls) {
            let call = any(&mut self.random, &known, &host);
            answers.push(host.call(&call));
            calls.push(call);
        }
        let Host { state, pool, .. } = host;
        Case::Run { deck, pool_length, start, calls, answers, state, pool }
    }

    fn memory(&mut self, kind: Kind) -> Case {
        let deck = self.deck(kind);
        let known = Known::of(&deck);
        let mut host = Host::new(&deck);
        // A refused start is as good a beginning as an accepted one.
        let _ = host.start(self.pool_length());
        for _ in 0..self.random.below(4) {
            let call = any(&mut self.random, &known, &host);
            host.call(&call);
        }
        self.disturb(&known, &mut host);
        let call = any(&mut self.random, &known, &host);
        let (state_before, pool_before) = (host.state.clone(), host.pool.clone());
        let answer = host.call(&call);
        let Host { state: state_after, pool: pool_after, .. } = host;
        Case::Memory { deck, state_before, pool_before, call, answer, state_after, pool_after }
    }

    /// Writes updates by hand (often a good state), damages a number, or fills all at random.
    fn disturb(&mut self, known: &Known, host: &mut Host) {
        match self.random.below(10) {
            0..=4 => {
                for _ in 0..self.random.between(1, 3) {
                    let lines = hand_written(&mut self.random, known, host);
                    lines.iter().for_each(|line| drop(host.perform(line)));
                }
            }
            5..=8 => {
                let line = damage(&mut self.random, known, host);
                host.perform(&line);
            }
            _ => {
                host.state.values.iter_mut().for_each(|value| *value = self.random.within(-1..=1));
                host.pool.iter_mut().for_each(|number| *number = self.random.within(0..=2));
                host.state.pending = self.random.below(4) as u32;
            }
        }
    }
}
