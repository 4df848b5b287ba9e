//! The text of calls that `replay` reads, and the lines that it prints.
//!
//! Readings of a line, strict where the text could be meant in several ways:
//! - A line ends before a newline byte (10). Bytes after the last newline are a line too.
//! - A line is a word and its fields, separated by exactly one space (32) each;
//!   none stands in front or at the end. Any other byte that is not part of a word or a
//!   number (a tab, a carriage return, letters, bytes above 126) makes it unreadable.
//! - A number is one or more decimal digits; leading zeros are allowed, a plus sign is not.
//!   Only CHANNEL, VALUE and V may have one leading minus sign; -0 is 0.
//! - PART, PLACE, BUDGET, NUMBER and N are below 2^32; LENGTH is at most 700,000 after `start`
//!   and at most 50,000 after `convert`; CHANNEL, VALUE and V are 32-bit signed numbers. A number
//!   outside its range, a missing field and one too many make the line unreadable. Only `input`
//!   takes any count of fields after PART.
//! - INDEX of `value` is below 512, INDEX of `pool` below the length of the pool as it is.
//!
//! `convert LENGTH` lends the deck and a buffer of so many bytes, each 7. Where it prints
//! `converted N`, the calls that follow have the new deck; state and pool stay as they are. Refused,
//! the deck stays. A line `buffer I V` follows for each byte that should still be 7 and is not.

use crate::conversion::convert;
use crate::deck::Form;
use crate::engine::{Answer, Call};
use crate::refusal::Refusal;
use crate::state::{State, VALUES};
use std::borrow::Cow;
use std::fmt::{self, Write};

/// Longest pool that a line may lend.
pub const LONGEST_POOL: u32 = 700_000;
/// What every number of a lent pool is before a start.
pub const LENT: i32 = 7;
/// Longest buffer that a line may lend.
pub const LONGEST_BUFFER: u32 = 50_000;
/// What every byte of a lent buffer is before a conversion.
pub const LENT_BYTE: u8 = 7;

/// A line that could be read.
#[derive(Clone, Debug, PartialEq, Eq)]
pub enum Line {
    Start { length: u32 },
    Call(Call),
    Section { number: u32 },
    Convert { length: u32 },
    Value { index: u32, value: i32 },
    Pool { index: u32, value: i32 },
    Pending { number: u32 },
}

/// Reads a line without its newline; none if it is unreadable.
pub fn parse(line: &[u8]) -> Option<Line> {
    let mut words = line.split(|&byte| byte == b' ');
    let line = match words.next()? {
        b"start" => Line::Start { length: length(words.next()?, LONGEST_POOL)? },
        b"input" => Line::Call(Call::Input {
            part: unsigned(words.next()?)?,
            pairs: words.by_ref().map(signed).collect::<Option<_>>()?,
        }),
        b"commit" => Line::Call(Call::Commit { place: unsigned(words.next()?)? }),
        b"settle" => Line::Call(Call::Settle { budget: unsigned(words.next()?)? }),
        b"section" => Line::Section { number: unsigned(words.next()?)? },
        b"convert" => Line::Convert { length: length(words.next()?, LONGEST_BUFFER)? },
        b"value" => Line::Value { index: unsigned(words.next()?)?, value: signed(words.next()?)? },
        b"pool" => Line::Pool { index: unsigned(words.next()?)?, value: signed(words.next()?)? },
        b"pending" => Line::Pending { number: unsigned(words.next()?)? },
        _ => return None,
    };
    words.next().is_none().then_some(line)
}

fn length(word: &[u8], most: u32) -> Option<u32> {
    unsigned(word).filter(|&length| length <= most)
}

fn unsigned(word: &[u8]) -> Option<u32> {
    // Parsing alone would also take a plus sign.
    let digits = word.iter().all(u8::is_ascii_digit);
    std::str::from_utf8(word).ok().filter(|_| digits)?.parse().ok()
}

fn signed(word: &[u8]) -> Option<i32> {
    let digits = word.strip_prefix(b"-").unwrap_or(word).iter().all(u8::is_ascii_digit);
    std::str::from_utf8(word).ok().filter(|_| digits)?.parse().ok()
}

impl fmt::Display for Line {
    fn fmt(&self, f: &mut fmt::Formatter) -> fmt::Result {
        match self {
            Line::Start { length } => write!(f, "start {length}"),
            Line::Call(Call::Input { part, pairs }) => {
                write!(f, "input {part}")?;
                pairs.iter().try_for_each(|number| write!(f, " {number}"))
            }
            Line::Call(Call::Commit { place }) => write!(f, "commit {place}"),
            Line::Call(Call::Settle { budget }) => write!(f, "settle {budget}"),
            Line::Section { number } => write!(f, "section {number}"),
            Line::Convert { length } => write!(f, "convert {length}"),
            Line::Value { index, value } => write!(f, "value {index} {value}"),
            Line::Pool { index, value } => write!(f, "pool {index} {value}"),
            Line::Pending { number } => write!(f, "pending {number}"),
        }
    }
}

/// What a line prints, if anything.
#[derive(Clone, Debug, PartialEq, Eq)]
pub struct Printed(pub Option<String>);

impl Printed {
    fn nothing() -> Printed {
        Printed(None)
    }

    fn line(text: impl ToString) -> Printed {
        Printed(Some(text.to_string()))
    }

    fn unreadable() -> Printed {
        Printed::line("unreadable")
    }

    fn answer(answer: Result<String, Refusal>) -> Printed {
        Printed(Some(answer.unwrap_or_else(|refusal| refusal.to_string())))
    }
}

/// A host with the memory that it lends.
#[derive(Clone, Debug)]
pub struct Host<'a> {
    pub deck: Cow<'a, [u8]>,
    /// What the calls take the deck for.
    pub form: Form,
    pub pool: Vec<i32>,
    pub state: State,
}

impl<'a> Host<'a> {
    /// Before the first start the state is zeros and the pool has length 0.
    pub fn new(deck: &'a [u8]) -> Host<'a> {
        Host { deck: deck.into(), form: Form::New, pool: Vec::new(), state: State::ZERO }
    }

    /// A host whose calls take old decks.
    pub fn old(deck: &'a [u8]) -> Host<'a> {
        Host { form: Form::Old, ..Host::new(deck) }
    }

    /// Goes through one line of text.
    pub fn read(&mut self, line: &[u8]) -> Printed {
        if line.is_empty() {
            return Printed::nothing();
        }
        parse(line).map_or_else(Printed::unreadable, |line| self.perform(&line))
    }

    /// Lends a new pool of this length to a start.
    pub fn start(&mut self, length: usize) -> Result<(), Refusal> {
        self.pool = vec![LENT; length];
        let (answer, state) = self.form.start(&self.deck, &mut self.pool);
        self.state = state;
        answer
    }

    /// Makes a call on state and pool.
    pub fn call(&mut self, call: &Call) -> Answer {
        call.perform(self.form, &self.deck, &mut self.pool, &mut self.state)
    }

    /// Lends a buffer of this length to the converter; what it writes takes the place of the deck.
    fn convert(&mut self, length: usize) -> String {
        let mut buffer = vec![LENT_BYTE; length];
        let answer = convert(&self.deck, &mut buffer);
        let (mut text, written) = match answer {
            Ok(length) => (format!("converted {length}"), length),
            Err(refusal) => (refusal.to_string(), 0),
        };
        for (index, byte) in buffer.iter().enumerate().skip(written).filter(|(_, &byte)| byte != LENT_BYTE) {
            // Writing into a string cannot fail.
            let _ = write!(text, "\nbuffer {index} {byte}");
        }
        if answer.is_ok() {
            buffer.truncate(written);
            self.deck = buffer.into();
        }
        text
    }

    pub fn perform(&mut self, line: &Line) -> Printed {
        match line {
            Line::Start { length } => {
                Printed::answer(self.start(*length as usize).map(|()| "started".to_string()))
            }
            Line::Call(call) => Printed::line(self.call(call)),
            Line::Section { number } => {
                let stretch = self.form.section(&self.deck, *number);
                Printed::answer(stretch.map(|stretch| format!("section {} {}", stretch.start, stretch.end)))
            }
            Line::Convert { length } => Printed::line(self.convert(*length as usize)),
            Line::Value { index, value } => write_number(&mut self.state.values, *index, *value),
            Line::Pool { index, value } => write_number(&mut self.pool, *index, *value),
            Line::Pending { number } => {
                self.state.pending = *number;
                Printed::nothing()
            }
        }
    }

    /// What is left in memory: the pending number and every number that is not 0.
    pub fn memory(&self) -> String {
        let mut text = format!("pending {}\n", self.state.pending);
        for (name, numbers) in [("value", &self.state.values[..VALUES]), ("pool", &self.pool[..])] {
            for (index, number) in numbers.iter().enumerate().filter(|(_, &number)| number != 0) {
                // Writing into a string cannot fail.
                let _ = writeln!(text, "{name} {index} {number}");
            }
        }
        text
    }
}

fn write_number(numbers: &mut [i32], index: u32, value: i32) -> Printed {
    match numbers.get_mut(index as usize) {
        Some(number) => {
            *number = value;
            Printed::nothing()
        }
        None => Printed::unreadable(),
    }
}

/// All that `replay` prints for a deck and a text of calls.
pub fn replay(deck: &[u8], text: &[u8]) -> String {
    replay_on(Host::new(deck), text)
}

/// The same for calls that take old decks.
pub fn replay_old(deck: &[u8], text: &[u8]) -> String {
    replay_on(Host::old(deck), text)
}

fn replay_on(mut host: Host, text: &[u8]) -> String {
    let mut output = String::new();
    for line in text.split(|&byte| byte == b'\n') {
        if let Printed(Some(line)) = host.read(line) {
            output.push_str(&line);
            output.push('\n');
        }
    }
    output + &host.memory()
}
