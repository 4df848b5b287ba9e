//! The text of calls, with names as well as numbers.

use crate::fault::Fault;
use crate::names::{position, Names};
use crate::words::{spot, whole_number, words, Word};
use reaction::raw::PLACE;

/// A line of the text that makes a call.
#[derive(Clone, Debug, PartialEq, Eq)]
pub struct Line {
    pub number: usize,
    /// The words of the line, without its comment.
    pub text: String,
    pub call: Call,
}

#[derive(Clone, Debug, PartialEq, Eq)]
pub enum Call {
    /// Numbers of the pool, ten a place; where none is given, room for many inputs.
    Start {
        length: Option<usize>,
    },
    Input {
        part: u32,
        pairs: Vec<i32>,
    },
    Commit {
        place: Place,
    },
    /// At most so many commits.
    Settle {
        budget: u32,
    },
    Section {
        number: u32,
    },
}

/// A pending update, by its place or by what it sets.
#[derive(Clone, Copy, Debug, PartialEq, Eq)]
pub enum Place {
    Number(u32),
    /// The oldest one that sets this channel of this part.
    Named {
        part: u32,
        channel: u32,
    },
}

/// The budget of a `settle` that names none: the largest.
pub const WHOLE_BUDGET: u32 = 65_535;

/// The longest pool that `start` lends, longer than any that passes.
const LONGEST_POOL: u32 = 700_000;

/// The lines of a text of calls, or its first fault.
pub fn calls(text: &str, names: &Names) -> Result<Vec<Line>, Fault> {
    let mut lines = Vec::new();
    for (index, line) in text.lines().enumerate() {
        let words = words(line);
        if !words.is_empty() {
            let reader = Reader { line: index + 1, words: &words, names };
            let shown: Vec<&str> = words.iter().map(|word| word.text).collect();
            lines.push(Line { number: index + 1, text: shown.join(" "), call: reader.call()? });
        }
    }
    Ok(lines)
}

struct Reader<'a> {
    line: usize,
    words: &'a [Word<'a>],
    names: &'a Names,
}

impl Reader<'_> {
    fn call(&self) -> Result<Call, Fault> {
        match self.words[0].text {
            "start" => self.start(),
            "input" => self.input(),
            "commit" => {
                self.require_words(2, "commit PLACE` or `commit PART.CHANNEL")?;
                Ok(Call::Commit { place: self.place(1)? })
            }
            "settle" if self.words.len() == 1 => Ok(Call::Settle { budget: WHOLE_BUDGET }),
            "settle" => {
                self.require_words(2, "settle` or `settle BUDGET")?;
                Ok(Call::Settle { budget: self.natural(1)? })
            }
            "section" => {
                self.require_words(2, "section NUMBER")?;
                Ok(Call::Section { number: self.natural(1)? })
            }
            word @ ("value" | "pool" | "pending" | "convert") => {
                Err(self
                    .fault(0, format!("`{word}` lines try damaged memory and old decks: `replay` has them.")))
            }
            word => Err(self.fault(
                0,
                format!("`{word}` is no call: the calls are start, input, commit, settle and section."),
            )),
        }
    }

    fn start(&self) -> Result<Call, Fault> {
        if self.words.len() == 1 {
            return Ok(Call::Start { length: None });
        }
        self.require_words(2, "start` or `start LENGTH")?;
        let length = self.natural(1)?;
        if length > LONGEST_POOL {
            let most = format!("A pool of at most {LONGEST_POOL} numbers is lent, {PLACE} for each place.");
            return Err(self.fault(1, most));
        }
        Ok(Call::Start { length: Some(length as usize) })
    }

    fn input(&self) -> Result<Call, Fault> {
        if self.words.len() < 2 {
            return Err(self.fault(1, "The line is `input PART CHANNEL VALUE ..`."));
        }
        let part = self.known(1, self.words[1].text, "part", &self.names.parts)?;
        let mut pairs = Vec::new();
        for index in 2..self.words.len() {
            pairs.push(if index % 2 == 0 { self.channel(index)? } else { self.value(index)? });
        }
        if pairs.len() % 2 != 0 {
            return Err(self.fault(self.words.len(), "The last channel has no value."));
        }
        Ok(Call::Input { part, pairs })
    }

    /// A channel by name, or any number: the engine says whether there is such a channel.
    fn channel(&self, index: usize) -> Result<i32, Fault> {
        let word = self.words[index].text;
        match whole_number(word) {
            Some(_) => self.value(index),
            None => self.known(index, word, "channel", &self.names.channels).map(|channel| channel as i32),
        }
    }

    fn value(&self, index: usize) -> Result<i32, Fault> {
        let word = self.words[index].text;
        match whole_number(word) {
            Some(number) => number.map_err(|why| self.fault(index, format!("The value {why}."))),
            None => Err(self.fault(index, format!("`{word}` is no whole number."))),
        }
    }

    fn place(&self, index: usize) -> Result<Place, Fault> {
        let word = self.words[index].text;
        if whole_number(word).is_some() {
            return Ok(Place::Number(self.natural(index)?));
        }
        let Some((part, channel)) = word.split_once('.') else {
            return Err(self.fault(index, "A pending update is named by its place or as PART.CHANNEL."));
        };
        Ok(Place::Named {
            part: self.known(index, part, "part", &self.names.parts)?,
            channel: self.known(index, channel, "channel", &self.names.channels)?,
        })
    }

    /// A name, or any number.
    fn known(&self, index: usize, word: &str, what: &str, names: &[String]) -> Result<u32, Fault> {
        if whole_number(word).is_some() {
            return self.unsigned(index, word);
        }
        let found = position(names, word).map(|number| number as u32);
        found.ok_or_else(|| self.fault(index, format!("There is no {what} `{word}`.")))
    }

    fn natural(&self, index: usize) -> Result<u32, Fault> {
        self.unsigned(index, self.words[index].text)
    }

    fn unsigned(&self, index: usize, word: &str) -> Result<u32, Fault> {
        let sentence = || format!("`{word}` is no whole number from 0 to {}.", u32::MAX);
        word.parse().map_err(|_| self.fault(index, sentence()))
    }

    fn require_words(&self, count: usize, form: &str) -> Result<(), Fault> {
        if self.words.len() == count {
            return Ok(());
        }
        Err(self.fault(count.min(self.words.len()), format!("The line is `{form}`.")))
    }

    fn fault(&self, index: usize, sentence: impl Into<String>) -> Fault {
        Fault { spot: spot(self.line, self.words, index), sentence: sentence.into() }
    }
}
