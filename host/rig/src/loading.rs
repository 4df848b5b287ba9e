//! The file of a deck, which may be its bytes or its text.

use crate::check;
use crate::make::{make, Made};
use crate::names::Names;
use crate::stop::Stop;
use reference::deck::Deck;
use std::fs;
use std::io::{self, Read};

/// A deck as it was given.
#[derive(Clone, Debug)]
pub struct Loaded {
    /// As messages call it.
    pub file: String,
    pub bytes: Vec<u8>,
    /// Where it is a text.
    pub source: Option<Source>,
}

#[derive(Clone, Debug)]
pub struct Source {
    pub text: String,
    pub made: Made,
}

/// A deck whose bytes can be read, whether or not it passes, with names.
#[derive(Clone, Debug)]
pub struct Readable {
    pub deck: Deck,
    pub names: Names,
}

/// No text has a byte below this, and every deck that can be read has one: the count or kind of a rule, or the count of no rules.
const LOWEST_OF_A_TEXT: u8 = 9;

/// The bytes of a file, or of standard input where it is `-`.
pub fn bytes_of(file: &str) -> Result<Vec<u8>, Stop> {
    let read = if file == "-" {
        let mut bytes = Vec::new();
        io::stdin().read_to_end(&mut bytes).map(|_| bytes)
    } else {
        fs::read(file)
    };
    read.map_err(|error| Stop::Misused(format!("rig: {file} cannot be read: {error}.")))
}

/// The text of a file.
pub fn text_of(file: &str) -> Result<String, Stop> {
    as_text(file, bytes_of(file)?)
}

fn as_text(file: &str, bytes: Vec<u8>) -> Result<String, Stop> {
    // Some editors write a mark in front that is no part of the text.
    let bytes = bytes.strip_prefix("\u{feff}".as_bytes()).unwrap_or(&bytes).to_vec();
    String::from_utf8(bytes).map_err(|error| {
        let line = 1 + error.as_bytes()[..error.utf8_error().valid_up_to()]
            .iter()
            .filter(|&&byte| byte == b'\n')
            .count();
        Stop::Refused(format!("{file}:{line}: The text is not UTF-8."))
    })
}

impl Loaded {
    /// A file with a low byte is a deck, any other a text.
    pub fn read(file: &str) -> Result<Loaded, Stop> {
        let bytes = bytes_of(file)?;
        let name = if file == "-" { "standard input" } else { file };
        if bytes.iter().any(|&byte| byte < LOWEST_OF_A_TEXT) {
            return Ok(Loaded { file: name.to_string(), bytes, source: None });
        }
        Loaded::of_text(name, as_text(name, bytes)?)
    }

    /// The deck of a text.
    pub fn of_text(name: &str, text: String) -> Result<Loaded, Stop> {
        let made = make(&text).map_err(|fault| Stop::Refused(fault.shown(name, &text)))?;
        Ok(Loaded { file: name.to_string(), bytes: made.bytes.clone(), source: Some(Source { text, made }) })
    }

    /// What the bytes say, where they can be read.
    pub fn read_deck(&self) -> Option<Readable> {
        let (deck, _) = Deck::read(&self.bytes).ok()?;
        let names = match &self.source {
            Some(source) => source.made.names.clone(),
            None => Names::of_deck(&deck),
        };
        Some(Readable { deck, names })
    }

    /// What the bytes say, or why they cannot be read.
    pub fn readable(&self) -> Result<Readable, Stop> {
        self.read_deck().ok_or_else(|| match self.checked() {
            Err(stop) => stop,
            Ok(_) => Stop::Refused(format!("{}: The deck passed, and yet it cannot be read.", self.file)),
        })
    }

    /// The deck that passed, or the refusal in words.
    pub fn checked(&self) -> Result<reaction::Deck, Stop> {
        let refused = |refusal| Stop::Refused(check::refusal_in_words(self, refusal));
        reaction::Deck::check(self.bytes.clone()).map_err(refused)
    }
}
