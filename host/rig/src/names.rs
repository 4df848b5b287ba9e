//! The names of channels, rules and parts. The deck's bytes have none: they are the text's, or made up from labels and numbers.

use reference::deck::Deck;
use std::ops::Range;

/// The names in the order of the deck.
#[derive(Clone, Debug, Default, PartialEq, Eq)]
pub struct Names {
    pub channels: Vec<String>,
    pub rules: Vec<String>,
    pub parts: Vec<String>,
}

/// Where a name stands among these.
pub fn position(names: &[String], name: &str) -> Option<usize> {
    names.iter().position(|known| known == name)
}

impl Names {
    /// Names for a deck without text. A channel is called by its label where that is a letter and stands here first.
    pub fn of_deck(deck: &Deck) -> Names {
        let name = |(number, &label): (usize, &u8)| {
            let first = !deck.labels[..number].contains(&label);
            if first && label.is_ascii_alphabetic() {
                char::from(label).to_string()
            } else {
                format!("channel_{number}")
            }
        };
        Names {
            channels: deck.labels.iter().enumerate().map(name).collect(),
            rules: numbered("rule", 0..deck.rules.len()),
            parts: numbered("part", 0..deck.parts.len()),
        }
    }
}

fn numbered(what: &str, numbers: Range<usize>) -> Vec<String> {
    numbers.map(|number| format!("{what}_{number}")).collect()
}
