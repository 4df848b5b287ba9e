//! The converter: from an old deck to a new one that does the same.

use crate::deck::{Action, Deck, Form, Kind, Part, Rule};
use crate::expression::Truth;
use crate::refusal::{self, require, Refusal};

/// Writes the new deck to the front of the buffer and answers its length. A refusal leaves the
/// buffer alone.
pub fn convert(deck: &[u8], buffer: &mut [u8]) -> Result<usize, Refusal> {
    Form::Old.check(deck)?;
    let (old, _) = Form::Old.read(deck)?;
    let new = converted(&old);
    require(new.rules.len() <= Deck::RULES, Refusal::new(refusal::RULES_RESULT))?;
    let bytes = new.encode().bytes;
    let front = buffer.get_mut(..bytes.len()).ok_or(Refusal::new(refusal::BUFFER_SHORT))?;
    front.copy_from_slice(&bytes);
    Ok(bytes.len())
}

/// The new deck's bytes, where the buffer is long enough for any.
pub fn convert_whole(deck: &[u8]) -> Result<Vec<u8>, Refusal> {
    let mut buffer = vec![0; Deck::BYTES];
    let length = convert(deck, &mut buffer)?;
    buffer.truncate(length);
    Ok(buffer)
}

/// What an old deck becomes, with however many rules. Labels, opening values and limits stay.
pub fn converted(deck: &Deck) -> Deck {
    let mut rules = Vec::new();
    // By old number, the numbers of what a rule became.
    let mut numbers = Vec::new();
    for rule in &deck.rules {
        let first = rules.len();
        rules.extend(becomes(rule));
        numbers.push(first as u8..rules.len() as u8);
    }
    let became = |&rule: &u8| numbers[usize::from(rule)].clone();
    let part = |part: &Part| Part { carried: part.carried.iter().flat_map(became).collect(), ..part.clone() };
    let parts = deck.parts.iter().map(part).collect();
    Deck { labels: deck.labels.clone(), rules, parts }
}

/// The default as a here action under condition true, if it is not empty, then the old task.
fn becomes(rule: &Rule) -> impl Iterator<Item = Rule> {
    let default = Rule {
        events: rule.events.clone(),
        default_action: Action::new(),
        kind: Kind::Here,
        condition: Truth::True,
        action: rule.default_action.clone(),
    };
    let task = Rule { default_action: Action::new(), ..rule.clone() };
    Some(default).filter(|default| !default.action.is_empty()).into_iter().chain([task])
}
