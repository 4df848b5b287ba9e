//! Why an update is pending: which rule at which part made it. The engine's pool does not say; here the firing is gone
//! through again, by the reading of conditions and actions that `reference` has.

use reaction::raw::{Memory, CHANNELS, PLACE};
use reference::deck::{Deck, Kind, Rule};

/// A pending update: a part, and channels with their new values.
#[derive(Clone, Debug, PartialEq, Eq)]
pub struct Update {
    pub part: usize,
    pub pairs: Vec<(usize, i32)>,
}

/// An update that a rule made at a part.
#[derive(Clone, Debug, PartialEq, Eq)]
pub struct Made {
    pub rule: usize,
    pub at: usize,
    pub update: Update,
    /// Whether it stands among the pending ones now; otherwise an equal one stood there already.
    pub new: bool,
}

/// The pending updates as the engine's pool has them.
pub fn pending(memory: &Memory) -> Vec<Update> {
    let places = memory.pool.chunks_exact(PLACE).take(memory.pending as usize);
    let update = |place: &[i32]| Update {
        part: place[0] as usize,
        pairs: place[2..]
            .chunks_exact(2)
            .take(place[1] as usize)
            .map(|pair| (pair[0] as usize, pair[1]))
            .collect(),
    };
    places.map(update).collect()
}

/// The values of a part.
fn part_values(values: &[i32], part: usize) -> &[i32] {
    values.get(CHANNELS * part..CHANNELS * (part + 1)).unwrap_or_default()
}

/// The channels of a part whose values differ.
pub fn changed(before: &[i32], after: &[i32], part: usize) -> Vec<usize> {
    let pairs = part_values(before, part).iter().zip(part_values(after, part));
    pairs.enumerate().filter(|(_, (before, after))| before != after).map(|(channel, _)| channel).collect()
}

/// The firing at a part for changed channels, on the new values. The new updates are written behind the pending ones.
pub fn fire(
    deck: &Deck,
    values: &[i32],
    part: usize,
    changed: &[usize],
    pending: &mut Vec<Update>,
) -> Vec<Made> {
    let Some(sender) = deck.parts.get(part) else { return Vec::new() };
    let listens = |rule: &Rule| rule.events.iter().any(|&event| changed.contains(&usize::from(event)));
    let active =
        sender.carried.iter().map(|&rule| usize::from(rule)).filter(|&rule| listens(&deck.rules[rule]));
    let (here, everywhere): (Vec<usize>, Vec<usize>) =
        active.partition(|&rule| deck.rules[rule].kind == Kind::Here);
    let others: Vec<usize> = (0..deck.parts.len()).filter(|&other| other != part).collect();
    let sends = here
        .iter()
        .map(|&rule| (rule, part))
        .chain(everywhere.iter().flat_map(|&rule| others.iter().map(move |&receiver| (rule, receiver))));
    let mut made = Vec::new();
    for (rule, receiver) in sends {
        if let Some(update) = action(&deck.rules[rule], values, part, receiver) {
            let new = !pending.contains(&update);
            if new {
                pending.push(update.clone());
            }
            made.push(Made { rule, at: part, update, new });
        }
    }
    made
}

/// What a rule sends to a receiver: nothing where its condition is false or its action empty.
fn action(rule: &Rule, values: &[i32], sender: usize, receiver: usize) -> Option<Update> {
    let (own, far) = (part_values(values, sender), part_values(values, receiver));
    if rule.action.is_empty() || !rule.condition.holds(own, far) {
        return None;
    }
    let value = |assignment: &reference::deck::Assignment| {
        (assignment.target.into(), assignment.expression.evaluate(own, far))
    };
    Some(Update { part: receiver, pairs: rule.action.iter().map(value).collect() })
}
