//! Decks made from their fields.

/// The number that channel 0 of the part itself has.
pub const OWN_0: [u8; 2] = [1, 0];
pub const TRUE: [u8; 1] = [0x11];
pub const NO_ACTION: [u8; 1] = [0];
/// Expressions as long and as deep as they can be: 62 negations of channel 0, and 63 times not false.
pub const DEEP_NUMBER: [u8; 64] = {
    let mut bytes = [6; 64];
    [bytes[62], bytes[63]] = OWN_0;
    bytes
};
pub const DEEP_TRUTH: [u8; 64] = {
    let mut bytes = [0x12; 64];
    bytes[63] = 0x10;
    bytes
};

/// An action that sets these channels, each to the same number.
pub fn action(targets: &[u8], number: &[u8]) -> Vec<u8> {
    let assignments = targets.iter().map(|&target| [&[target, number.len() as u8], number].concat());
    [vec![targets.len() as u8], assignments.collect::<Vec<_>>().concat()].concat()
}

/// A rule from its events to its action.
pub fn rule(events: &[u8], default_action: &[u8], kind: u8, condition: &[u8], action: &[u8]) -> Vec<u8> {
    let count = [events.len() as u8];
    let task = [&[kind, condition.len() as u8], condition, action].concat();
    [&count, events, default_action, &task].concat()
}

/// A deck of so many channels whose parts, all alike, open with zeros, carry all rules and have this limit.
pub fn deck(channels: u8, rules: &[Vec<u8>], parts: u8, limit: &[u8]) -> Vec<u8> {
    let count = [rules.len() as u8];
    let carried: Vec<u8> = (0..count[0]).collect();
    let opening = vec![0; 4 * usize::from(channels)];
    let part = [&opening, &count[..], &carried, &[limit.len() as u8], limit].concat();
    let labels = vec![b'a'; channels.into()];
    [&[channels], &labels[..], &count, &rules.concat(), &[parts], &part.repeat(parts.into())].concat()
}

/// A deck with so many rules in which every other count and every length is at its most, with default actions or without.
pub fn full(rules: usize, with_default: bool) -> Vec<u8> {
    let (events, targets): (Vec<u8>, Vec<u8>) = ((0..8).collect(), (8..12).collect());
    let action = action(&targets, &DEEP_NUMBER);
    let default_action = if with_default { &action[..] } else { &NO_ACTION };
    deck(32, &vec![rule(&events, default_action, 0, &DEEP_TRUTH, &action); rules], 16, &DEEP_TRUTH)
}
