//! The dependency graph and the charges: refusals 7 and 8.

use super::deck::{bits, Tables, CHANNELS, PARTS, RULES};
use reaction::Refusal;

/// The largest charge of a rule.
const MOST: u32 = 65_535;

/// A charge for each part.
type Row = [u32; PARTS];

/// Charges by rule and part. Only the rows of carried rules are of this deck.
pub struct Charges {
    /// Of the rule, 0 at parts that do not carry it, and at most one above `MOST`.
    rule: [Row; RULES],
    /// Of the update that its default action is at the part; 0 for an empty action.
    pub default: [Row; RULES],
    /// Of the update that its action is at the part; 0 for an empty action.
    pub action: [Row; RULES],
    pub largest: u32,
}

impl Charges {
    pub const fn new() -> Charges {
        Charges {
            rule: [[0; PARTS]; RULES],
            default: [[0; PARTS]; RULES],
            action: [[0; PARTS]; RULES],
            largest: 0,
        }
    }

    /// Works out the charges of the carried rules, or refuses by 7 or 8.
    ///
    /// Channels are taken in an order in which all those that one has edges to come before it. A rule's
    /// charge follows from those of the rules that listen to its targets, which are known by then.
    pub fn measure(&mut self, tables: &Tables) -> Result<(), Refusal> {
        let edges = edges(tables);
        let mut left = u32::MAX >> (CHANNELS - tables.channels);
        let mut unmeasured = tables.carried;
        self.largest = 0;
        while left != 0 {
            let before = left;
            for channel in bits(left.into()) {
                if edges[channel] & left == 0 {
                    left &= !(1 << channel);
                    for rule in bits(tables.listeners[channel] & unmeasured) {
                        self.measure_rule(tables, rule);
                    }
                    unmeasured &= !tables.listeners[channel];
                }
            }
            if left == before {
                return Err(Refusal { number: 7, place: lowest_on_cycle(&edges) });
            }
        }
        if self.largest > MOST {
            return Err(Refusal { number: 8, place: self.lowest_above(tables) });
        }
        Ok(())
    }

    /// Charges are capped: at most 64 of at most 65,536 for each of 16 parts come together, so no sum
    /// overflows.
    fn measure_rule(&mut self, tables: &Tables, number: usize) {
        let rule = &tables.rule[number];
        let default = self.of_updates(tables, rule.default_targets);
        let action = self.of_updates(tables, rule.targets);
        self.default[number] = default;
        self.action[number] = action;
        // An action "everywhere" goes to all parts but the sender.
        let total: u32 = if rule.everywhere { action[..tables.parts].iter().sum() } else { 0 };
        let mut charges = [0; PARTS];
        for (part, charge) in charges.iter_mut().enumerate().take(tables.parts) {
            let carries = (tables.part[part].carried >> number) as u32 & 1;
            let actions = if rule.everywhere { total - action[part] } else { action[part] };
            *charge = carries * (default[part] + actions).min(MOST + 1);
            self.largest = self.largest.max(*charge);
        }
        self.rule[number] = charges;
    }

    /// The charge at each part of an update with these targets; 0 without targets.
    fn of_updates(&self, tables: &Tables, targets: u32) -> Row {
        if targets == 0 {
            return [0; PARTS];
        }
        let mut sums = [1; PARTS];
        for rule in bits(tables.listening(targets)) {
            for (sum, charge) in sums.iter_mut().zip(&self.rule[rule]) {
                *sum += charge;
            }
        }
        sums
    }

    /// The charge of an update with these targets at a part.
    pub fn of_update(&self, tables: &Tables, part: usize, targets: u32) -> u32 {
        let active = tables.listening(targets) & tables.part[part].carried;
        bits(active).fold(1, |sum, rule| sum + self.rule[rule][part])
    }

    /// The lowest 64 times part + rule whose charge is too large.
    fn lowest_above(&self, tables: &Tables) -> u32 {
        for part in 0..tables.parts {
            for rule in bits(tables.part[part].carried) {
                if self.rule[rule][part] > MOST {
                    return (64 * part + rule) as u32;
                }
            }
        }
        0
    }
}

/// For each channel the set of channels that it has an edge to.
fn edges(tables: &Tables) -> [u32; CHANNELS] {
    let mut edges = [0; CHANNELS];
    for rule in bits(tables.carried).map(|rule| &tables.rule[rule]) {
        for event in bits(rule.events.into()) {
            edges[event] |= rule.default_targets | rule.targets;
        }
    }
    edges
}

/// The lowest channel that can reach itself; there is one.
fn lowest_on_cycle(edges: &[u32; CHANNELS]) -> u32 {
    let mut reach = *edges;
    for middle in 0..CHANNELS {
        let further = reach[middle];
        for set in &mut reach {
            if *set >> middle & 1 == 1 {
                *set |= further;
            }
        }
    }
    (0..CHANNELS).position(|channel| reach[channel] >> channel & 1 == 1).unwrap_or(0) as u32
}
