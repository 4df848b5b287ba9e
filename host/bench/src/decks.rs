//! Decks for measuring, made as a rigger would make them.

use reference::deck::{Action, Assignment, Deck, Kind, Part, Rule};
use reference::expression::{Number, Truth};

/// The channel that tells parts apart.
const ID: u8 = 0;
/// The channels in three layers of eight: entered, following, and last, which no rule listens to.
pub const ENTERED: u8 = 2;
const FOLLOWING: u8 = 10;
pub const LAST: u8 = 18;
const LAYER: u8 = 8;
const CHANNELS: u8 = LAST + LAYER;

fn own(channel: u8) -> Box<Number> {
    Box::new(Number::Own(channel))
}

fn literal(value: i32) -> Box<Number> {
    Box::new(Number::Literal(value))
}

/// A figure of so many parts that all carry so many rules; every expression has so many terms, 1 to 4, and
/// an action as many assignments.
pub fn figure(parts: usize, rules: usize, terms: usize) -> Deck {
    let part = |id: usize| Part {
        opening: (0..CHANNELS).map(|channel| if channel == ID { id as i32 } else { 0 }).collect(),
        carried: (0..rules as u8).collect(),
        limit: Truth::Less(own(FOLLOWING), literal(2_000_000_000)),
    };
    Deck {
        labels: (0..CHANNELS).map(|channel| b'a' + channel).collect(),
        rules: (0..rules as u8).map(|number| figure_rule(number, terms)).collect(),
        parts: (0..parts).map(part).collect(),
    }
}

/// The same as an old deck: what each rule sets is set by a default action as well.
pub fn old_figure(parts: usize, rules: usize, terms: usize) -> Deck {
    let mut deck = figure(parts, rules, terms);
    deck.rules.iter_mut().for_each(|rule| rule.default_action = rule.action.clone());
    deck
}

/// Entered channels stay below this in a figure with bounds, and a limit has room for so many of those.
pub const BOUND: i32 = 1_000;
pub const MOST_BOUNDS: u8 = 7;

/// A figure of 4 parts with 16 rules whose limits bound so many of the entered channels, at least 1.
pub fn bounded(bounds: u8) -> Deck {
    let bound = |lane: u8| Truth::Less(own(ENTERED + lane), literal(BOUND));
    let limit = (1..bounds).fold(bound(0), |limit, lane| Truth::And(Box::new(limit), Box::new(bound(lane))));
    let mut deck = figure(4, 16, 1);
    deck.parts.iter_mut().for_each(|part| part.limit = limit.clone());
    deck
}

/// The first eight rules lead from the entered channels to the following ones, the next eight from these to
/// the last ones, all others from the entered to the last. Every fourth rule goes to all other parts.
fn figure_rule(number: u8, terms: usize) -> Rule {
    let lane = number % LAYER;
    let (event, target) = match number {
        0..8 => (ENTERED + lane, FOLLOWING),
        8..16 => (FOLLOWING + lane, LAST),
        _ => (ENTERED + lane, LAST),
    };
    let kind = if number % 4 == 3 { Kind::Everywhere } else { Kind::Here };
    let assignment = |count: usize| Assignment {
        target: target + (lane + count as u8) % LAYER,
        expression: weighted(event, number.into(), terms),
    };
    let targets = if target == FOLLOWING { 1 } else { terms };
    let action: Action = (0..targets).map(assignment).collect();
    Rule {
        events: vec![event],
        default_action: Action::new(),
        kind,
        condition: within(event, kind, terms),
        action,
    }
}

/// The event's value times a weight for each term.
fn weighted(event: u8, number: i32, terms: usize) -> Number {
    (1..terms as i32).fold(Number::Sum(own(event), literal(number)), |sum, weight| {
        Number::Sum(Box::new(sum), Box::new(Number::Product(own(event), literal(weight))))
    })
}

/// The event's value within bounds; for other parts, that they are others.
fn within(event: u8, kind: Kind, terms: usize) -> Truth {
    let first = match kind {
        Kind::Here => Truth::Less(literal(-1_000_000), own(event)),
        Kind::Everywhere => Truth::Not(Box::new(Truth::Equal(Box::new(Number::Far(ID)), own(ID)))),
    };
    (1..terms as i32).fold(first, |truth, term| {
        let bound = Truth::Less(own(event), literal(1_000_000 * term));
        Truth::And(Box::new(truth), Box::new(bound))
    })
}

/// Sixteen parts and so many layers, 1 to 5: each update of a layer sends one to the next layer of every
/// other part, with a value that no other has.
pub fn cascade(layers: u8) -> Deck {
    let rule = |layer: u8| Rule {
        events: vec![layer],
        default_action: Action::new(),
        kind: Kind::Everywhere,
        condition: Truth::True,
        action: vec![Assignment {
            target: layer + 1,
            expression: Number::Sum(Box::new(Number::Product(own(layer), literal(16))), own(layers)),
        }],
    };
    // The last channel has the part's own number and is never changed.
    let part = |id: usize| Part {
        opening: (0..=layers).map(|channel| if channel == layers { id as i32 } else { 0 }).collect(),
        carried: (0..layers - 1).collect(),
        limit: Truth::True,
    };
    Deck {
        labels: (0..=layers).map(|channel| b'a' + channel).collect(),
        rules: (0..layers - 1).map(rule).collect(),
        parts: (0..Deck::PARTS).map(part).collect(),
    }
}
