//! Expressions of an exact length, and short ones that are often true or change something.

use crate::expression::{Expression, Number, Scope, Truth};
use crate::random::Random;

/// A value: mostly small, sometimes at an end of the range, sometimes any.
pub fn value(random: &mut Random) -> i32 {
    match random.below(20) {
        0 => i32::MAX - random.within(0..=2),
        1 => i32::MIN + random.within(0..=2),
        2 => random.bits() as i32,
        _ => random.within(-5..=20),
    }
}

pub fn channel(random: &mut Random, scope: Scope) -> Number {
    let channel = random.below(scope.channels) as u8;
    if scope.far && random.chance(50) {
        Number::Far(channel)
    } else {
        Number::Own(channel)
    }
}

/// A number of exactly so many bytes, at least 2.
pub fn number(random: &mut Random, scope: Scope, length: usize) -> Number {
    match length {
        0..=2 => channel(random, scope),
        5 if random.chance(50) => Number::Literal(value(random)),
        3 | 4 => Number::Negation(number(random, scope, length - 1).into()),
        _ if random.chance(15) => Number::Negation(number(random, scope, length - 1).into()),
        _ => {
            let make = random.pick(&[Number::Sum, Number::Difference, Number::Product]);
            let (a, b) = two_numbers(random, scope, length - 1);
            make(a, b)
        }
    }
}

fn two_numbers(random: &mut Random, scope: Scope, length: usize) -> (Box<Number>, Box<Number>) {
    let first = random.between(2, length - 2);
    (number(random, scope, first).into(), number(random, scope, length - first).into())
}

/// A truth of exactly so many bytes, at least 1.
pub fn truth(random: &mut Random, scope: Scope, length: usize) -> Truth {
    match length {
        0..=1 => random.pick(&[Truth::False, Truth::True]),
        5.. if random.chance(60) => {
            let make = random.pick(&[Truth::Less, Truth::Equal]);
            let (a, b) = two_numbers(random, scope, length - 1);
            make(a, b)
        }
        3.. if random.chance(60) => {
            let first = random.between(1, length - 2);
            let make = random.pick(&[Truth::And, Truth::Or]);
            make(truth(random, scope, first).into(), truth(random, scope, length - 1 - first).into())
        }
        _ => Truth::Not(truth(random, scope, length - 1).into()),
    }
}

/// A short number that tends to differ from what was there: an event's value, moved a little.
pub fn lively_number(random: &mut Random, scope: Scope, event: u8) -> Number {
    let own = || Box::new(Number::Own(event));
    let small = Box::new(Number::Literal(random.within(-3..=9)));
    match random.below(8) {
        0 => *small,
        1 => Number::Own(event),
        2 => Number::Negation(own()),
        3 => Number::Product(own(), small),
        4 => Number::Difference(channel(random, scope).into(), own()),
        5 => Number::Sum(own(), channel(random, scope).into()),
        6 => Number::Difference(own(), small),
        _ => Number::Sum(own(), small),
    }
}

/// A short condition on an event that is true more often than not.
pub fn likely_truth(random: &mut Random, scope: Scope, event: u8) -> Truth {
    let own = || Box::new(Number::Own(event));
    let other = Box::new(channel(random, scope));
    let mut literal = |low, high| Box::new(Number::Literal(random.within(low..=high)));
    let (high, low, near) = (literal(10, 40), literal(-40, -2), literal(-2, 9));
    match random.below(6) {
        0 => Truth::Less(own(), high),
        1 => Truth::Less(low, own()),
        2 => Truth::Not(Truth::Equal(own(), near).into()),
        3 => Truth::Not(Truth::Equal(other, own()).into()),
        _ => Truth::True,
    }
}

/// Bounds not far from where the part opens: above, below, both, all but a gap, or all but one
/// value. Where that takes more bytes than there may be, only a bound above.
pub fn near_limit(random: &mut Random, opening: &[i32], most_bytes: usize) -> Truth {
    let bounded = bounded(random, opening.len());
    let at = bounded.evaluate(opening, &[]);
    let mut distance = || random.within(1..=12);
    let (high, low) = (at.saturating_add(distance()), at.saturating_sub(distance()));
    let beyond = high.saturating_add(distance());
    let less_than = |bound| Truth::Less(bounded.clone().into(), Number::Literal(bound).into());
    let more_than = |bound| Truth::Less(Number::Literal(bound).into(), bounded.clone().into());
    let limit = match random.below(8) {
        0 | 1 => more_than(low),
        2 | 3 => Truth::And(less_than(high).into(), more_than(low).into()),
        4 => Truth::Or(less_than(high).into(), more_than(beyond).into()),
        5 => Truth::Not(Truth::Equal(bounded.clone().into(), Number::Literal(high).into()).into()),
        _ => less_than(high),
    };
    if limit.encode().len() <= most_bytes {
        limit
    } else {
        less_than(high)
    }
}

/// What a limit bounds: a channel, or how two of them stand to each other.
fn bounded(random: &mut Random, channels: usize) -> Number {
    let mut own = || Number::Own(random.below(channels) as u8);
    let (a, b) = (own(), own());
    match random.below(6) {
        0 => Number::Sum(a.into(), b.into()),
        1 => Number::Difference(a.into(), b.into()),
        _ => a,
    }
}
