//! Expressions with a fault inside: unknown bytes, values of the wrong type, wrong ends.

use super::faults::{damage, passing};
use super::Size;
use crate::deck::{Deck, Encoded, Field, Form};
use crate::expression::operator::{AND, EQUAL, FALSE, FAR, LITERAL, NEGATION, NOT, OWN, SUM};
use crate::random::Random;

/// A deck that passes, with a fault inside one expression. Sometimes the deck ends with the
/// expression or within it, and sometimes there is another fault.
pub fn broken(random: &mut Random, size: Size, form: Form) -> Vec<u8> {
    let mut encoded = passing(random, size, form).encode();
    let end = break_one(random, &mut encoded);
    match random.below(10) {
        0 => encoded.bytes.truncate(end - random.below(2)),
        1 => damage(random, &mut encoded),
        _ => {}
    }
    encoded.bytes
}

/// Breaks one expression of a deck that passes; the answer is the offset behind it.
pub fn break_one(random: &mut Random, encoded: &mut Encoded) -> usize {
    let is_expression = |&&(_, field): &&(usize, Field)| field == Field::Expression;
    let starts: Vec<usize> = encoded.fields.iter().filter(is_expression).map(|&(at, _)| at).collect();
    // The last one is a limit, and nothing follows it: a deck that passes has a part.
    let last = starts[starts.len() - 1];
    let start = if random.chance(20) { last } else { random.pick(&starts) };
    if random.chance(10) {
        wrong_length(random, &mut encoded.bytes[start - 1]);
    } else {
        let end = start + usize::from(encoded.bytes[start - 1]);
        let mut expression = encoded.bytes[start..end].to_vec();
        spoil(random, &mut expression, encoded.bytes[0]);
        encoded.replace_expression(start, &expression);
    }
    (start + usize::from(encoded.bytes[start - 1])).min(encoded.bytes.len())
}

/// A length byte that counts too few bytes, or some of what follows the expression.
fn wrong_length(random: &mut Random, length: &mut u8) {
    let by = random.between(1, 4) as u8;
    *length = if *length > by && random.chance(50) { *length - by } else { *length + by };
}

/// Breaks an expression that is sound, now and then twice. A change of some kinds may leave it
/// sound; its length stays legal.
pub fn spoil(random: &mut Random, expression: &mut Vec<u8>, channels: u8) {
    change(random, expression, channels);
    if random.chance(20) {
        change(random, expression, channels);
    }
}

fn change(random: &mut Random, expression: &mut Vec<u8>, channels: u8) {
    let outline = outline(expression);
    let operator = if random.chance(20) { 0 } else { random.pick(&outline.operators) };
    let channel = any(random, &outline.channels);
    match random.below(10) {
        0 => expression[operator] = unknown_operator(random),
        1 | 2 => match channel {
            Some(at) => expression[at + 1] = random.within(channels.into()..=255) as u8,
            None => expression[operator] = unknown_operator(random),
        },
        3 | 4 => expression[operator] = with_type(random, !is_truth(expression[operator])),
        5 | 6 => expression[channel.unwrap_or(operator)] = FAR,
        // Mostly one that takes more operands, or fewer.
        7 => expression[operator] = with_type(random, is_truth(expression[operator])),
        8 => cut(random, expression, &outline.literals),
        _ => append(random, expression),
    }
}

/// Where operators stand, those of own and far channels, and those of literals.
#[derive(Default)]
struct Outline {
    operators: Vec<usize>,
    channels: Vec<usize>,
    literals: Vec<usize>,
}

fn outline(expression: &[u8]) -> Outline {
    let mut outline = Outline::default();
    let mut at = 0;
    while let Some(&operator) = expression.get(at) {
        outline.operators.push(at);
        let (list, more) = match operator {
            LITERAL => (Some(&mut outline.literals), 4),
            OWN | FAR => (Some(&mut outline.channels), 1),
            _ => (None, 0),
        };
        // In a broken expression some of its bytes may be missing.
        if let Some(list) = list.filter(|_| at + more < expression.len()) {
            list.push(at);
        }
        at += 1 + more;
    }
    outline
}

fn any(random: &mut Random, places: &[usize]) -> Option<usize> {
    (!places.is_empty()).then(|| random.pick(places))
}

fn is_truth(operator: u8) -> bool {
    operator >= FALSE
}

/// An operator that gives a truth, or one that gives a number.
fn with_type(random: &mut Random, truth: bool) -> u8 {
    let (low, high) = if truth { (FALSE, EQUAL) } else { (LITERAL, NEGATION) };
    random.between(low.into(), high.into()) as u8
}

/// Mostly one just beside the known ones.
fn unknown_operator(random: &mut Random) -> u8 {
    let beyond = random.between(usize::from(EQUAL) + 1, 255) as u8;
    let between = random.between(usize::from(NEGATION) + 1, usize::from(FALSE) - 1) as u8;
    random.pick(&[NEGATION + 1, FALSE - 1, EQUAL + 1, 255, beyond, between])
}

/// Ends within a literal, or anywhere behind the first byte; one that has a single byte becomes a
/// `not` without its operand.
fn cut(random: &mut Random, expression: &mut Vec<u8>, literals: &[usize]) {
    let anywhere = 1 + random.below(expression.len() - 1);
    let within = any(random, literals).map(|at| at + random.between(1, 4));
    match expression.len() {
        1 => expression[0] = NOT,
        _ => expression.truncate(within.filter(|_| random.chance(50)).unwrap_or(anywhere)),
    }
}

/// One byte more or several, as many as there may be; the longest expression gets a first
/// operator that takes fewer operands.
fn append(random: &mut Random, expression: &mut Vec<u8>) {
    let room = Deck::EXPRESSION - expression.len();
    if room == 0 {
        expression[0] = if is_truth(expression[0]) { FALSE } else { NEGATION };
    }
    let any = random.byte();
    let more = random.pick(&[1, 1, 2, 5, room]).min(room);
    expression.extend((0..more).map(|_| random.pick(&[FALSE, OWN, SUM, AND, NEGATION + 1, any])));
}
