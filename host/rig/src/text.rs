//! A deck as text, so that `make` of it gives the same bytes.

use crate::names::Names;
use crate::words::{operator_word, pieces, FAR, FAR_PREFIX, LITERAL, OWN};
use reference::deck::{Deck, Kind, Part, Rule};
use reference::expression::{Expression, Truth};
use std::fmt::Write;

/// The words of an expression.
pub fn formula(expression: &impl Expression, names: &Names) -> String {
    let bytes = expression.encode();
    let word = |(operator, operand): (u8, &[u8])| match operator {
        LITERAL => literal(operand),
        OWN => channel(operand, names),
        FAR => format!("{FAR_PREFIX}{}", channel(operand, names)),
        byte => operator_word(byte).unwrap_or("?").to_string(),
    };
    let words: Vec<String> = pieces(&bytes).into_iter().map(word).collect();
    words.join(" ")
}

fn literal(operands: &[u8]) -> String {
    let bytes = operands.first_chunk::<4>().copied().unwrap_or_default();
    i32::from_le_bytes(bytes).to_string()
}

fn channel(operands: &[u8], names: &Names) -> String {
    let number = operands.first().map_or(usize::MAX, |&byte| byte.into());
    names.channels.get(number).map_or("?", |name| name).to_string()
}

/// The text of a deck with these names.
pub fn text(deck: &Deck, names: &Names) -> String {
    let mut text = String::new();
    for (label, name) in deck.labels.iter().zip(&names.channels) {
        line(&mut text, &format!("channel {} {name}", char::from(*label)));
    }
    for (rule, name) in deck.rules.iter().zip(&names.rules) {
        line(&mut text, &format!("\nrule {name}"));
        rule_lines(&mut text, rule, names);
    }
    for (part, name) in deck.parts.iter().zip(&names.parts) {
        line(&mut text, &format!("\npart {name}"));
        part_lines(&mut text, part, names);
    }
    text
}

fn line(text: &mut String, line: &str) {
    // Writing into a string cannot fail.
    let _ = writeln!(text, "{line}");
}

fn listed(numbers: &[u8], names: &[String]) -> String {
    let names: Vec<&str> =
        numbers.iter().filter_map(|&number| names.get(usize::from(number))).map(|name| &name[..]).collect();
    names.join(" ")
}

fn rule_lines(text: &mut String, rule: &Rule, names: &Names) {
    line(text, &format!("  when {}", listed(&rule.events, &names.channels)));
    line(text, if rule.kind == Kind::Here { "  here" } else { "  everywhere" });
    if rule.condition != Truth::True {
        line(text, &format!("  if {}", formula(&rule.condition, names)));
    }
    for assignment in &rule.action {
        let target = listed(&[assignment.target], &names.channels);
        line(text, &format!("  set {target} = {}", formula(&assignment.expression, names)));
    }
}

fn part_lines(text: &mut String, part: &Part, names: &Names) {
    for (value, name) in part.opening.iter().zip(&names.channels).filter(|(&value, _)| value != 0) {
        line(text, &format!("  open {name} {value}"));
    }
    if !part.carried.is_empty() {
        line(text, &format!("  carries {}", listed(&part.carried, &names.rules)));
    }
    if part.limit != Truth::True {
        line(text, &format!("  limit {}", formula(&part.limit, names)));
    }
}
