//! What check says of a deck, in words.

use crate::chain::chain;
use crate::fault::{Fault, Spot};
use crate::fields::field_at;
use crate::graph::Graph;
use crate::loading::{Loaded, Readable, Source};
use crate::make::{Formula, Role};
use crate::text::formula;
use crate::words::{pieces, spot, words, FAR, LITERAL, OWN};
use reaction::Refusal;
use reference::deck::Deck;
use reference::expression::Expression;
use reference::refusal;

/// What passed, with its numbers in words.
pub fn passed_in_words(file: &str, deck: &reaction::Deck) -> String {
    let counted = |count: u32, what: &str| format!("{count} {what}{}", if count == 1 { "" } else { "s" });
    format!(
        "{file} passed: {}, {}, {}.\nFrom one rule that fires at most {} follow. A pool of {} has room for any one input.",
        counted(deck.channels(), "channel"),
        counted(deck.rules(), "rule"),
        counted(deck.parts(), "part"),
        counted(deck.largest_charge(), "commit"),
        counted(deck.places_for_an_input().into(), "place"),
    )
}

/// Why a deck does not pass, with what the rigger wrote.
pub fn refusal_in_words(loaded: &Loaded, refusal: Refusal) -> String {
    let (number, place) = (refusal.number, refusal.place as usize);
    let in_formula = loaded.source.as_ref().and_then(|source| fault_in_formula(source, number, place));
    if let (Some(fault), Some(source)) = (in_formula, &loaded.source) {
        return fault.shown(&loaded.file, &source.text);
    }
    match (number, loaded.read_deck()) {
        (refusal::OPENS_OUTSIDE_LIMIT, Some(readable)) => opens_outside(loaded, &readable, place),
        (refusal::CYCLE, Some(readable)) => cycle(loaded, &readable, place),
        (refusal::RULE_CHARGE, Some(readable)) => overcharged(loaded, &readable, place),
        _ => bytes_in_words(loaded, refusal),
    }
}

/// A refusal of bytes: its number, and the field that it is about.
fn bytes_in_words(loaded: &Loaded, refusal: Refusal) -> String {
    let place = refusal.place as usize;
    let field = |offset: usize| field_at(&loaded.bytes, offset).unwrap_or_else(|| "no field".to_string());
    let about = match refusal.number {
        refusal::DECK_ENDS => format!(" The bytes end in {}.", field(place)),
        // The byte in front is the expression's, also where it ends early and the place is behind it.
        refusal::WRONG_END => format!(" It is {}.", field(place.saturating_sub(1))),
        refusal::DEFAULT_ACTION => {
            format!(" Byte {place} is {}. `rig convert` makes a new deck of an old one.", field(place))
        }
        2..=5 | refusal::WRONG_TYPE => format!(" Byte {place} is in {}.", field(place)),
        // Of an old deck, which has no names here.
        refusal::OPENS_OUTSIDE_LIMIT => format!(" It is part {place}."),
        refusal::CYCLE => format!(" It is channel {place}."),
        refusal::RULE_CHARGE => {
            format!(" It is rule {} at part {}.", place % Deck::RULES, place / Deck::RULES)
        }
        _ => String::new(),
    };
    format!("{}: Refused by {} at {place}: {}.{about}", loaded.file, refusal.number, refusal.name())
}

/// The fault of a formula at an offset of the deck.
fn fault_in_formula(source: &Source, number: u32, place: usize) -> Option<Fault> {
    if !matches!(number, refusal::UNKNOWN_BYTE | refusal::WRONG_TYPE | refusal::WRONG_END) {
        return None;
    }
    source.made.formulas.iter().find_map(|formula| {
        let mut at = formula.from;
        for (index, word) in formula.words.iter().enumerate() {
            if at == place {
                let sentence = wrong_word(source, formula, index, number);
                return Some(Fault { spot: word.spot, sentence });
            }
            at += word.bytes.len();
        }
        let early = at == place && number == refusal::WRONG_END;
        early.then(|| Fault { spot: formula.end, sentence: ends_early(source, formula) })
    })
}

/// The two types of expressions.
#[derive(Clone, Copy, Debug, PartialEq, Eq)]
enum Type {
    Number,
    Truth,
}

impl Type {
    fn name(self) -> &'static str {
        match self {
            Type::Number => "number",
            Type::Truth => "truth",
        }
    }
}

/// What an operator gives, and what it asks for.
fn operator_types(byte: u8) -> (Type, &'static [Type]) {
    use reference::expression::operator::*;
    const NUMBERS: [Type; 2] = [Type::Number, Type::Number];
    const TRUTHS: [Type; 2] = [Type::Truth, Type::Truth];
    match byte {
        SUM | DIFFERENCE | PRODUCT => (Type::Number, &NUMBERS),
        NEGATION => (Type::Number, &NUMBERS[..1]),
        LITERAL | OWN | FAR => (Type::Number, &[]),
        NOT => (Type::Truth, &TRUTHS[..1]),
        AND | OR => (Type::Truth, &TRUTHS),
        LESS | EQUAL => (Type::Truth, &NUMBERS),
        _ => (Type::Truth, &[]),
    }
}

/// What is awaited in front of each word and behind the last, and for which word.
fn awaited(formula: &Formula) -> Vec<Option<(Type, Option<usize>)>> {
    let whole = match formula.role {
        Role::Value { .. } => Type::Number,
        Role::Condition { .. } | Role::Limit { .. } => Type::Truth,
    };
    let mut stack = vec![(whole, None)];
    let mut all = Vec::new();
    for (index, word) in formula.words.iter().enumerate() {
        all.push(stack.pop());
        let (_, asks) = operator_types(word.bytes[0]);
        stack.extend(asks.iter().map(|&operand| (operand, Some(index))));
    }
    all.push(stack.pop());
    all
}

/// A formula by its role and names: "the limit of part knee".
fn called(source: &Source, role: Role) -> String {
    let names = &source.made.names;
    match role {
        Role::Condition { rule } => format!("the condition of rule {}", names.rules[rule]),
        Role::Value { rule, target } => {
            format!("the new value of {} in rule {}", names.channels[usize::from(target)], names.rules[rule])
        }
        Role::Limit { part } => format!("the limit of part {}", names.parts[part]),
    }
}

fn wrong_word(source: &Source, formula: &Formula, index: usize, number: u32) -> String {
    let word = &formula.words[index];
    let whose = called(source, formula.role);
    let awaited = awaited(formula)[index];
    let Some((wanted, by)) = awaited.filter(|_| number != refusal::WRONG_END) else {
        return format!("`{}` is left over: {whose} is complete before it.", word.text);
    };
    let (given, _) = operator_types(word.bytes[0]);
    if given == wanted && word.bytes[0] == FAR {
        return format!("`{}` may not stand in {whose}: {}.", word.text, why_no_far(formula.role));
    }
    let place = match by {
        Some(by) => format!("`{}` takes a {} here", formula.words[by].text, wanted.name()),
        None => format!("{whose} is a {}", wanted.name()),
    };
    let is = match word.bytes[0] {
        LITERAL | OWN | FAR => "is",
        _ => "gives",
    };
    format!("{}, and `{}` {is} a {}.", capital(&place), word.text, given.name())
}

fn why_no_far(role: Role) -> &'static str {
    match role {
        Role::Limit { .. } => "a limit is about its own part alone",
        _ => "only a rule of kind everywhere has a receiver",
    }
}

fn ends_early(source: &Source, formula: &Formula) -> String {
    let whose = capital(&called(source, formula.role));
    match awaited(formula).last().copied().flatten() {
        Some((wanted, Some(by))) => {
            format!("{whose} ends early: `{}` still takes a {}.", formula.words[by].text, wanted.name())
        }
        _ => format!("{whose} ends early."),
    }
}

/// A sentence's first letter.
fn capital(sentence: &str) -> String {
    let mut letters = sentence.chars();
    letters.next().map_or(String::new(), |first| first.to_uppercase().chain(letters).collect())
}

/// A sentence about a line of the text; about the file where there is none.
fn about(loaded: &Loaded, spot: Option<Spot>, sentence: String) -> String {
    match (&loaded.source, spot) {
        (Some(source), Some(spot)) => Fault { spot, sentence }.shown(&loaded.file, &source.text),
        _ => format!("{}: {sentence}", loaded.file),
    }
}

/// The word of a text that names a rule or a part, behind the line's first word.
fn name_spot(loaded: &Loaded, line: Option<usize>) -> Option<Spot> {
    let source = loaded.source.as_ref()?;
    let words = words(source.text.lines().nth(line? - 1)?);
    Some(spot(line?, &words, 1))
}

fn opens_outside(loaded: &Loaded, readable: &Readable, number: usize) -> String {
    let (deck, names) = (&readable.deck, &readable.names);
    let part = &deck.parts[number];
    let bytes = part.limit.encode();
    let values: Vec<String> = (0..deck.labels.len())
        .filter(|&channel| names_channel(&bytes, channel))
        .map(|channel| format!("{} is {}", names.channels[channel], part.opening[channel]))
        .collect();
    let with = if values.is_empty() { String::new() } else { format!(", where {}", values.join(" and ")) };
    let limit = formula(&part.limit, names);
    let sentence =
        format!("Part {} opens outside its limit: `{limit}` does not hold{with}.", names.parts[number]);
    let line = loaded.source.as_ref().map(|source| source.made.lines.parts[number]);
    about(loaded, name_spot(loaded, line), sentence)
}

/// Whether an expression has this own channel.
fn names_channel(bytes: &[u8], channel: usize) -> bool {
    pieces(bytes).into_iter().any(|(operator, operand)| operator == OWN && operand == [channel as u8])
}

fn cycle(loaded: &Loaded, readable: &Readable, channel: usize) -> String {
    let names = &readable.names;
    let path = Graph::of(&readable.deck).cycle(channel);
    let steps: Vec<String> = path
        .iter()
        .map(|edge| {
            let (from, to) = (&names.channels[edge.from], &names.channels[edge.to]);
            format!(
                "{from} leads to {to} by rule {}{}",
                names.rules[edge.rule],
                line_of_rule(loaded, edge.rule)
            )
        })
        .collect();
    let sentence = format!("Channel {} leads back to itself: {}.", names.channels[channel], steps.join(", "));
    let line =
        path.first().and_then(|edge| loaded.source.as_ref().map(|source| source.made.lines.rules[edge.rule]));
    about(loaded, name_spot(loaded, line), sentence)
}

fn line_of_rule(loaded: &Loaded, rule: usize) -> String {
    match &loaded.source {
        Some(source) => format!(" (line {})", source.made.lines.rules[rule]),
        None => String::new(),
    }
}

fn overcharged(loaded: &Loaded, readable: &Readable, place: usize) -> String {
    let (part, rule) = (place / Deck::RULES, place % Deck::RULES);
    let line = loaded.source.as_ref().map(|source| source.made.lines.rules[rule]);
    let (sentence, steps) = chain(&readable.deck, &readable.names, part, rule);
    format!("{}\n{}", about(loaded, name_spot(loaded, line), sentence), steps.join("\n"))
}
