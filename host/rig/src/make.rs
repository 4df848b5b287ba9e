//! A deck's text to its bytes. Whatever the text cannot mean is a fault at its line; what the bytes are worth the engine says.

use crate::fault::{Fault, Spot};
use crate::names::{position, Names};
use crate::words::{
    not_a_name, operator_byte, spot, whole_number, words, Word, FAR, FAR_PREFIX, LITERAL, OWN,
};
use reference::deck::Deck;
use std::collections::BTreeMap;

/// A text's deck: its bytes, and where in the text they come from.
#[derive(Clone, Debug)]
pub struct Made {
    pub bytes: Vec<u8>,
    pub names: Names,
    pub lines: Lines,
    pub formulas: Vec<Formula>,
}

/// The lines of the text at which channels, rules and parts begin.
#[derive(Clone, Debug, Default)]
pub struct Lines {
    pub channels: Vec<usize>,
    pub rules: Vec<usize>,
    pub parts: Vec<usize>,
}

/// Whose formula it is.
#[derive(Clone, Copy, Debug, PartialEq, Eq)]
pub enum Role {
    Condition { rule: usize },
    Value { rule: usize, target: u8 },
    Limit { part: usize },
}

/// An expression of the text: the offset of its first byte in the deck, and its words.
#[derive(Clone, Debug)]
pub struct Formula {
    pub role: Role,
    pub from: usize,
    pub words: Vec<Piece>,
    /// Right behind the last word.
    pub end: Spot,
}

/// A word of an expression and its bytes.
#[derive(Clone, Debug)]
pub struct Piece {
    pub text: String,
    pub spot: Spot,
    pub bytes: Vec<u8>,
}

/// The words of an expression, not yet in a deck.
struct Expression {
    words: Vec<Piece>,
    end: Spot,
}

struct Rule {
    line: Spot,
    events: Vec<u8>,
    kind: Option<u8>,
    condition: Option<Expression>,
    action: Vec<(u8, Expression)>,
}

struct Part {
    opening: BTreeMap<u8, i32>,
    carried: Option<Vec<u8>>,
    limit: Option<Expression>,
}

/// What the lines below the last `channel`, `rule` or `part` belong to.
enum Item {
    Nothing,
    Rule,
    Part,
}

/// A text, as far as it is read.
struct Text {
    item: Item,
    names: Names,
    lines: Lines,
    labels: Vec<u8>,
    rules: Vec<Rule>,
    parts: Vec<Part>,
    /// The names of all channels and rules of the text with their lines, to tell a late name from an unknown one.
    later: Vec<(&'static str, String, usize)>,
}

/// A line: its words, and its number.
struct Line<'a> {
    number: usize,
    words: Vec<Word<'a>>,
}

impl Line<'_> {
    fn spot(&self, index: usize) -> Spot {
        spot(self.number, &self.words, index)
    }

    fn fault(&self, index: usize, sentence: impl Into<String>) -> Fault {
        Fault { spot: self.spot(index), sentence: sentence.into() }
    }

    /// Exactly so many words.
    fn require_words(&self, count: usize, form: &str) -> Result<(), Fault> {
        match self.words.len() {
            length if length == count => Ok(()),
            length => {
                Err(self.fault(count.min(length), format!("The line is `{form}`, no more and no less.")))
            }
        }
    }
}

/// The deck of a text, or its first fault.
pub fn make(source: &str) -> Result<Made, Fault> {
    let mut text = Text::new(source);
    let mut last = 1;
    for (index, line) in source.lines().enumerate() {
        last = index + 1;
        let line = Line { number: last, words: words(line) };
        if !line.words.is_empty() {
            text.line(&line)?;
        }
    }
    text.finish(Spot { line: last, column: 0, width: 1 })
}

impl Text {
    fn new(source: &str) -> Text {
        let mut later = Vec::new();
        for (index, line) in source.lines().enumerate() {
            match words(line)[..] {
                [first, _, name] if first.text == "channel" => {
                    later.push(("channel", name.text.to_string(), index + 1))
                }
                [first, name] if first.text == "rule" => {
                    later.push(("rule", name.text.to_string(), index + 1))
                }
                _ => {}
            }
        }
        Text {
            item: Item::Nothing,
            names: Names::default(),
            lines: Lines::default(),
            labels: Vec::new(),
            rules: Vec::new(),
            parts: Vec::new(),
            later,
        }
    }

    fn line(&mut self, line: &Line) -> Result<(), Fault> {
        match line.words[0].text {
            "channel" => self.channel_line(line),
            "rule" => self.rule_line(line),
            "part" => self.part_line(line),
            "when" | "here" | "everywhere" | "if" | "set" => self.line_of_rule(line),
            "open" | "carries" | "limit" => self.line_of_part(line),
            "always" => Err(line
                .fault(0, "Default actions have retired: write a rule of its own with `set` and no `if`.")),
            word => Err(line.fault(
                0,
                format!(
                    "`{word}` begins no line: a line begins with channel, rule, when, here, everywhere, if, \
                     set, part, open, carries or limit."
                ),
            )),
        }
    }

    fn channel_line(&mut self, line: &Line) -> Result<(), Fault> {
        line.require_words(3, "channel LABEL NAME")?;
        let label = line.words[1].text;
        let &[byte @ 33..=126] = label.as_bytes() else {
            let sentence = format!("The label `{label}` is not one character from `!` to `~`.");
            return Err(line.fault(1, sentence));
        };
        require_room(line, self.labels.len(), Deck::CHANNELS, "channels")?;
        self.item = Item::Nothing;
        self.labels.push(byte);
        self.lines.channels.push(line.number);
        new_name(line, 2, "channel", &mut self.names.channels)
    }

    fn rule_line(&mut self, line: &Line) -> Result<(), Fault> {
        line.require_words(2, "rule NAME")?;
        require_room(line, self.rules.len(), Deck::RULES, "rules")?;
        self.item = Item::Rule;
        self.lines.rules.push(line.number);
        let line_spot = line.spot(1);
        self.rules.push(Rule {
            line: line_spot,
            events: Vec::new(),
            kind: None,
            condition: None,
            action: Vec::new(),
        });
        new_name(line, 1, "rule", &mut self.names.rules)
    }

    fn part_line(&mut self, line: &Line) -> Result<(), Fault> {
        line.require_words(2, "part NAME")?;
        require_room(line, self.parts.len(), Deck::PARTS, "parts")?;
        self.item = Item::Part;
        self.lines.parts.push(line.number);
        self.parts.push(Part { opening: BTreeMap::new(), carried: None, limit: None });
        new_name(line, 1, "part", &mut self.names.parts)
    }

    fn line_of_rule(&mut self, line: &Line) -> Result<(), Fault> {
        let word = line.words[0].text;
        if !matches!(self.item, Item::Rule) {
            return Err(
                line.fault(0, format!("`{word}` stands outside a rule: it belongs below `rule NAME`."))
            );
        }
        match word {
            "when" => self.when(line),
            "if" => {
                let condition = self.expression(line, 1)?;
                let rule = self.rule(line)?;
                require_first(line, rule.condition.is_none(), "rule has a condition")?;
                rule.condition = Some(condition);
                Ok(())
            }
            "set" => self.set(line),
            kind => {
                line.require_words(1, kind)?;
                let rule = self.rule(line)?;
                require_first(line, rule.kind.is_none(), "rule has a kind")?;
                rule.kind = Some((kind == "everywhere").into());
                Ok(())
            }
        }
    }

    fn when(&mut self, line: &Line) -> Result<(), Fault> {
        let mut events = Vec::new();
        for index in 1..line.words.len() {
            let event = self.channel(line, index, line.words[index].text)?;
            if events.contains(&event) {
                return Err(line.fault(index, format!("`{}` is an event twice.", line.words[index].text)));
            }
            events.push(event);
        }
        if events.is_empty() || events.len() > Deck::EVENTS {
            let count = format!("A rule has 1 to {} events, and here are {}.", Deck::EVENTS, events.len());
            return Err(line.fault(events.len().min(Deck::EVENTS) + 1, count));
        }
        events.sort_unstable();
        let rule = self.rule(line)?;
        require_first(line, rule.events.is_empty(), "rule has events")?;
        rule.events = events;
        Ok(())
    }

    fn set(&mut self, line: &Line) -> Result<(), Fault> {
        if line.words.get(2).map(|word| word.text) != Some("=") {
            return Err(line.fault(2.min(line.words.len()), "The line is `set CHANNEL = NUMBER`."));
        }
        let name = line.words[1].text;
        let target = self.channel(line, 1, name)?;
        let value = self.expression(line, 3)?;
        let rule = self.rule(line)?;
        if rule.action.iter().any(|&(earlier, _)| earlier == target) {
            return Err(line.fault(1, format!("The rule sets `{name}` twice.")));
        }
        require_room(line, rule.action.len(), Deck::ASSIGNMENTS, "`set` lines in a rule")?;
        rule.action.push((target, value));
        Ok(())
    }

    fn line_of_part(&mut self, line: &Line) -> Result<(), Fault> {
        let word = line.words[0].text;
        if !matches!(self.item, Item::Part) {
            return Err(
                line.fault(0, format!("`{word}` stands outside a part: it belongs below `part NAME`."))
            );
        }
        match word {
            "open" => self.open(line),
            "carries" => self.carries(line),
            _ => {
                let limit = self.expression(line, 1)?;
                let part = self.part(line)?;
                require_first(line, part.limit.is_none(), "part has a limit")?;
                part.limit = Some(limit);
                Ok(())
            }
        }
    }

    fn open(&mut self, line: &Line) -> Result<(), Fault> {
        line.require_words(3, "open CHANNEL VALUE")?;
        let channel = self.channel(line, 1, line.words[1].text)?;
        let word = line.words[2].text;
        let value = match whole_number(word) {
            Some(number) => number.map_err(|why| line.fault(2, format!("The value {why}.")))?,
            None => return Err(line.fault(2, format!("`{word}` is no whole number."))),
        };
        let part = self.part(line)?;
        if part.opening.insert(channel, value).is_some() {
            return Err(line.fault(1, format!("`{}` has an opening value twice.", line.words[1].text)));
        }
        Ok(())
    }

    fn carries(&mut self, line: &Line) -> Result<(), Fault> {
        let mut carried = Vec::new();
        for index in 1..line.words.len() {
            let name = line.words[index].text;
            let found = position(&self.names.rules, name);
            let rule = found.ok_or_else(|| self.unknown(line, index, "rule", name))? as u8;
            if carried.contains(&rule) {
                return Err(line.fault(index, format!("The part carries `{name}` twice.")));
            }
            carried.push(rule);
        }
        carried.sort_unstable();
        let part = self.part(line)?;
        require_first(line, part.carried.is_none(), "part carries rules")?;
        part.carried = Some(carried);
        Ok(())
    }

    fn rule(&mut self, line: &Line) -> Result<&mut Rule, Fault> {
        self.rules.last_mut().ok_or_else(|| line.fault(0, "There is no rule above."))
    }

    fn part(&mut self, line: &Line) -> Result<&mut Part, Fault> {
        self.parts.last_mut().ok_or_else(|| line.fault(0, "There is no part above."))
    }

    fn channel(&self, line: &Line, index: usize, name: &str) -> Result<u8, Fault> {
        let found = position(&self.names.channels, name);
        found.map(|number| number as u8).ok_or_else(|| self.unknown(line, index, "channel", name))
    }

    fn unknown(&self, line: &Line, index: usize, what: &str, name: &str) -> Fault {
        let late = self.later.iter().find(|(kind, known, _)| *kind == what && known == name);
        line.fault(
            index,
            match late {
                Some((_, _, at)) => format!("The {what} `{name}` stands further down, in line {at}."),
                None => format!("There is no {what} `{name}`."),
            },
        )
    }

    /// The words of a line from this one on.
    fn expression(&self, line: &Line, from: usize) -> Result<Expression, Fault> {
        let mut pieces = Vec::new();
        let mut length = 0;
        for index in from..line.words.len() {
            let text = line.words[index].text;
            let bytes = self.operand(line, index, text)?;
            length += bytes.len();
            if length > Deck::EXPRESSION {
                let sentence = format!("The formula is too long: with `{text}` it has more than 64 bytes.");
                return Err(line.fault(index, sentence));
            }
            pieces.push(Piece { text: text.to_string(), spot: line.spot(index), bytes });
        }
        if pieces.is_empty() {
            return Err(line.fault(from, "There is no formula."));
        }
        Ok(Expression { words: pieces, end: line.spot(line.words.len()) })
    }

    /// The bytes of a word of an expression.
    fn operand(&self, line: &Line, index: usize, word: &str) -> Result<Vec<u8>, Fault> {
        if let Some(byte) = operator_byte(word) {
            return Ok(vec![byte]);
        }
        if let Some(number) = whole_number(word) {
            let number = number.map_err(|why| line.fault(index, format!("The number {why}.")))?;
            return Ok([&[LITERAL][..], &number.to_le_bytes()].concat());
        }
        match word.strip_prefix(FAR_PREFIX) {
            Some(name) => Ok(vec![FAR, self.channel(line, index, name)?]),
            None => Ok(vec![OWN, self.channel(line, index, word)?]),
        }
    }

    /// The deck, when all lines are read.
    fn finish(self, end: Spot) -> Result<Made, Fault> {
        let fault = |spot: Spot, sentence: &str| Err(Fault { spot, sentence: sentence.to_string() });
        if self.labels.is_empty() {
            return fault(end, "The text has no channel: a deck has 1 to 32.");
        }
        if self.parts.is_empty() {
            return fault(end, "The text has no part: a deck has 1 to 16.");
        }
        if let Some(rule) = self.rules.iter().find(|rule| rule.events.is_empty()) {
            return fault(rule.line, "The rule has no events: it needs a line `when CHANNEL ..`.");
        }
        let mut deck = Bytes::default();
        deck.channels(&self.labels);
        deck.bytes.push(self.rules.len() as u8);
        for (number, rule) in self.rules.into_iter().enumerate() {
            deck.rule(number, rule);
        }
        deck.bytes.push(self.parts.len() as u8);
        for (number, part) in self.parts.into_iter().enumerate() {
            deck.part(number, part, self.labels.len());
        }
        Ok(Made { bytes: deck.bytes, names: self.names, lines: self.lines, formulas: deck.formulas })
    }
}

/// Takes a name in, if it is one and new.
fn new_name(line: &Line, index: usize, what: &str, names: &mut Vec<String>) -> Result<(), Fault> {
    let name = line.words[index].text;
    if let Some(why) = not_a_name(name) {
        return Err(line.fault(index, format!("{why}.")));
    }
    if names.iter().any(|known| known == name) {
        return Err(line.fault(index, format!("There is a {what} `{name}` already.")));
    }
    names.push(name.to_string());
    Ok(())
}

/// One more fits.
fn require_room(line: &Line, count: usize, most: usize, what: &str) -> Result<(), Fault> {
    if count < most {
        Ok(())
    } else {
        Err(line.fault(0, format!("There are more than {most} {what}.")))
    }
}

fn require_first(line: &Line, first: bool, what: &str) -> Result<(), Fault> {
    if first {
        Ok(())
    } else {
        Err(line.fault(0, format!("The {what} already.")))
    }
}

/// The bytes as they come, and the formulas among them.
#[derive(Default)]
struct Bytes {
    bytes: Vec<u8>,
    formulas: Vec<Formula>,
}

/// The expression `true`, behind its length: a condition or limit that the text leaves out.
const TRUE: [u8; 2] = [1, 17];

impl Bytes {
    fn channels(&mut self, labels: &[u8]) {
        self.bytes.push(labels.len() as u8);
        self.bytes.extend(labels);
    }

    fn list(&mut self, numbers: &[u8]) {
        self.bytes.push(numbers.len() as u8);
        self.bytes.extend(numbers);
    }

    fn rule(&mut self, number: usize, rule: Rule) {
        self.list(&rule.events);
        // The count of a default action, which a new deck has not.
        self.bytes.push(0);
        self.bytes.push(rule.kind.unwrap_or(0));
        self.truth(Role::Condition { rule: number }, rule.condition);
        self.bytes.push(rule.action.len() as u8);
        for (target, value) in rule.action {
            self.bytes.push(target);
            self.expression(Role::Value { rule: number, target }, value);
        }
    }

    fn part(&mut self, number: usize, part: Part, channels: usize) {
        for channel in 0..channels as u8 {
            self.bytes.extend(part.opening.get(&channel).unwrap_or(&0).to_le_bytes());
        }
        self.list(&part.carried.unwrap_or_default());
        self.truth(Role::Limit { part: number }, part.limit);
    }

    fn truth(&mut self, role: Role, truth: Option<Expression>) {
        match truth {
            Some(truth) => self.expression(role, truth),
            None => self.bytes.extend(TRUE),
        }
    }

    /// A length byte, and the words one after the other.
    fn expression(&mut self, role: Role, expression: Expression) {
        let bytes: Vec<u8> = expression.words.iter().flat_map(|piece| piece.bytes.iter().copied()).collect();
        self.list(&bytes);
        let from = self.bytes.len() - bytes.len();
        self.formulas.push(Formula { role, from, words: expression.words, end: expression.end });
    }
}
