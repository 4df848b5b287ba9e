//! The deck: what its bytes say, the reader with faults 1 to 5 and 18 to 20, and the encoder.

use crate::expression::{Expression, Number, Scope, Truth};
use crate::refusal::{self, require, Refusal};
use std::ops::Range;

#[derive(Clone, Debug, PartialEq, Eq)]
pub struct Deck {
    pub labels: Vec<u8>,
    pub rules: Vec<Rule>,
    pub parts: Vec<Part>,
}

#[derive(Clone, Debug, PartialEq, Eq)]
pub struct Rule {
    pub events: Vec<u8>,
    pub default_action: Action,
    pub kind: Kind,
    pub condition: Truth,
    pub action: Action,
}

#[derive(Clone, Copy, Debug, PartialEq, Eq)]
pub enum Kind {
    Here,
    Everywhere,
}

pub type Action = Vec<Assignment>;

#[derive(Clone, Debug, PartialEq, Eq)]
pub struct Assignment {
    pub target: u8,
    pub expression: Number,
}

#[derive(Clone, Debug, PartialEq, Eq)]
pub struct Part {
    pub opening: Vec<i32>,
    pub carried: Vec<u8>,
    pub limit: Truth,
}

/// Which decks are read: new ones have empty default actions, old ones any.
#[derive(Clone, Copy, Debug, PartialEq, Eq)]
pub enum Form {
    Old,
    New,
}

/// Each section's stretch of the deck, from its count to its end.
pub type Sections = [Range<usize>; 3];

/// The set of these channels, a bit each.
pub fn channel_set<'a>(channels: impl IntoIterator<Item = &'a u8>) -> u32 {
    channels.into_iter().fold(0, |set, channel| set | 1 << channel)
}

/// The set of an action's targets.
pub fn target_set(action: &[Assignment]) -> u32 {
    channel_set(action.iter().map(|assignment| &assignment.target))
}

impl Deck {
    pub const CHANNELS: usize = 32;
    pub const RULES: usize = 64;
    pub const PARTS: usize = 16;
    pub const EVENTS: usize = 8;
    pub const ASSIGNMENTS: usize = 4;
    pub const EXPRESSION: usize = 64;
    /// The longest new deck that can pass.
    pub const BYTES: usize = 25_987;
    /// The longest old one.
    pub const OLD_BYTES: usize = 42_883;

    /// Reads a new deck.
    pub fn read(bytes: &[u8]) -> Result<(Deck, Sections), Refusal> {
        Form::New.read(bytes)
    }

    /// The rules that some part carries, in rising order, each once.
    pub fn carried_rules(&self) -> impl Iterator<Item = &Rule> {
        let carried = |number: usize| self.parts.iter().any(|part| part.carries(number));
        self.rules.iter().enumerate().filter(move |(number, _)| carried(*number)).map(|(_, rule)| rule)
    }
}

impl Form {
    /// Reads a deck of this form, first fault first.
    pub fn read(self, bytes: &[u8]) -> Result<(Deck, Sections), Refusal> {
        let mut reader = Reader { bytes, at: 0, form: self };
        let labels = reader.labels()?;
        let channels_end = reader.at;
        let rules = reader.rules(labels.len())?;
        let rules_end = reader.at;
        let parts = reader.parts(labels.len(), rules.len())?;
        let end = reader.at;
        require(end == bytes.len(), Refusal::at(refusal::BYTES_FOLLOW, end))?;
        Ok((Deck { labels, rules, parts }, [0..channels_end, channels_end..rules_end, rules_end..end]))
    }
}

impl Part {
    pub fn carries(&self, rule: usize) -> bool {
        self.carried.iter().any(|&number| usize::from(number) == rule)
    }
}

/// A deck and the offset of the next unread byte.
struct Reader<'a> {
    bytes: &'a [u8],
    at: usize,
    form: Form,
}

impl Reader<'_> {
    fn take(&mut self, length: usize) -> Result<&[u8], Refusal> {
        let ends = Refusal::at(refusal::DECK_ENDS, self.bytes.len());
        let field = self.bytes.get(self.at..self.at + length).ok_or(ends)?;
        self.at += length;
        Ok(field)
    }

    /// A byte in this range; it is judged as soon as it is read.
    fn number(&mut self, range: Range<usize>) -> Result<u8, Refusal> {
        let at = self.at;
        let byte = self.take(1)?[0];
        require(range.contains(&byte.into()), Refusal::at(refusal::OUT_OF_RANGE, at))?;
        Ok(byte)
    }

    /// A byte from `low` to `high`.
    fn count(&mut self, low: usize, high: usize) -> Result<usize, Refusal> {
        self.number(low..high + 1).map(usize::from)
    }

    /// As many strictly rising numbers below the bound.
    fn rising(&mut self, count: usize, bound: usize) -> Result<Vec<u8>, Refusal> {
        let mut numbers = Vec::with_capacity(count);
        let mut low = 0;
        for _ in 0..count {
            let number = self.number(low..bound)?;
            low = usize::from(number) + 1;
            numbers.push(number);
        }
        Ok(numbers)
    }

    fn expression<E: Expression>(&mut self, scope: Scope) -> Result<E, Refusal> {
        let length = self.count(1, Deck::EXPRESSION)?;
        let start = self.at;
        // It is judged when all its bytes are there.
        self.take(length)?;
        E::read_whole(&self.bytes[..self.at], start, scope)
    }

    fn labels(&mut self) -> Result<Vec<u8>, Refusal> {
        let count = self.count(1, Deck::CHANNELS)?;
        (0..count).map(|_| self.number(33..127)).collect()
    }

    fn rules(&mut self, channels: usize) -> Result<Vec<Rule>, Refusal> {
        let count = self.count(0, Deck::RULES)?;
        (0..count).map(|_| self.rule(channels)).collect()
    }

    fn rule(&mut self, channels: usize) -> Result<Rule, Refusal> {
        let count = self.count(1, Deck::EVENTS)?;
        let events = self.rising(count, channels)?;
        let default_action = self.default_action(channels)?;
        let kind = if self.number(0..2)? == 0 { Kind::Here } else { Kind::Everywhere };
        let scope = Scope { channels, far: kind == Kind::Everywhere };
        let condition = self.expression(scope)?;
        let action = self.action(scope)?;
        Ok(Rule { events, default_action, kind, condition, action })
    }

    /// A new deck has none, and shows it by a count of 0.
    fn default_action(&mut self, channels: usize) -> Result<Action, Refusal> {
        let retired = Refusal::at(refusal::DEFAULT_ACTION, self.at);
        let count = self.count(0, Deck::ASSIGNMENTS)?;
        require(count == 0 || self.form == Form::Old, retired)?;
        // Far channels never stand in a default action, whatever the kind.
        self.assignments(count, Scope { channels, far: false })
    }

    fn action(&mut self, scope: Scope) -> Result<Action, Refusal> {
        let count = self.count(0, Deck::ASSIGNMENTS)?;
        self.assignments(count, scope)
    }

    fn assignments(&mut self, count: usize, scope: Scope) -> Result<Action, Refusal> {
        let mut action = Action::with_capacity(count);
        for _ in 0..count {
            let twice = Refusal::at(refusal::TARGET_TWICE, self.at);
            let target = self.number(0..scope.channels)?;
            require(action.iter().all(|earlier| earlier.target != target), twice)?;
            action.push(Assignment { target, expression: self.expression(scope)? });
        }
        Ok(action)
    }

    fn parts(&mut self, channels: usize, rules: usize) -> Result<Vec<Part>, Refusal> {
        let count = self.count(1, Deck::PARTS)?;
        (0..count).map(|_| self.part(channels, rules)).collect()
    }

    fn part(&mut self, channels: usize, rules: usize) -> Result<Part, Refusal> {
        let opening = (0..channels).map(|_| self.opening_value()).collect::<Result<_, _>>()?;
        let count = self.count(0, rules)?;
        let carried = self.rising(count, rules)?;
        let limit = self.expression(Scope { channels, far: false })?;
        Ok(Part { opening, carried, limit })
    }

    fn opening_value(&mut self) -> Result<i32, Refusal> {
        let field = self.take(4)?;
        Ok(i32::from_le_bytes([field[0], field[1], field[2], field[3]]))
    }
}

/// The kinds of fields of a deck.
#[derive(Clone, Copy, Debug, PartialEq, Eq, Hash)]
pub enum Field {
    ChannelCount,
    Label,
    RuleCount,
    EventCount,
    Event,
    DefaultCount,
    ActionCount,
    Target,
    ExpressionLength,
    Expression,
    Kind,
    PartCount,
    OpeningValue,
    CarriedCount,
    CarriedRule,
}

/// A deck's bytes with the offset and kind of each field.
#[derive(Clone, Debug, Default)]
pub struct Encoded {
    pub bytes: Vec<u8>,
    pub fields: Vec<(usize, Field)>,
}

impl Deck {
    /// The bytes that say this deck. Counts are written as they are, in range or not.
    pub fn encode(&self) -> Encoded {
        let mut encoded = Encoded::default();
        encoded.count(Field::ChannelCount, self.labels.len());
        encoded.list(Field::Label, &self.labels);
        encoded.count(Field::RuleCount, self.rules.len());
        for rule in &self.rules {
            encoded.rule(rule);
        }
        encoded.count(Field::PartCount, self.parts.len());
        for part in &self.parts {
            encoded.part(part);
        }
        encoded
    }
}

impl Encoded {
    fn field(&mut self, field: Field, bytes: &[u8]) {
        self.fields.push((self.bytes.len(), field));
        self.bytes.extend(bytes);
    }

    fn count(&mut self, field: Field, count: usize) {
        self.field(field, &[count as u8]);
    }

    fn list(&mut self, field: Field, numbers: &[u8]) {
        for &number in numbers {
            self.field(field, &[number]);
        }
    }

    fn expression(&mut self, expression: &impl Expression) {
        let bytes = expression.encode();
        self.count(Field::ExpressionLength, bytes.len());
        self.field(Field::Expression, &bytes);
    }

    /// Puts other bytes in the place of the expression whose first byte is here.
    pub fn replace_expression(&mut self, start: usize, expression: &[u8]) {
        let length = usize::from(self.bytes[start - 1]);
        self.bytes.splice(start..start + length, expression.iter().copied());
        self.bytes[start - 1] = expression.len() as u8;
        for (at, _) in self.fields.iter_mut().filter(|(at, _)| *at > start) {
            *at = *at - length + expression.len();
        }
    }

    fn action(&mut self, count: Field, action: &[Assignment]) {
        self.count(count, action.len());
        for assignment in action {
            self.field(Field::Target, &[assignment.target]);
            self.expression(&assignment.expression);
        }
    }

    fn rule(&mut self, rule: &Rule) {
        self.count(Field::EventCount, rule.events.len());
        self.list(Field::Event, &rule.events);
        self.action(Field::DefaultCount, &rule.default_action);
        self.field(Field::Kind, &[(rule.kind == Kind::Everywhere).into()]);
        self.expression(&rule.condition);
        self.action(Field::ActionCount, &rule.action);
    }

    fn part(&mut self, part: &Part) {
        for value in &part.opening {
            self.field(Field::OpeningValue, &value.to_le_bytes());
        }
        self.count(Field::CarriedCount, part.carried.len());
        self.list(Field::CarriedRule, &part.carried);
        self.expression(&part.limit);
    }
}
