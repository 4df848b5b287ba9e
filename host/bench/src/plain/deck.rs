//! The pass over a deck's bytes into tables, with refusals 1 to 6 and 18 to 20.

use super::expression::{is_number, is_truth, truth, Scope, Values};
use super::faults::{first_fault, Fault, Type};
use reaction::Refusal;

pub const CHANNELS: usize = 32;
pub const RULES: usize = 64;
pub const PARTS: usize = 16;

/// The forms of a deck: the rules of an old one may have default actions.
#[derive(Clone, Copy, PartialEq, Eq)]
pub enum Form {
    Old,
    New,
}

/// What a rule is: sets as bits, expressions and actions as offsets.
#[derive(Clone, Copy, Default)]
pub struct Rule {
    pub events: u32,
    pub default_targets: u32,
    pub targets: u32,
    pub everywhere: bool,
    pub default_at: usize,
    pub condition_at: usize,
    pub action_at: usize,
}

#[derive(Clone, Copy, Default)]
pub struct Part {
    pub carried: u64,
    pub opening_at: usize,
    pub limit_at: usize,
}

/// What a deck says. Only the first entries are of this deck, as many as the counts say.
pub struct Tables {
    pub channels: usize,
    pub rules: usize,
    pub parts: usize,
    pub rules_at: usize,
    pub parts_at: usize,
    pub rule: [Rule; RULES],
    pub part: [Part; PARTS],
    /// For each channel the carried rules that have it among their events.
    pub listeners: [u64; CHANNELS],
    /// The rules that some part carries.
    pub carried: u64,
}

/// The numbers of the bits that are set, in rising order.
pub fn bits(mut set: u64) -> impl Iterator<Item = usize> {
    std::iter::from_fn(move || {
        let bit = set.trailing_zeros();
        set &= set.wrapping_sub(1);
        (bit < 64).then_some(bit as usize)
    })
}

impl Tables {
    pub const fn new() -> Tables {
        let rule = Rule {
            events: 0,
            default_targets: 0,
            targets: 0,
            everywhere: false,
            default_at: 0,
            condition_at: 0,
            action_at: 0,
        };
        Tables {
            channels: 0,
            rules: 0,
            parts: 0,
            rules_at: 0,
            parts_at: 0,
            rule: [rule; RULES],
            part: [Part { carried: 0, opening_at: 0, limit_at: 0 }; PARTS],
            listeners: [0; CHANNELS],
            carried: 0,
        }
    }

    /// Reads a deck of this form, first fault first (1 to 4, 18 and 19, of a new deck 20), then tests that nothing
    /// follows (5), and the limits on the opening values (6).
    pub fn read(&mut self, deck: &[u8], form: Form) -> Result<(), Refusal> {
        let mut reader = Reader { deck, at: 0, form };
        self.channels = reader.number(1, CHANNELS)?;
        for _ in 0..self.channels {
            reader.number(33, 126)?;
        }
        self.rules_at = reader.at;
        self.rules = reader.number(0, RULES)?;
        for rule in 0..self.rules {
            self.rule[rule] = reader.rule(self.channels)?;
        }
        self.parts_at = reader.at;
        self.parts = reader.number(1, PARTS)?;
        for part in 0..self.parts {
            self.part[part] = reader.part(self.channels, self.rules)?;
        }
        if reader.at < deck.len() {
            return Err(reader.refusal(5));
        }
        self.note_listeners();
        match (0..self.parts).find(|&part| !self.opens_inside(deck, part)) {
            Some(part) => Err(Refusal { number: 6, place: part as u32 }),
            None => Ok(()),
        }
    }

    fn note_listeners(&mut self) {
        self.listeners[..self.channels].fill(0);
        self.carried = self.part[..self.parts].iter().fold(0, |set, part| set | part.carried);
        for rule in bits(self.carried) {
            for event in bits(self.rule[rule].events.into()) {
                self.listeners[event] |= 1 << rule;
            }
        }
    }

    /// The values that a part opens with; 0 beyond the known channels.
    pub fn opening(&self, deck: &[u8], part: usize) -> Values {
        let mut values = [0; CHANNELS];
        let bytes = &deck[self.part[part].opening_at..][..4 * self.channels];
        for (value, bytes) in values.iter_mut().zip(bytes.as_chunks().0) {
            *value = i32::from_le_bytes(*bytes);
        }
        values
    }

    fn opens_inside(&self, deck: &[u8], part: usize) -> bool {
        let opening = self.opening(deck, part);
        self.within_limit(deck, part, &opening)
    }

    /// Whether values meet a part's limit.
    pub fn within_limit(&self, deck: &[u8], part: usize, values: &Values) -> bool {
        truth(deck, self.part[part].limit_at, values, values).0
    }

    /// The rules with a default action.
    pub fn with_default(&self) -> u64 {
        let has_default = |&rule: &usize| self.rule[rule].default_targets != 0;
        (0..self.rules).filter(has_default).fold(0, |set, rule| set | 1 << rule)
    }

    /// The offset of a rule, from its event count on; that of the parts for the number behind the last rule.
    pub fn rule_at(&self, rule: usize) -> usize {
        if rule == self.rules {
            return self.parts_at;
        }
        let Rule { events, default_at, .. } = self.rule[rule];
        default_at - events.count_ones() as usize - 1
    }

    /// The carried rules that have one of these channels among their events.
    pub fn listening(&self, channels: u32) -> u64 {
        bits(channels.into()).fold(0, |set, channel| set | self.listeners[channel])
    }
}

/// A deck, the offset of the next unread byte, and the form that it is read in.
struct Reader<'a> {
    deck: &'a [u8],
    at: usize,
    form: Form,
}

impl Reader<'_> {
    /// A refusal whose place is the next byte.
    #[cold]
    fn refusal(&self, number: u32) -> Refusal {
        Refusal { number, place: self.at as u32 }
    }

    #[cold]
    fn ended(&self) -> Refusal {
        Refusal { number: 1, place: self.deck.len() as u32 }
    }

    /// A byte from `low` to `high`.
    fn number(&mut self, low: usize, high: usize) -> Result<usize, Refusal> {
        let Some(&byte) = self.deck.get(self.at) else { return Err(self.ended()) };
        let number = usize::from(byte);
        if number < low || number > high {
            return Err(self.refusal(2));
        }
        self.at += 1;
        Ok(number)
    }

    fn skip(&mut self, length: usize) -> Result<(), Refusal> {
        if self.deck.len() - self.at < length {
            return Err(self.ended());
        }
        self.at += length;
        Ok(())
    }

    /// The set of so many strictly rising numbers below the bound.
    fn rising(&mut self, count: usize, bound: usize) -> Result<u64, Refusal> {
        let mut set = 0;
        let mut low = 0;
        for _ in 0..count {
            let Some(&byte) = self.deck.get(self.at) else { return Err(self.ended()) };
            let number = usize::from(byte);
            if number < low || number >= bound {
                return Err(self.refusal(2));
            }
            set |= 1 << number;
            low = number + 1;
            self.at += 1;
        }
        Ok(set)
    }

    /// The offset of an expression's first byte. It is tested when all its bytes are there.
    fn expression(
        &mut self,
        wanted: Type,
        scope: Scope,
        keeps_rules: impl Fn(&[u8]) -> bool,
    ) -> Result<usize, Refusal> {
        let length = self.number(1, 64)?;
        let start = self.at;
        self.skip(length)?;
        let bytes = &self.deck[start..self.at];
        if keeps_rules(bytes) {
            Ok(start)
        } else {
            let Fault { number, offset } = first_fault(bytes, wanted, scope);
            Err(Refusal { number, place: (start + offset) as u32 })
        }
    }

    fn number_expression(&mut self, scope: Scope) -> Result<usize, Refusal> {
        self.expression(Type::Number, scope, |bytes| is_number(bytes, scope))
    }

    fn truth_expression(&mut self, scope: Scope) -> Result<usize, Refusal> {
        self.expression(Type::Truth, scope, |bytes| is_truth(bytes, scope))
    }

    /// The set of an action's targets.
    fn action(&mut self, scope: Scope) -> Result<u32, Refusal> {
        let mut targets = 0;
        for _ in 0..self.number(0, 4)? {
            let target = self.number(0, usize::from(scope.own) - 1)?;
            if targets >> target & 1 == 1 {
                return Err(Refusal { number: 4, place: self.at as u32 - 1 });
            }
            targets |= 1 << target;
            self.number_expression(scope)?;
        }
        Ok(targets)
    }

    /// The set of a default action's targets; a new deck has none, which its count says.
    fn default_action(&mut self, scope: Scope) -> Result<u32, Refusal> {
        if self.form == Form::Old {
            return self.action(scope);
        }
        match self.number(0, 4)? {
            0 => Ok(0),
            _ => Err(Refusal { number: 20, place: self.at as u32 - 1 }),
        }
    }

    fn rule(&mut self, channels: usize) -> Result<Rule, Refusal> {
        let count = self.number(1, 8)?;
        let events = self.rising(count, channels)? as u32;
        let scope = Scope { own: channels as u16, far: 0 };
        let default_at = self.at;
        let default_targets = self.default_action(scope)?;
        let everywhere = self.number(0, 1)? == 1;
        let scope = Scope { far: if everywhere { scope.own } else { 0 }, ..scope };
        let condition_at = self.truth_expression(scope)?;
        let action_at = self.at;
        let targets = self.action(scope)?;
        Ok(Rule { events, default_targets, targets, everywhere, default_at, condition_at, action_at })
    }

    fn part(&mut self, channels: usize, rules: usize) -> Result<Part, Refusal> {
        let opening_at = self.at;
        self.skip(4 * channels)?;
        let count = self.number(0, rules)?;
        let carried = self.rising(count, rules)?;
        let scope = Scope { own: channels as u16, far: 0 };
        let limit_at = self.truth_expression(scope)?;
        Ok(Part { carried, opening_at, limit_at })
    }
}
