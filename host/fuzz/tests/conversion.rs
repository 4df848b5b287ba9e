//! A run finds engines that are wrong about old decks.

use bench::engines::{Engine, Reference};
use bench::plain;
use fuzz::{run, Difference};
use reaction::raw::{Memory, Returned, ANSWER};
use reference::conversion::converted;
use reference::deck::{Action, Deck, Form, Kind, Rule};
use reference::expression::Truth;
use reference::refusal::{BUFFER_SHORT, DEFAULT_ACTION, RULES_RESULT, RULE_CHARGE};

/// What a wrong engine does with an old deck.
#[derive(Clone, Copy, Debug, PartialEq, Eq)]
enum Fault {
    None,
    /// The conversion has the rule's task before its default action.
    TaskFirst,
    TaskLeftOut,
    EmptyTaskLeftOut,
    DefaultEverywhere,
    /// The default action is under the rule's condition.
    DefaultUnderCondition,
    CarriedAsTheyWere,
    /// A conversion has more than 64 rules.
    MoreRules,
    BufferBeforeRules,
    /// A refused conversion writes into the buffer.
    RefusedWrites,
    RestCleared,
    /// The place of 8 has the rule's number in the conversion.
    NewNumberOfRule,
    /// The converter refuses default actions.
    DefaultRefused,
    /// All other calls take old decks.
    DefaultTaken,
    /// Check refuses a default action where nothing else is wrong.
    DefaultLast,
}

impl Fault {
    const ALL: [Fault; 14] = [
        Fault::TaskFirst,
        Fault::TaskLeftOut,
        Fault::EmptyTaskLeftOut,
        Fault::DefaultEverywhere,
        Fault::DefaultUnderCondition,
        Fault::CarriedAsTheyWere,
        Fault::MoreRules,
        Fault::BufferBeforeRules,
        Fault::RefusedWrites,
        Fault::RestCleared,
        Fault::NewNumberOfRule,
        Fault::DefaultRefused,
        Fault::DefaultTaken,
        Fault::DefaultLast,
    ];

    /// The rules that a rule becomes.
    fn becomes(self, rule: &Rule) -> Vec<Rule> {
        let task = Rule { default_action: Action::new(), ..rule.clone() };
        if rule.default_action.is_empty() {
            return vec![task];
        }
        let action = rule.default_action.clone();
        let mut default = Rule { kind: Kind::Here, condition: Truth::True, action, ..task.clone() };
        match self {
            Fault::TaskFirst => return vec![task, default],
            Fault::TaskLeftOut => return vec![default],
            Fault::EmptyTaskLeftOut if task.action.is_empty() => return vec![default],
            Fault::DefaultEverywhere => default.kind = Kind::Everywhere,
            Fault::DefaultUnderCondition => default.condition.clone_from(&task.condition),
            _ => {}
        }
        vec![default, task]
    }

    /// The conversion's bytes.
    fn converted(self, old: &Deck) -> Vec<u8> {
        let mut new = converted(old);
        new.rules = old.rules.iter().flat_map(|rule| self.becomes(rule)).collect();
        if self == Fault::CarriedAsTheyWere {
            new.parts.clone_from(&old.parts);
        }
        new.encode().bytes
    }
}

/// Number and place of a refusal, and 0 for all other numbers.
fn refused(number: u32, place: u32) -> Returned {
    let mut answer = [0; ANSWER];
    answer[0] = place;
    Returned { number, answer }
}

/// Writes to the front of the buffer, if there is room.
fn write(bytes: &[u8], buffer: &mut [u8]) -> Returned {
    let Some(front) = buffer.get_mut(..bytes.len()) else { return refused(BUFFER_SHORT, 0) };
    front.copy_from_slice(bytes);
    Returned { number: 0, answer: [0, bytes.len() as u32, 0, 0, 0] }
}

/// The place of 8 with the number that the rule has in the conversion.
fn with_new_number(old: &Deck, place: u32) -> u32 {
    let before = &old.rules[..place as usize % Deck::RULES];
    place + before.iter().filter(|rule| !rule.default_action.is_empty()).count() as u32
}

/// An engine with one fault, or none, and the engine that makes its other calls.
struct Wrong(Fault, Box<dyn Engine>);

impl Wrong {
    fn new(fault: Fault) -> Wrong {
        let calls: Box<dyn Engine> = match fault {
            Fault::DefaultTaken => Box::new(plain::Engine::for_old_decks()),
            _ => Box::new(Reference),
        };
        Wrong(fault, calls)
    }
}

impl Engine for Wrong {
    fn name(&self) -> &'static str {
        "wrong"
    }

    fn check(&mut self, deck: &[u8]) -> Returned {
        let returned = self.1.check(deck);
        match (self.0, returned.number) {
            (Fault::DefaultLast, DEFAULT_ACTION) => {
                Form::Old.check(deck).map_or_else(|other| refused(other.number, other.place), |_| returned)
            }
            _ => returned,
        }
    }

    fn section<'d>(&mut self, deck: &'d [u8], number: u32) -> (Returned, &'d [u8]) {
        self.1.section(deck, number)
    }

    fn start(&mut self, deck: &[u8], memory: &mut Memory) -> Returned {
        self.1.start(deck, memory)
    }

    fn input(&mut self, deck: &[u8], memory: &mut Memory, part: u32, pairs: &[i32]) -> Returned {
        self.1.input(deck, memory, part, pairs)
    }

    fn commit(&mut self, deck: &[u8], memory: &mut Memory, place: u32) -> Returned {
        self.1.commit(deck, memory, place)
    }

    fn settle(&mut self, deck: &[u8], memory: &mut Memory, budget: u32) -> Returned {
        self.1.settle(deck, memory, budget)
    }

    fn convert(&mut self, deck: &[u8], buffer: &mut [u8]) -> Returned {
        let before = buffer.to_vec();
        let returned = Reference.convert(deck, buffer);
        let Ok((old, _)) = Form::Old.read(deck) else {
            buffer.iter_mut().take(usize::from(self.0 == Fault::RefusedWrites)).for_each(|byte| *byte = 0);
            return returned;
        };
        match (self.0, returned.number) {
            (Fault::MoreRules, RULES_RESULT) => write(&self.0.converted(&old), buffer),
            (Fault::BufferBeforeRules, RULES_RESULT) if buffer.len() < self.0.converted(&old).len() => {
                refused(BUFFER_SHORT, 0)
            }
            (Fault::NewNumberOfRule, RULE_CHARGE) => {
                refused(RULE_CHARGE, with_new_number(&old, returned.answer[0]))
            }
            (Fault::DefaultRefused, _) if Reference.check(deck).number == DEFAULT_ACTION => {
                buffer.copy_from_slice(&before);
                Reference.check(deck)
            }
            (Fault::RestCleared, 0) => {
                buffer[returned.answer[1] as usize..].fill(0);
                returned
            }
            (_, 0) => {
                buffer.copy_from_slice(&before);
                write(&self.0.converted(&old), buffer)
            }
            _ => returned,
        }
    }
}

/// What a short run finds.
fn found(fault: Fault) -> Option<String> {
    run(vec![Box::new(Wrong::new(fault))], 20_000, 1).err().map(|Difference(text)| text)
}

#[test]
fn each_fault_is_found() {
    for fault in Fault::ALL {
        let text = found(fault).unwrap_or_else(|| panic!("{fault:?} not found"));
        let shown =
            fault == Fault::DefaultTaken || fault == Fault::DefaultLast || text.contains("\nconvert ");
        assert!(shown, "{fault:?}\n{text}");
    }
}

/// What is found above is the fault.
#[test]
fn nothing_is_found_without_a_fault() {
    assert_eq!(found(Fault::None), None);
}
