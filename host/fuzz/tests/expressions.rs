//! A run finds engines that are wrong about faults in expressions.

use bench::engines::{Engine, Reference};
use fuzz::{run, Difference};
use reaction::raw::{Memory, Returned};
use reference::refusal::{DECK_ENDS, TARGET_TWICE, UNKNOWN_BYTE, WRONG_END, WRONG_TYPE};

/// Operators of expressions.
const OWN: u8 = 1;
const FAR: u8 = 2;

/// What a wrong engine makes of a fault in an expression.
#[derive(Clone, Copy, Debug, PartialEq, Eq)]
enum Fault {
    None,
    /// All are unknown bytes.
    OneNumber,
    /// A far channel that is not allowed is an unknown one.
    FarUnknown,
    /// A value of the wrong type is an unknown one.
    TypeUnknown,
    /// An unknown byte is a value of the wrong type.
    UnknownType,
    /// An unknown channel is placed at its operator.
    ChannelAtOperator,
    /// A value of the wrong type is placed at the byte before it.
    TypeAtByteBefore,
    /// A wrong end is placed at the last byte before it.
    EndAtLastByte,
    /// The channel is judged before the type of the value.
    ChannelBeforeType,
    /// An expression is judged as far as its bytes are there.
    JudgedBeforeEnd,
    /// A target that stands twice is found after its expression.
    TargetAfterExpression,
}

impl Fault {
    const ALL: [Fault; 10] = [
        Fault::OneNumber,
        Fault::FarUnknown,
        Fault::TypeUnknown,
        Fault::UnknownType,
        Fault::ChannelAtOperator,
        Fault::TypeAtByteBefore,
        Fault::EndAtLastByte,
        Fault::ChannelBeforeType,
        Fault::JudgedBeforeEnd,
        Fault::TargetAfterExpression,
    ];

    /// The wrong answer in the place of the right one for this deck.
    fn spoil(self, deck: &[u8], returned: Returned) -> Returned {
        let (number, place) = (returned.number, returned.answer[0]);
        let byte = |at: u32| deck.get(at as usize).copied().unwrap_or(0);
        let channel = |at: u32| matches!(byte(at), OWN | FAR);
        let (number, place) = match (self, number) {
            (Fault::OneNumber, WRONG_TYPE | WRONG_END) => (UNKNOWN_BYTE, place),
            (Fault::FarUnknown, WRONG_TYPE) if byte(place) == FAR => (UNKNOWN_BYTE, place),
            (Fault::TypeUnknown, WRONG_TYPE) if byte(place) != FAR => (UNKNOWN_BYTE, place),
            (Fault::UnknownType, UNKNOWN_BYTE) => (WRONG_TYPE, place),
            (Fault::ChannelAtOperator, UNKNOWN_BYTE) if channel(place - 1) => (number, place - 1),
            (Fault::TypeAtByteBefore, WRONG_TYPE) | (Fault::EndAtLastByte, WRONG_END) => (number, place - 1),
            (Fault::ChannelBeforeType, WRONG_TYPE) if channel(place) && byte(place + 1) >= byte(0) => {
                (UNKNOWN_BYTE, place + 1)
            }
            (Fault::JudgedBeforeEnd, DECK_ENDS) => earlier_fault(deck).unwrap_or((number, place)),
            (Fault::TargetAfterExpression, TARGET_TWICE) => {
                fault_behind(deck, place).unwrap_or((number, place))
            }
            _ => (number, place),
        };
        let mut answer = returned.answer;
        answer[0] = place;
        Returned { number, answer }
    }
}

/// Number and place of a fault in an expression, if the deck is refused for one.
fn expression_fault(deck: &[u8]) -> Option<(u32, u32)> {
    let returned = Reference.check(deck);
    let found = matches!(returned.number, UNKNOWN_BYTE | WRONG_TYPE | WRONG_END);
    found.then_some((returned.number, returned.answer[0]))
}

/// The fault among the bytes that are there, of a deck that ends too soon.
fn earlier_fault(deck: &[u8]) -> Option<(u32, u32)> {
    let longer = [deck, &[0; 64]].concat();
    expression_fault(&longer).filter(|&(_, place)| (place as usize) < deck.len())
}

/// The fault in the expression of a target that stands twice: with some other target it would be found.
fn fault_behind(deck: &[u8], target: u32) -> Option<(u32, u32)> {
    let expression = target..target + 2 + 64;
    (0..deck[0]).find_map(|other| {
        let mut deck = deck.to_vec();
        deck[target as usize] = other;
        expression_fault(&deck).filter(|(_, place)| expression.contains(place))
    })
}

/// The calls of an engine.
#[derive(Clone, Copy, Debug, PartialEq, Eq)]
enum Name {
    Check,
    Section,
    Start,
    Input,
    Commit,
    Settle,
    Convert,
}

impl Name {
    const ALL: [Name; 7] =
        [Name::Check, Name::Section, Name::Start, Name::Input, Name::Commit, Name::Settle, Name::Convert];
}

/// The reference with one fault, or none, in one call or in all.
struct Wrong(Fault, Option<Name>);

impl Wrong {
    fn spoil(&self, name: Name, deck: &[u8], returned: Returned) -> Returned {
        match self.1 {
            Some(only) if only != name => returned,
            _ => self.0.spoil(deck, returned),
        }
    }
}

impl Engine for Wrong {
    fn name(&self) -> &'static str {
        "wrong"
    }

    fn check(&mut self, deck: &[u8]) -> Returned {
        self.spoil(Name::Check, deck, Reference.check(deck))
    }

    fn section<'d>(&mut self, deck: &'d [u8], number: u32) -> (Returned, &'d [u8]) {
        let (returned, stretch) = Reference.section(deck, number);
        (self.spoil(Name::Section, deck, returned), stretch)
    }

    fn start(&mut self, deck: &[u8], memory: &mut Memory) -> Returned {
        self.spoil(Name::Start, deck, Reference.start(deck, memory))
    }

    fn input(&mut self, deck: &[u8], memory: &mut Memory, part: u32, pairs: &[i32]) -> Returned {
        self.spoil(Name::Input, deck, Reference.input(deck, memory, part, pairs))
    }

    fn commit(&mut self, deck: &[u8], memory: &mut Memory, place: u32) -> Returned {
        self.spoil(Name::Commit, deck, Reference.commit(deck, memory, place))
    }

    fn settle(&mut self, deck: &[u8], memory: &mut Memory, budget: u32) -> Returned {
        self.spoil(Name::Settle, deck, Reference.settle(deck, memory, budget))
    }

    fn convert(&mut self, deck: &[u8], buffer: &mut [u8]) -> Returned {
        self.spoil(Name::Convert, deck, Reference.convert(deck, buffer))
    }
}

/// The answers that differ, the wrong one first, where a short run finds a difference.
fn found(fault: Fault, name: Option<Name>) -> Option<String> {
    let Err(Difference(text)) = run(vec![Box::new(Wrong(fault, name))], 20_000, 1) else { return None };
    text.split("\nwrong: ").nth(1).map(str::to_string)
}

#[test]
fn each_fault_is_found() {
    for fault in Fault::ALL {
        let answers = found(fault, None).unwrap_or_else(|| panic!("{fault:?} not found"));
        let numbers = [UNKNOWN_BYTE, WRONG_TYPE, WRONG_END].map(|number| format!("number: {number},"));
        assert!(numbers.iter().any(|number| answers.contains(number)), "{fault:?}\n{answers}");
    }
}

#[test]
fn a_fault_is_found_in_each_call() {
    for name in Name::ALL {
        assert!(found(Fault::OneNumber, Some(name)).is_some(), "not found in {name:?}");
    }
}

/// What is found above is the fault.
#[test]
fn nothing_is_found_without_a_fault() {
    assert_eq!(found(Fault::None, None), None);
}
