//! A run finds engines that are wrong about inputs and limits.

use bench::engines::{Engine, Reference};
use fuzz::{run, Difference};
use reaction::raw::{Memory, Returned, ANSWER, CHANNELS, PLACE};
use reference::deck::Deck;
use reference::expression::Truth;
use reference::refusal::{INPUT_CHARGE, INPUT_LIST, INPUT_OUTSIDE_LIMIT};

/// What a wrong engine does with the limit of an input's part.
#[derive(Clone, Copy, Debug, PartialEq, Eq)]
enum Fault {
    None,
    Untested,
    TestedAfterRoom,
    TestedBeforeList,
    TestedOnOldValues,
    TestedAfterEachPair,
    TestedOnlyWhereValuesChange,
    TestedAtAllParts,
    ValuesSetAllTheSame,
    /// Commits to a part that is outside its limit are applied.
    CommitsTakenOutside,
}

impl Fault {
    const ALL: [Fault; 9] = [
        Fault::Untested,
        Fault::TestedAfterRoom,
        Fault::TestedBeforeList,
        Fault::TestedOnOldValues,
        Fault::TestedAfterEachPair,
        Fault::TestedOnlyWhereValuesChange,
        Fault::TestedAtAllParts,
        Fault::ValuesSetAllTheSame,
        Fault::CommitsTakenOutside,
    ];
}

/// The deck with limits that are always met; a deck that does not pass stays as it is.
fn without_limits(deck: &[u8]) -> Vec<u8> {
    match (reference::check(deck), Deck::read(deck)) {
        (Ok(_), Ok((mut read, _))) => {
            read.parts.iter_mut().for_each(|part| part.limit = Truth::True);
            read.encode().bytes
        }
        _ => deck.to_vec(),
    }
}

/// Whether an input would be refused for its part's limit.
fn outside(deck: &[u8], memory: &Memory, part: u32, pairs: &[i32]) -> bool {
    Reference.input(deck, &mut memory.clone(), part, pairs).number == INPUT_OUTSIDE_LIMIT
}

/// Whether a part is outside its limit as it stands: an input that changes nothing would be refused.
fn outside_already(deck: &[u8], memory: &Memory, part: u32) -> bool {
    let first = memory.values.get(CHANNELS * part as usize).copied().unwrap_or(0);
    outside(deck, memory, part, &[0, first])
}

/// The pairs without those whose channel came before.
fn different(pairs: &[i32]) -> Vec<i32> {
    let mut list: Vec<i32> = Vec::new();
    for pair in pairs.chunks_exact(2) {
        if list.chunks_exact(2).all(|other| other[0] != pair[0]) {
            list.extend(pair);
        }
    }
    list
}

fn changes(memory: &Memory, part: u32, pairs: &[i32]) -> bool {
    pairs.chunks_exact(2).any(|pair| memory.values[CHANNELS * part as usize + pair[0] as usize] != pair[1])
}

/// The reference with one fault, or none.
struct Wrong(Fault);

impl Wrong {
    /// Whether an input is refused by 17, where without limits it comes to this number.
    fn stops(&self, number: u32, deck: &[u8], memory: &Memory, part: u32, pairs: &[i32]) -> bool {
        let good = number == 0 || number == INPUT_CHARGE;
        let outside = |pairs: &[i32]| outside(deck, memory, part, pairs);
        match self.0 {
            Fault::Untested => false,
            Fault::TestedAfterRoom => number == 0 && outside(pairs),
            Fault::TestedBeforeList => (good || number == INPUT_LIST) && outside(&different(pairs)),
            Fault::TestedOnOldValues => good && outside_already(deck, memory, part),
            Fault::TestedAfterEachPair => {
                good && (2..=pairs.len()).step_by(2).any(|length| outside(&pairs[..length]))
            }
            Fault::TestedOnlyWhereValuesChange => good && outside(pairs) && changes(memory, part, pairs),
            Fault::TestedAtAllParts => {
                let mut others = (0..Deck::PARTS as u32).filter(|&other| other != part);
                good && (outside(pairs) || others.any(|other| outside_already(deck, memory, other)))
            }
            Fault::None | Fault::ValuesSetAllTheSame | Fault::CommitsTakenOutside => outside(pairs),
        }
    }
}

impl Engine for Wrong {
    fn name(&self) -> &'static str {
        "wrong"
    }

    fn check(&mut self, deck: &[u8]) -> Returned {
        Reference.check(deck)
    }

    fn section<'d>(&mut self, deck: &'d [u8], number: u32) -> (Returned, &'d [u8]) {
        Reference.section(deck, number)
    }

    fn start(&mut self, deck: &[u8], memory: &mut Memory) -> Returned {
        Reference.start(deck, memory)
    }

    fn input(&mut self, deck: &[u8], memory: &mut Memory, part: u32, pairs: &[i32]) -> Returned {
        let mut after = memory.clone();
        let returned = Reference.input(&without_limits(deck), &mut after, part, pairs);
        if !self.stops(returned.number, deck, memory, part, pairs) {
            *memory = after;
            return returned;
        }
        if self.0 == Fault::ValuesSetAllTheSame {
            memory.values = after.values;
        }
        Returned { number: INPUT_OUTSIDE_LIMIT, answer: [0; ANSWER] }
    }

    fn commit(&mut self, deck: &[u8], memory: &mut Memory, place: u32) -> Returned {
        let part = memory.pool.get(PLACE * place as usize).map_or(0, |&part| part as u32);
        if self.0 == Fault::CommitsTakenOutside && outside_already(deck, memory, part) {
            return Reference.commit(&without_limits(deck), memory, place);
        }
        Reference.commit(deck, memory, place)
    }

    fn settle(&mut self, deck: &[u8], memory: &mut Memory, budget: u32) -> Returned {
        Reference.settle(deck, memory, budget)
    }

    fn convert(&mut self, deck: &[u8], buffer: &mut [u8]) -> Returned {
        Reference.convert(deck, buffer)
    }
}

#[test]
fn each_fault_is_found() {
    for fault in Fault::ALL {
        let Err(Difference(text)) = run(vec![Box::new(Wrong(fault))], 20_000, 1) else {
            panic!("{fault:?} not found")
        };
        let answers = text.split("\nwrong: ").nth(1).unwrap_or_default();
        assert!(answers.contains("number: 17") || fault == Fault::CommitsTakenOutside, "{fault:?}\n{text}");
    }
}

/// What is found above is the fault.
#[test]
fn nothing_is_found_without_a_fault() {
    assert!(run(vec![Box::new(Wrong(Fault::None))], 20_000, 1).is_ok());
}
