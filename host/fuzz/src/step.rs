//! What a generated case does: calls, and writes into what the calls are lent.

use bench::engines::Engine;
use reaction::raw::{Memory, Returned, PLACE};
use reference::engine::Call;
use reference::script::{Line, LENT, LENT_BYTE};
use std::fmt;

/// A call or a write.
#[derive(Clone, Debug)]
pub enum Step {
    /// From now on the calls are lent this deck.
    Deck(Vec<u8>),
    Check,
    /// A line of a text of calls, as `replay` reads them.
    Line(Line),
    /// The pool becomes this long: cut off, or longer by zeros.
    Resize(usize),
    /// So many different updates that nothing follows in deck D, written by hand.
    Fill(usize),
}

/// What a call hands back besides memory: the numbers, the stretch of a section as offset and length, and the buffer of a
/// conversion, all of it.
#[derive(Clone, PartialEq, Eq)]
pub struct Outcome {
    pub returned: Returned,
    pub stretch: (usize, usize),
    pub buffer: Vec<u8>,
}

impl Step {
    /// The call's name; none for a write.
    pub fn name(&self) -> Option<&'static str> {
        match self {
            Step::Check => Some("check"),
            Step::Line(Line::Section { .. }) => Some("section"),
            Step::Line(Line::Start { .. }) => Some("start"),
            Step::Line(Line::Call(Call::Input { .. })) => Some("input"),
            Step::Line(Line::Call(Call::Commit { .. })) => Some("commit"),
            Step::Line(Line::Call(Call::Settle { .. })) => Some("settle"),
            Step::Line(Line::Convert { .. }) => Some("convert"),
            _ => None,
        }
    }

    /// Whether it comes to the same on an old deck and on its conversion: all but what shows the deck itself.
    pub fn hides_the_deck(&self) -> bool {
        !matches!(self, Step::Deck(_) | Step::Check | Step::Line(Line::Section { .. } | Line::Convert { .. }))
    }

    /// Makes the call, or writes; the outcome is the call's.
    pub fn perform(&self, engine: &mut dyn Engine, deck: &[u8], memory: &mut Memory) -> Option<Outcome> {
        let mut stretch = (0, 0);
        let mut buffer = Vec::new();
        let returned = match self {
            Step::Check => engine.check(deck),
            Step::Line(Line::Section { number }) => {
                let (returned, section) = engine.section(deck, *number);
                stretch = place_in(deck, section);
                returned
            }
            Step::Line(Line::Convert { length }) => {
                buffer = vec![LENT_BYTE; *length as usize];
                engine.convert(deck, &mut buffer)
            }
            Step::Line(Line::Start { length }) => {
                memory.pool.clear();
                memory.pool.resize(*length as usize, LENT);
                engine.start(deck, memory)
            }
            Step::Line(Line::Call(Call::Input { part, pairs })) => engine.input(deck, memory, *part, pairs),
            Step::Line(Line::Call(Call::Commit { place })) => engine.commit(deck, memory, *place),
            Step::Line(Line::Call(Call::Settle { budget })) => engine.settle(deck, memory, *budget),
            write => {
                write.write(memory);
                return None;
            }
        };
        Some(Outcome { returned, stretch, buffer })
    }

    fn write(&self, memory: &mut Memory) {
        match self {
            Step::Line(Line::Value { index, value }) => put(&mut memory.values, *index, *value),
            Step::Line(Line::Pool { index, value }) => put(&mut memory.pool, *index, *value),
            Step::Line(Line::Pending { number }) => memory.pending = *number,
            Step::Resize(length) => memory.pool.resize(*length, 0),
            Step::Fill(count) => fill(memory, *count),
            _ => {}
        }
    }
}

/// Writes a number if there is such a place.
fn put(numbers: &mut [i32], index: u32, value: i32) {
    if let Some(number) = numbers.get_mut(index as usize) {
        *number = value;
    }
}

fn fill(memory: &mut Memory, count: usize) {
    for (number, place) in memory.pool.as_chunks_mut::<PLACE>().0.iter_mut().take(count).enumerate() {
        let value = if number % 2 == 0 { number as i32 } else { -(number as i32) };
        place[..4].copy_from_slice(&[(number % 2) as i32, 1, 2, value]);
    }
    memory.pending = count as u32;
}

/// Where a stretch lies in the deck, as offset and length; an empty one lies nowhere.
fn place_in(deck: &[u8], stretch: &[u8]) -> (usize, usize) {
    if stretch.is_empty() {
        return (0, 0);
    }
    ((stretch.as_ptr() as usize).wrapping_sub(deck.as_ptr() as usize), stretch.len())
}

impl fmt::Display for Step {
    fn fmt(&self, f: &mut fmt::Formatter) -> fmt::Result {
        match self {
            Step::Deck(bytes) => {
                write!(f, "deck ")?;
                bytes.iter().try_for_each(|byte| write!(f, "{byte:02x}"))
            }
            Step::Check => write!(f, "check"),
            Step::Line(line) => write!(f, "{line}"),
            Step::Resize(length) => write!(f, "resize {length}"),
            Step::Fill(count) => write!(f, "fill {count}"),
        }
    }
}
