//! What is measured.

use crate::decks::{bounded, cascade, figure, old_figure, BOUND, ENTERED, LAST, MOST_BOUNDS};
use crate::engines::{Engine, Reference};
use reaction::raw::{Memory, Returned, LONGEST_DECK, PLACE};
use reaction::Refusal;
use reference::deck::{Deck, Form};
use reference::generate::decks::{longest, longest_of};
use reference::random::Random;
use reference::refusal::{INPUT_OUTSIDE_LIMIT, UNKNOWN_BYTE};
use reference::stored::deck_d;

/// A call with what it names.
#[derive(Clone, Debug)]
pub enum Call {
    Check,
    Start,
    Input { part: u32, pairs: Vec<i32> },
    Commit { place: u32 },
    Settle { budget: u32 },
    Convert,
}

/// What a call is lent besides the deck: memory, or a buffer for a conversion.
#[derive(Clone, PartialEq, Eq)]
pub struct Lent {
    pub memory: Memory,
    pub buffer: Vec<u8>,
}

impl Lent {
    /// No memory and no buffer.
    pub fn nothing() -> Lent {
        Lent::from(Memory::new(0))
    }
}

impl From<Memory> for Lent {
    fn from(memory: Memory) -> Lent {
        Lent { memory, buffer: Vec::new() }
    }
}

impl Call {
    /// Makes the call.
    pub fn make(&self, engine: &mut dyn Engine, deck: &[u8], lent: &mut Lent) -> Returned {
        let Lent { memory, buffer } = lent;
        match self {
            Call::Check => engine.check(deck),
            Call::Start => engine.start(deck, memory),
            Call::Input { part, pairs } => engine.input(deck, memory, *part, pairs),
            Call::Commit { place } => engine.commit(deck, memory, *place),
            Call::Settle { budget } => engine.settle(deck, memory, *budget),
            Call::Convert => engine.convert(deck, buffer),
        }
    }
}

/// A call on a deck and what else it is lent.
pub struct Case {
    /// What it is, for the table.
    pub name: String,
    /// How large it is, in its group's unit.
    pub size: usize,
    pub deck: Vec<u8>,
    pub lent: Lent,
    pub call: Call,
    /// The refusal that it comes to, none where it is accepted.
    pub refused: Option<Refusal>,
}

/// Cases that differ in size.
pub struct Group {
    pub name: &'static str,
    /// What a case's size counts.
    pub unit: &'static str,
    pub cases: Vec<Case>,
}

/// All that is measured.
pub fn groups() -> Vec<Group> {
    vec![
        Group { name: "check", unit: "byte", cases: checks() },
        Group { name: "start, by places of the pool", unit: "place", cases: starts() },
        Group { name: "input, by parts, nothing pending", unit: "part", cases: inputs_by_parts(0) },
        Group { name: "input, by parts, 1,000 pending", unit: "part", cases: inputs_by_parts(1000) },
        Group { name: "input, by rules, nothing pending", unit: "rule", cases: inputs_by_rules(0) },
        Group { name: "input, by rules, 1,000 pending", unit: "rule", cases: inputs_by_rules(1000) },
        Group { name: "input, by pending updates", unit: "pending", cases: inputs_by_pending() },
        Group { name: "input, by bounds in the part's limit", unit: "bound", cases: inputs_by_bounds() },
        Group { name: "commit of place 0, by pending updates", unit: "pending", cases: commits(|_| 0) },
        Group {
            name: "commit of a place in the middle",
            unit: "pending",
            cases: commits(|pending| pending / 2),
        },
        Group { name: "commit of the last place", unit: "pending", cases: commits(|pending| pending - 1) },
        Group {
            name: "commit with 1 pending, by places of the pool",
            unit: "place",
            cases: commits_by_places(),
        },
        Group { name: "settle of updates that nothing follows", unit: "commit", cases: settles() },
        Group { name: "settle of one update that others follow", unit: "commit", cases: cascades() },
        Group { name: "convert", unit: "byte", cases: conversions() },
    ]
}

/// The last one is as long as the one before, which passes, so that the search for a fault shows in its time.
fn checks() -> Vec<Case> {
    let longest = longest(&mut Random::new(1)).encode().bytes;
    let decks = [
        ("deck D", deck_d()),
        ("2 parts, 4 rules", figure(2, 4, 1).encode().bytes),
        ("4 parts, 16 rules", figure(4, 16, 1).encode().bytes),
        ("16 parts, 64 rules", figure(16, 64, 1).encode().bytes),
        ("the same, 2 terms", figure(16, 64, 2).encode().bytes),
        ("the same, 4 terms", figure(16, 64, 4).encode().bytes),
        ("the longest deck", longest.clone()),
    ];
    let (faulty, refusal) = fault_in_last_byte(longest);
    let refused = Case { refused: Some(refusal), ..checked("the same, a fault in its last byte", faulty) };
    decks.into_iter().map(|(name, deck)| checked(name, deck)).chain([refused]).collect()
}

/// The check of a deck that passes.
fn checked(name: &str, deck: Vec<u8>) -> Case {
    Case {
        name: format!("{name}: {} bytes", deck.len()),
        size: deck.len(),
        deck,
        lent: Lent::nothing(),
        call: Call::Check,
        refused: None,
    }
}

/// Deck D comes out as it was; of all others each rule becomes two.
fn conversions() -> Vec<Case> {
    let mut longest = longest_of(&mut Random::new(1), Form::Old);
    longest.rules.truncate(Deck::RULES / 2);
    longest.parts.iter_mut().for_each(|part| part.carried.truncate(Deck::RULES / 2));
    let decks = [
        ("deck D", deck_d()),
        ("4 parts, 8 rules", old_figure(4, 8, 1).encode().bytes),
        ("16 parts, 32 rules", old_figure(16, 32, 1).encode().bytes),
        ("the longest with 32 rules", longest.encode().bytes),
    ];
    decks.into_iter().map(|(name, deck)| converted(name, deck)).collect()
}

fn converted(name: &str, deck: Vec<u8>) -> Case {
    let lent = Lent { buffer: vec![0; LONGEST_DECK], ..Lent::nothing() };
    Case { lent, call: Call::Convert, ..checked(name, deck) }
}

/// The deck with a last byte that is no operator and no channel, and its refusal: the last limit ends with a channel.
fn fault_in_last_byte(mut deck: Vec<u8>) -> (Vec<u8>, Refusal) {
    let last = deck.len() - 1;
    deck[last] = u8::MAX;
    (deck, Refusal { number: UNKNOWN_BYTE, place: last as u32 })
}

/// A number of things, for the table.
fn counted(number: usize, thing: &str) -> String {
    format!("{number} {thing}{}", if number == 1 { "" } else { "s" })
}

/// The memory of a deck that was started, with room for so many updates.
fn started(deck: &[u8], places: usize) -> Memory {
    let mut memory = Memory::new(PLACE * places);
    Reference.start(deck, &mut memory);
    memory
}

fn starts() -> Vec<Case> {
    let deck = figure(4, 16, 1).encode().bytes;
    let case = |places: usize| Case {
        name: counted(places, "place"),
        size: places,
        lent: started(&deck, places).into(),
        deck: deck.clone(),
        call: Call::Start,
        refused: None,
    };
    [10, 1000, 65_535].map(case).into()
}

/// An input of all entered channels at part 0.
fn enter() -> Call {
    let pairs = (ENTERED..ENTERED + 8).flat_map(|channel| [channel.into(), 100 + i32::from(channel)]);
    Call::Input { part: 0, pairs: pairs.collect() }
}

/// An input with so many updates pending, and room for those that follow.
fn entered(name: String, size: usize, deck: &Deck, count: usize) -> Case {
    let memory = pending(deck, count, count + 1000);
    Case { name, size, deck: deck.encode().bytes, lent: memory.into(), call: enter(), refused: None }
}

fn inputs_by_parts(pending: usize) -> Vec<Case> {
    let case = |parts: usize| entered(counted(parts, "part"), parts, &figure(parts, 16, 1), pending);
    [1, 2, 4, 8, 16].map(case).into()
}

fn inputs_by_rules(pending: usize) -> Vec<Case> {
    let case = |rules: usize| entered(counted(rules, "rule"), rules, &figure(8, rules, 1), pending);
    [1, 4, 16, 64].map(case).into()
}

fn inputs_by_pending() -> Vec<Case> {
    let deck = figure(4, 16, 1);
    let case = |pending: usize| entered(format!("{pending} pending"), pending.max(1), &deck, pending);
    [0, 1, 10, 100, 1000, 10_000, 60_000].map(case).into()
}

/// The last one goes past the last bound, so that the whole limit is read.
fn inputs_by_bounds() -> Vec<Case> {
    let case = |bounds: u8| entered(counted(bounds.into(), "bound"), bounds.into(), &bounded(bounds), 0);
    let mut past = case(MOST_BOUNDS);
    past.name.push_str(", refused at its limit");
    past.call = Call::Input { part: 0, pairs: vec![i32::from(ENTERED + MOST_BOUNDS - 1), BOUND] };
    past.refused = Some(Refusal { number: INPUT_OUTSIDE_LIMIT, place: 0 });
    [1, 4, MOST_BOUNDS].into_iter().map(case).chain([past]).collect()
}

/// Memory with so many different pending updates that nothing follows, so that each has a charge of 1.
fn pending(deck: &Deck, pending: usize, places: usize) -> Memory {
    let mut memory = started(&deck.encode().bytes, places);
    for (number, place) in memory.pool.as_chunks_mut::<PLACE>().0.iter_mut().take(pending).enumerate() {
        let channel = i32::from(LAST) + (number / 3 % 8) as i32;
        place[..4].copy_from_slice(&[(number % deck.parts.len()) as i32, 1, channel, number as i32 + 1]);
    }
    memory.pending = pending as u32;
    memory
}

/// The commit of an update that others follow, as far as there is room for them beside the pending ones.
fn committed(name: String, size: usize, count: usize, places: usize, place: usize) -> Case {
    let deck = figure(4, 16, 1);
    let mut memory = pending(&deck, count, places);
    if places > count {
        memory.pool[PLACE * place + 2] = i32::from(ENTERED);
    }
    let call = Call::Commit { place: place as u32 };
    Case { name, size, deck: deck.encode().bytes, lent: memory.into(), call, refused: None }
}

fn commits(place: impl Fn(usize) -> usize) -> Vec<Case> {
    let case = |count: usize| {
        let places = (count + 100).min(65_535);
        committed(format!("{count} pending"), count, count, places, place(count))
    };
    [1, 10, 100, 1000, 10_000, 65_535].map(case).into()
}

fn commits_by_places() -> Vec<Case> {
    let case = |places: usize| committed(counted(places, "place"), places, 1, places, 0);
    [100, 1000, 10_000, 65_535].map(case).into()
}

fn settles() -> Vec<Case> {
    let deck = figure(4, 16, 1);
    let case = |count: usize| Case {
        name: counted(count, "commit"),
        size: count,
        deck: deck.encode().bytes,
        lent: pending(&deck, count, count).into(),
        call: Call::Settle { budget: 65_535 },
        refused: None,
    };
    [1, 10, 100, 1000, 10_000, 65_535].map(case).into()
}

/// 1 + 15 + 15 15 and so on commits.
fn cascades() -> Vec<Case> {
    let case = |layers: u8| {
        let deck = cascade(layers).encode().bytes;
        let commits: usize = (0..u32::from(layers)).map(|layer| 15_usize.pow(layer)).sum();
        let mut memory = started(&deck, commits);
        memory.pool[..4].copy_from_slice(&[0, 1, 0, 1]);
        memory.pending = 1;
        Case {
            name: counted(commits, "commit"),
            size: commits,
            deck,
            lent: memory.into(),
            call: Call::Settle { budget: 65_535 },
            refused: None,
        }
    };
    [1, 2, 3, 4, 5].map(case).into()
}
