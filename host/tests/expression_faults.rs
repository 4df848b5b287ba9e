//! Faults in expressions, each with its number and exact byte, through the library and by every call that tests a deck.

use reaction::raw::{self, Memory, Returned, ANSWER, PLACE};
use reaction::{Deck, Refusal};

const DECK_D: &[u8] = include_bytes!("../../crates/replay/data/d.deck");

/// A deck's bytes, and number and place of its refusal; none where it passes.
type Case = (Vec<u8>, Option<(u32, u32)>);

/// The offset of the condition's first byte in the deck below.
const CONDITION: usize = 9;

/// Two channels, a rule of this kind with this condition and no action, and a part that opens within its limit.
fn with_condition(kind: u8, condition: &[u8]) -> Vec<u8> {
    let head = [2, b'a', b'b', 1, 1, 0, 0, kind, condition.len() as u8];
    assert_eq!(head.len(), CONDITION);
    let part = [&[0; 8][..], &[1, 0, 1, 0x11]].concat();
    [&head, condition, &[0, 1], &part].concat()
}

/// A condition, and number and place of its fault.
type Condition = (&'static [u8], u32, u32);

/// Conditions of a rule "here".
const HERE: [Condition; 16] = [
    (&[0x07], 3, 9),
    (&[0x01], 18, 9),
    (&[0x12], 19, 10),
    (&[0x11, 0x11], 19, 10),
    (&[0x12, 0x01, 0x00], 18, 10),
    (&[0x15, 0x01, 0x00, 0x01, 0x02], 3, 13),
    (&[0x15, 0x01, 0x00, 0x01], 19, 13),
    (&[0x15, 0x00, 0x05, 0x00], 19, 13),
    (&[0x15, 0x11, 0x07], 18, 10),
    (&[0x15, 0x07, 0x11], 3, 10),
    (&[0x15, 0x02, 0x00, 0x01, 0x00], 18, 10),
    (&[0x15, 0x02, 0x09, 0x01, 0x00], 18, 10),
    (&[0x15, 0x02], 18, 10),
    (&[0x15, 0x01, 0x00, 0x01, 0x01, 0x07], 19, 14),
    (&[0x02, 0x00], 18, 9),
    (&[0xFF], 3, 9),
];

/// Conditions of a rule "everywhere".
const EVERYWHERE: [Condition; 3] =
    [(&[0x15, 0x02, 0x09, 0x01, 0x00], 3, 11), (&[0x15, 0x02], 19, 11), (&[0x02, 0x09], 18, 9)];

/// Deck D with some bytes changed, cut to this length, or made longer by zeros.
fn deck_d_with(changes: &[(usize, u8)], length: usize) -> Vec<u8> {
    let mut deck = DECK_D.to_vec();
    for &(at, byte) in changes {
        deck[at] = byte;
    }
    deck.resize(length, 0);
    deck
}

/// Offsets of deck D with other bytes.
type Changes = &'static [(usize, u8)];

/// Changes to deck D, its length, and number and place of the fault.
const CHANGED: [(Changes, usize, u32, u32); 17] = [
    (&[(68, 0x02)], 75, 18, 68),
    (&[(68, 0x11)], 75, 18, 68),
    (&[(69, 3)], 75, 3, 69),
    // The deck ends inside the limit; then the limit ends with the deck, too early.
    (&[], 74, 1, 74),
    (&[(66, 7)], 74, 19, 74),
    // A byte follows the last section; then the limit's length counts it.
    (&[], 76, 5, 75),
    (&[(66, 9)], 76, 19, 75),
    // An expression is judged when all its bytes are there, by the length that stands before them.
    (&[(67, 0x07)], 74, 1, 74),
    (&[(66, 0), (67, 0x07)], 75, 2, 66),
    (&[(66, 65), (67, 0x07)], 75, 2, 66),
    // In reading order with 2 and 4.
    (&[(14, 0x07), (33, 0)], 75, 3, 14),
    (&[(8, 2), (10, 0x07)], 75, 2, 8),
    (&[(11, 2), (14, 0x11), (16, 1)], 75, 18, 14),
    (&[(11, 2), (16, 1), (17, 1), (18, 0x07)], 75, 4, 16),
    // Before 5, before 6 and before 7.
    (&[(68, 0x02)], 76, 18, 68),
    (&[(59, 10), (69, 3)], 75, 3, 69),
    (&[(12, 0), (21, 0x12)], 75, 19, 22),
];

/// All cases.
fn cases() -> Vec<Case> {
    let conditions = |kind: u8, table: &[Condition]| -> Vec<Case> {
        let case = |&(condition, number, place): &Condition| {
            (with_condition(kind, condition), Some((number, place)))
        };
        table.iter().map(case).collect()
    };
    let changed = CHANGED
        .iter()
        .map(|&(changes, length, number, place)| (deck_d_with(changes, length), Some((number, place))));
    let passing = (with_condition(1, &[0x15, 0x02, 0x00, 0x01, 0x00]), None);
    [conditions(0, &HERE), conditions(1, &EVERYWHERE), changed.collect(), vec![passing]].concat()
}

fn refusal(expected: Option<(u32, u32)>) -> Option<Refusal> {
    expected.map(|(number, place)| Refusal { number, place })
}

#[test]
fn each_has_its_number_and_byte() {
    for (deck, expected) in cases() {
        assert_eq!(Deck::check(&deck[..]).err(), refusal(expected), "{deck:02x?}");
    }
}

/// A deck that ends with an expression that ends early: the place is the deck's length.
#[test]
fn the_place_may_be_the_decks_length() {
    let deck = with_condition(0, &[0x12]);
    let cut = &deck[..CONDITION + 1];
    let refusal = Deck::check(cut).unwrap_err();
    assert_eq!((refusal.number, refusal.place as usize), (19, cut.len()));
    assert_eq!(cut.get(refusal.place as usize), None);
}

/// Memory of deck D with an update pending.
fn memory() -> Memory {
    let mut memory = Memory::new(2 * PLACE);
    assert_eq!(memory.start(DECK_D).number, 0);
    assert_eq!(memory.input(DECK_D, 0, &[0, 4]).number, 0);
    memory
}

/// What a refused call returns: number and place, and 0 for all other numbers.
fn refused(number: u32, place: u32) -> Returned {
    let mut answer = [0; ANSWER];
    answer[0] = place;
    Returned { number, answer }
}

/// Input, commit and settle leave memory as it was. A refused start leaves the pool; its state is zeros.
#[test]
fn every_call_gives_them_and_changes_nothing() {
    let before = memory();
    for (deck, expected) in cases() {
        let Some((number, place)) = expected else { continue };
        let expected = refused(number, place);
        for section in 0..4 {
            assert_eq!(raw::section(&deck, section), (expected, &[][..]), "section of {deck:02x?}");
        }
        let mut memory = before.clone();
        assert_eq!(memory.input(&deck, 0, &[0, 5]), expected, "input, {deck:02x?}");
        assert_eq!(memory.commit(&deck, 0), expected, "commit, {deck:02x?}");
        assert_eq!(memory.settle(&deck, 9), expected, "settle, {deck:02x?}");
        assert_eq!(memory, before, "{deck:02x?}");
        assert_eq!(memory.start(&deck), expected, "start, {deck:02x?}");
        let zeros = Memory { pool: before.pool.clone(), ..Memory::new(0) };
        assert_eq!(memory, zeros, "start, {deck:02x?}");
    }
}

/// They come before all that is tested of pool, state and request.
#[test]
fn they_come_before_pool_state_and_request() {
    let deck = with_condition(0, &[0x07]);
    let mut memory = Memory::new(3);
    memory.pending = 7;
    assert_eq!(memory.input(&deck, 99, &[]), refused(3, 9));
    assert_eq!(memory.commit(&deck, 99), refused(3, 9));
    assert_eq!(memory.settle(&deck, u32::MAX), refused(3, 9));
    assert_eq!(memory.start(&deck), refused(3, 9));
    assert_eq!(raw::section(&deck, 99).0, refused(3, 9));
}

#[test]
fn they_have_words() {
    let words = |number: u32| Refusal { number, place: 0 }.name();
    assert_eq!(words(3), "an expression has an unknown operator or channel");
    assert_eq!(
        words(18),
        "a value of an expression is of the wrong type, or a far channel is not allowed there"
    );
    assert_eq!(words(19), "an expression ends early or has bytes left over");
    assert_eq!(words(23), "no refusal of the engine");
}
