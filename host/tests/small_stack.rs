//! The header says how much stack a call needs: the deepest calls on a thread with nine tenths of that.

mod decks;

use decks::{action, deck, full, rule, DEEP_NUMBER, DEEP_TRUTH, NO_ACTION, OWN_0, TRUE};
use reaction::raw::{self, Memory, LONGEST_DECK, PLACE};
use reaction::Refusal;
use std::thread;

/// With any pool, and with a pool of up to `SHORT` places or none.
const STACK: usize = 640 * 1024;
const SHORT_STACK: usize = 64 * 1024;
const SHORT: usize = 2048;

/// The lengths around which an index of another length is taken.
const PLACES: [usize; 14] =
    [1, 64, 65, 256, 257, 1024, 1025, SHORT, SHORT + 1, 4096, 4097, 12_288, 12_289, 65_535];

/// The longest chain of channels, each with so many rules of this kind that set the next one, by their default action
/// if they have one.
fn chain(rules: usize, kind: u8, with_default: bool) -> Vec<u8> {
    let link = |channel: u8| {
        let set = action(&[channel + 1], &OWN_0);
        let (default_action, action) =
            if with_default { (&set[..], &NO_ACTION[..]) } else { (&NO_ACTION[..], &set[..]) };
        vec![rule(&[channel], default_action, kind, &TRUE, action); rules]
    };
    deck(32, &(0..31).flat_map(link).collect::<Vec<_>>(), 16, &TRUE)
}

/// A deck whose expressions are all as deep as they can be.
fn deepest(with_default: bool) -> Vec<u8> {
    let action = action(&[1], &DEEP_NUMBER);
    let default_action = if with_default { &action[..] } else { &NO_ACTION };
    deck(2, &[rule(&[0], default_action, 1, &DEEP_TRUTH, &action)], 2, &DEEP_TRUTH)
}

/// The deck with an unknown byte at the end of its expression that starts here.
fn with_a_fault(mut deck: Vec<u8>, expression: usize) -> Vec<u8> {
    let last = expression + usize::from(deck[expression - 1]) - 1;
    deck[last] = u8::MAX;
    let mut buffer = vec![0; LONGEST_DECK];
    let refused = raw::convert(&deck, &mut buffer).result();
    assert_eq!(refused, Err(Refusal { number: 3, place: last as u32 }));
    deck
}

/// Decks with the numbers that check and converter return.
fn decks() -> Vec<(Vec<u8>, [u32; 2])> {
    let (new, old) = (deepest(false), deepest(true));
    let limit = new.len() - DEEP_TRUTH.len();
    vec![
        (chain(1, 0, false), [0, 0]),
        (chain(1, 0, true), [20, 0]),
        // Charges beyond all bounds.
        (chain(2, 1, false), [8, 8]),
        (full(64, false), [0, 0]),
        (full(32, true), [20, 0]),
        (full(64, true), [20, 21]),
        // The action's number and the last limit, and the number of a default action.
        (with_a_fault(new.clone(), 9 + 64 + 3), [3, 3]),
        (with_a_fault(new.clone(), limit), [3, 3]),
        (with_a_fault(old.clone(), 9), [20, 3]),
        (new, [0, 0]),
        (old, [20, 0]),
    ]
}

/// All seven calls, whatever they answer; what check and converter return.
fn calls(deck: &[u8], places: usize) -> [u32; 2] {
    let mut memory = Memory::new(PLACE * places);
    raw::section(deck, 1);
    memory.start(deck);
    memory.input(deck, 0, &[0, 5]);
    memory.commit(deck, 0);
    memory.settle(deck, 65_535);
    let mut buffer = vec![0; LONGEST_DECK];
    [raw::check(deck).number, raw::convert(deck, &mut buffer).number]
}

#[test]
fn the_stack_of_the_header_is_enough() {
    for (deck, numbers) in decks() {
        for places in PLACES {
            let stack = if places <= SHORT { SHORT_STACK } else { STACK } / 10 * 9;
            let deck = deck.clone();
            let thread = thread::Builder::new().stack_size(stack).spawn(move || calls(&deck, places));
            assert_eq!(thread.expect("a thread").join().expect("no overflow"), numbers);
        }
    }
}
