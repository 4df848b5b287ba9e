//! A null pointer is allowed where the length is 0.

use reaction::raw::{
    self, reaction_check, reaction_convert, reaction_input, reaction_section, reaction_start, Memory, Stretch,
};
use std::ptr::{null, null_mut};

const DECK: &[u8] = include_bytes!("../../crates/replay/data/d.deck");

#[test]
fn no_deck() {
    let mut answer = [7; raw::ANSWER];
    let mut stretch = Stretch { bytes: DECK.as_ptr(), length: 3 };
    let mut buffer = [7; 3];
    // Safety: what has a length is lent whole.
    unsafe {
        assert_eq!((reaction_check(null(), 0, answer.as_mut_ptr()), answer), (1, [0; 5]));
        answer = [7; raw::ANSWER];
        assert_eq!(reaction_section(null(), 0, 0, &mut stretch, answer.as_mut_ptr()), 1);
        assert_eq!((stretch.length, answer), (0, [0; 5]));
        answer = [7; raw::ANSWER];
        assert_eq!(reaction_convert(null(), 0, buffer.as_mut_ptr(), 3, answer.as_mut_ptr()), 1);
    }
    assert_eq!((buffer, answer), ([7; 3], [0; 5]));
}

#[test]
fn no_buffer() {
    for (deck, refused) in [(DECK, 22), (&DECK[..0], 1)] {
        let mut answer = [7; raw::ANSWER];
        // Safety: what has a length is lent whole.
        let number =
            unsafe { reaction_convert(deck.as_ptr(), deck.len(), null_mut(), 0, answer.as_mut_ptr()) };
        assert_eq!((number, answer), (refused, [0; 5]));
    }
}

/// A stretch as the header asks for it before the call.
#[test]
fn no_stretch() {
    for (number, refused, length) in [(0, 0, 4), (3, 15, 0)] {
        let mut answer = [7; raw::ANSWER];
        let mut stretch = Stretch { bytes: null(), length: 0 };
        // Safety: what has a length is lent whole.
        let returned =
            unsafe { reaction_section(DECK.as_ptr(), DECK.len(), number, &mut stretch, answer.as_mut_ptr()) };
        assert_eq!((returned, stretch.length, answer), (refused, length, [0; 5]));
        assert_eq!(stretch.bytes, DECK.as_ptr());
    }
}

#[test]
fn no_pool() {
    let (mut answer, mut values, mut pending) = ([7; raw::ANSWER], [7; raw::VALUES], 7);
    // Safety: what has a length is lent whole.
    let number = unsafe {
        let (values, answer) = (values.as_mut_ptr(), answer.as_mut_ptr());
        reaction_start(DECK.as_ptr(), DECK.len(), null_mut(), 0, values, &mut pending, answer)
    };
    assert_eq!((number, answer, values, pending), (9, [0; 5], [0; raw::VALUES], 0));
}

#[test]
fn no_pairs() {
    let mut memory = Memory::new(20);
    assert_eq!(memory.start(DECK).number, 0);
    let before = memory.clone();
    let mut answer = [7; raw::ANSWER];
    // Safety: what has a length is lent whole.
    let number = unsafe {
        reaction_input(
            DECK.as_ptr(),
            DECK.len(),
            memory.pool.as_mut_ptr(),
            memory.pool.len(),
            memory.values.as_mut_ptr(),
            &mut memory.pending,
            0,
            null(),
            0,
            answer.as_mut_ptr(),
        )
    };
    assert_eq!((number, answer), (12, [0; 5]));
    assert_eq!(memory, before);
}
