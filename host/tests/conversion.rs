//! Old decks: what the converter makes of them, and how all other calls refuse them.

mod decks;

use decks::{action, deck, full, rule, NO_ACTION, OWN_0, TRUE};
use reaction::raw::{self, Memory, Returned, ANSWER, LONGEST_DECK, LONGEST_OLD_DECK, PLACE};
use reaction::{Commit, Deck, Refusal, Rig, Settle};

const DECK_D: &[u8] = include_bytes!("../../crates/replay/data/d.deck");

/// Deck E of Req 03. Channels a, b, c; rule 0 sets b to a by its default action and sends a to the others' c; rule 1 sets
/// c to b. Part 0 carries both, part 1 carries rule 1.
#[rustfmt::skip]
const DECK_E: [u8; 65] = [
    0x03, 0x61, 0x62, 0x63,
    0x02,
    0x01, 0x00, 0x01, 0x01, 0x02, 0x01, 0x00, 0x01, 0x01, 0x11, 0x01, 0x02, 0x02, 0x01, 0x00,
    0x01, 0x01, 0x00, 0x00, 0x01, 0x11, 0x01, 0x02, 0x02, 0x01, 0x01,
    0x02,
    0, 0, 0, 0, 0, 0, 0, 0, 0, 0, 0, 0, 0x02, 0x00, 0x01, 0x01, 0x11,
    0, 0, 0, 0, 0, 0, 0, 0, 0, 0, 0, 0, 0x01, 0x01, 0x01, 0x11,
];

#[rustfmt::skip]
const CONVERTED_E: [u8; 73] = [
    0x03, 0x61, 0x62, 0x63,
    0x03,
    0x01, 0x00, 0x00, 0x00, 0x01, 0x11, 0x01, 0x01, 0x02, 0x01, 0x00,
    0x01, 0x00, 0x00, 0x01, 0x01, 0x11, 0x01, 0x02, 0x02, 0x01, 0x00,
    0x01, 0x01, 0x00, 0x00, 0x01, 0x11, 0x01, 0x02, 0x02, 0x01, 0x01,
    0x02,
    0, 0, 0, 0, 0, 0, 0, 0, 0, 0, 0, 0, 0x03, 0x00, 0x01, 0x02, 0x01, 0x11,
    0, 0, 0, 0, 0, 0, 0, 0, 0, 0, 0, 0, 0x01, 0x02, 0x01, 0x11,
];

/// Number and place of a refusal.
type Refused = (u32, u32);

/// Deck E with another byte.
fn deck_e_with(at: usize, byte: u8) -> Vec<u8> {
    let mut deck = DECK_E.to_vec();
    deck[at] = byte;
    deck
}

/// Decks, with their refusal as new ones and by the converter.
fn refused_by_both() -> [(Vec<u8>, Refused, Refused); 8] {
    [
        (deck_e_with(7, 0x05), (2, 7), (2, 7)),
        (deck_e_with(10, 0x07), (20, 7), (3, 10)),
        (deck_e_with(10, 0x02), (20, 7), (18, 10)),
        (DECK_E[..7].to_vec(), (1, 7), (1, 7)),
        (DECK_E[..8].to_vec(), (20, 7), (1, 8)),
        ([&DECK_E[..], &[0]].concat(), (20, 7), (5, 65)),
        // From a to a.
        (deck_e_with(8, 0x00), (20, 7), (7, 0)),
        (Vec::new(), (1, 0), (1, 0)),
    ]
}

/// What a refused call returns: number and place, and 0 for all other numbers.
fn returned((number, place): Refused) -> Returned {
    let mut answer = [0; ANSWER];
    answer[0] = place;
    Returned { number, answer }
}

fn refusal((number, place): Refused) -> Refusal {
    Refusal { number, place }
}

/// What the converter returns, and a buffer of so many sevens after it.
fn converted(deck: &[u8], length: usize) -> (Returned, Vec<u8>) {
    let mut buffer = vec![7; length];
    let returned = raw::convert(deck, &mut buffer);
    (returned, buffer)
}

/// R, M, N and the largest charge.
fn counts(deck: &Deck) -> [u32; 4] {
    [deck.channels(), deck.rules(), deck.parts(), deck.largest_charge()]
}

#[test]
fn deck_e_is_converted() {
    let length = CONVERTED_E.len();
    let done = Returned { number: 0, answer: [0, length as u32, 0, 0, 0] };
    assert_eq!(converted(&DECK_E, length), (done, CONVERTED_E.to_vec()));
    assert_eq!(converted(&DECK_E, length + 7), (done, [&CONVERTED_E[..], &[7; 7]].concat()));
    for short in [0, 1, length - 1] {
        assert_eq!(converted(&DECK_E, short), (returned((22, 0)), vec![7; short]));
    }
    let deck = Deck::convert(&DECK_E).expect("deck E is an old deck");
    assert_eq!((deck.bytes(), counts(&deck)), (&CONVERTED_E[..], [3, 3, 2, 2]));
}

#[test]
fn a_new_deck_stays_as_it_is() {
    for new in [DECK_D, &CONVERTED_E] {
        assert_eq!(Deck::convert(new), Deck::check(new));
        assert_eq!(converted(new, new.len()).1, new);
    }
}

#[test]
fn each_is_refused_as_a_new_deck_and_by_the_converter() {
    for (deck, as_new, by_converter) in refused_by_both() {
        assert_eq!(Deck::check(&deck[..]).unwrap_err(), refusal(as_new), "{deck:02x?}");
        assert_eq!(Deck::convert(&deck).unwrap_err(), refusal(by_converter), "{deck:02x?}");
        assert_eq!(converted(&deck, 80), (returned(by_converter), vec![7; 80]), "{deck:02x?}");
        assert_eq!(converted(&deck, 0).0, returned(by_converter), "{deck:02x?}");
    }
    assert_eq!(Deck::check(DECK_E), Err(refusal((20, 7))));
}

/// Input, commit and settle leave memory as it was. A refused start leaves the pool; its state is zeros.
#[test]
fn every_other_call_refuses_an_old_deck() {
    let expected = returned((20, 7));
    let mut before = Memory::new(3 * PLACE);
    assert_eq!(before.start(&CONVERTED_E).number, 0);
    assert_eq!(before.input(&CONVERTED_E, 0, &[0, 4]).number, 0);
    let mut memory = before.clone();
    assert_eq!(raw::check(&DECK_E), expected);
    for section in 0..4 {
        assert_eq!(raw::section(&DECK_E, section), (expected, &[][..]));
    }
    assert_eq!(memory.input(&DECK_E, 0, &[0, 5]), expected);
    assert_eq!(memory.commit(&DECK_E, 0), expected);
    assert_eq!(memory.settle(&DECK_E, 9), expected);
    assert_eq!(memory, before);
    assert_eq!(memory.start(&DECK_E), expected);
    assert_eq!(memory, Memory { pool: before.pool, ..Memory::new(0) });
}

/// What deck E gives: the default action's update comes before the one that is sent, and 3 is the charge of both.
#[test]
fn the_conversion_gives_what_the_old_deck_gave() {
    let deck = Deck::convert(&DECK_E).expect("deck E is an old deck");
    let mut rig = Rig::start(deck.clone(), 3).expect("a good pool");
    assert_eq!(rig.input(0, &[(0, 4)]), Ok(3));
    let updates = |rig: &Rig| -> Vec<(u32, Vec<(u32, i32)>)> {
        rig.pending_updates().map(|update| (update.part(), update.pairs().collect())).collect()
    };
    assert_eq!(updates(&rig), [(0, vec![(1, 4)]), (1, vec![(2, 4)])]);
    assert_eq!(rig.commit(0), Ok(Commit { applied: true, charge: 2 }));
    assert_eq!(updates(&rig), [(1, vec![(2, 4)]), (0, vec![(2, 4)])]);
    assert_eq!(rig.settle(9), Ok(Settle { commits: 2, settled: true }));
    assert_eq!([0, 1, 2].map(|channel| rig.value(0, channel)), [Some(4); 3]);
    assert_eq!([0, 1, 2].map(|channel| rig.value(1, channel)), [Some(0), Some(0), Some(4)]);
    let mut small = Rig::start(deck, 2).expect("a good pool");
    assert_eq!(small.input(0, &[(0, 4)]), Err(refusal((13, 0))));
}

/// 33 rules from a to b, the first of which have a default action.
fn with_defaults(count: usize) -> Vec<u8> {
    let default_action = action(&[1], &OWN_0);
    let rules = [
        vec![rule(&[0], &default_action, 0, &TRUE, &NO_ACTION); count],
        vec![rule(&[0], &NO_ACTION, 0, &TRUE, &NO_ACTION); 33 - count],
    ];
    deck(2, &rules.concat(), 1, &TRUE)
}

#[test]
fn at_most_64_rules_result() {
    let new = Deck::convert(&with_defaults(31)).expect("64 rules result");
    assert_eq!(new.rules(), 64);
    let carried: Vec<u8> = (0..64).collect();
    assert!(new.bytes().ends_with(&[&[64], &carried[..], &[1], &TRUE].concat()));
    // 21 comes before 22.
    for length in [0, LONGEST_OLD_DECK] {
        assert_eq!(converted(&with_defaults(32), length), (returned((21, 0)), vec![7; length]));
    }
    for count in [31, 32] {
        assert_eq!(Deck::check(with_defaults(count)), Err(refusal((20, 6))));
    }
}

/// Updates go to 15 other parts in each of six turns. The rule before has a default action, so that it would be rule 2
/// of the conversion whose charge is too large.
#[test]
fn a_charge_is_refused_by_the_old_number_of_its_rule() {
    let send = |channel: u8| rule(&[channel], &NO_ACTION, 1, &TRUE, &action(&[channel + 1], &OWN_0));
    let first = rule(&[6], &action(&[7], &OWN_0), 0, &TRUE, &NO_ACTION);
    let rules: Vec<Vec<u8>> = [first].into_iter().chain((0..6).map(send)).collect();
    assert_eq!(Deck::convert(&deck(8, &rules, 16, &TRUE)), Err(refusal((8, 1))));
}

#[test]
fn the_longest_decks() {
    let new = full(64, false);
    assert_eq!(new.len(), LONGEST_DECK);
    assert_eq!(Deck::check(&new[..]).map(|deck| deck.rules()), Ok(64));
    assert_eq!(Deck::check([&new[..], &[0]].concat()), Err(refusal((5, LONGEST_DECK as u32))));
    assert_eq!(converted(&new, LONGEST_DECK).1, new);
    let old = full(64, true);
    assert_eq!(old.len(), LONGEST_OLD_DECK);
    assert_eq!(Deck::convert(&old), Err(refusal((21, 0))));
    let longer = [&old[..], &[0]].concat();
    assert_eq!(Deck::convert(&longer), Err(refusal((5, LONGEST_OLD_DECK as u32))));
    assert_eq!(Deck::convert(&full(32, true)).map(|deck| deck.rules()), Ok(64));
}

#[test]
fn the_refusals_have_words() {
    let words = |number: u32| Refusal { number, place: 0 }.name();
    assert_eq!(words(20), "a default action is not empty");
    assert_eq!(words(21), "the conversion would have more than 64 rules");
    assert_eq!(words(22), "the buffer is shorter than the new deck");
}
