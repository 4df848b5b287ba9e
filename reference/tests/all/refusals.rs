//! Every refusal but those inside expressions (3, 18, 19), with its number and place, and the order
//! among them.

use crate::common::{assign, copy, deck_d, deck_d_with, deck_e_with, deck_of, fresh, old_check_line};
use reference::deck::{Deck, Form, Kind, Rule};
use reference::engine::{check_line, Answer, Call};
use reference::expression::{Number, Truth};
use reference::generate::heavy::exact;
use reference::random::Random;
use reference::script::Host;
use reference::{section, start, Refusal, State};

/// What deck D with these bytes changed is told.
fn assert_changed(cases: &[(&[(usize, u8)], &str)]) {
    for (changes, line) in cases {
        assert_eq!(check_line(&deck_d_with(changes)), *line, "{changes:?}");
    }
}

fn assert_lines(cases: &[(&str, Deck, &str)]) {
    for (name, deck, line) in cases {
        assert_eq!(check_line(&deck.encode().bytes), *line, "{name}");
    }
}

#[test]
fn number_1_every_cut() {
    for length in 0..75 {
        assert_eq!(check_line(&deck_d()[..length]), format!("refused 1 {length}"));
    }
}

#[test]
fn number_2_counts_and_numbers_out_of_range() {
    assert_changed(&[
        (&[(0, 0)], "refused 2 0"),
        (&[(0, 33)], "refused 2 0"),
        (&[(1, 32)], "refused 2 1"),
        (&[(3, 127)], "refused 2 3"),
        (&[(4, 65)], "refused 2 4"),
        (&[(5, 0)], "refused 2 5"),
        (&[(5, 9)], "refused 2 5"),
        (&[(6, 3)], "refused 2 6"),
        (&[(7, 5)], "refused 2 7"),
        (&[(8, 2)], "refused 2 8"),
        (&[(9, 0)], "refused 2 9"),
        (&[(9, 65)], "refused 2 9"),
        (&[(11, 5)], "refused 2 11"),
        (&[(12, 3)], "refused 2 12"),
        (&[(13, 0)], "refused 2 13"),
        (&[(33, 0)], "refused 2 33"),
        (&[(33, 17)], "refused 2 33"),
        (&[(46, 3)], "refused 2 46"),
        (&[(47, 2)], "refused 2 47"),
        (&[(66, 65)], "refused 2 66"),
    ]);
}

#[test]
fn number_2_lists_that_do_not_rise() {
    // Two events 0 0; carried 0 0; carried 1 1.
    assert_changed(&[
        (&[(5, 2)], "refused 2 7"),
        (&[(48, 0)], "refused 2 48"),
        (&[(47, 1)], "refused 2 48"),
        (&[(64, 1)], "refused 2 65"),
    ]);
    // The byte is judged when it is read, even where the deck ends right after it.
    assert_eq!(check_line(&deck_d_with(&[(5, 2)])[..8]), "refused 2 7");
    // A count above R is in range; the fault shows at the byte that cannot rise.
    let eight = [1, b'a', 1, 8, 0, 1];
    assert_eq!(check_line(&eight), "refused 2 5");
    assert_eq!(check_line(&eight[..5]), "refused 1 5");
}

#[test]
fn number_4_target_twice() {
    let twice = vec![assign(1, Number::Own(0)), assign(2, Number::Own(0)), assign(1, Number::Own(0))];
    let action = Rule { action: twice.clone(), ..copy(0, 1) };
    let mut bytes = deck_of(3, vec![action], &[&[]]).encode().bytes;
    assert_eq!(check_line(&bytes), "refused 4 20");
    // The second target is judged before the expression after it.
    bytes[21] = 65;
    assert_eq!(check_line(&bytes), "refused 4 20");
    assert_eq!(check_line(&bytes[..21]), "refused 4 20");
    assert_eq!(check_line(&bytes[..20]), "refused 1 20");
    // In an old deck the default action is an action like another, and both may have a target.
    let default = Rule { default_action: twice, ..copy(0, 1) };
    let both = Rule { default_action: vec![assign(1, Number::Own(0))], ..copy(0, 1) };
    for (rule, line) in [(default, "refused 4 16"), (both, "passed 3 1 1 2")] {
        let bytes = deck_of(3, vec![rule], &[&[0]]).encode().bytes;
        assert_eq!((old_check_line(&bytes), check_line(&bytes)), (line.to_string(), "refused 20 7".into()));
    }
}

#[test]
fn number_5_bytes_follow() {
    for more in [1, 2, 1000] {
        let mut deck = deck_d();
        deck.resize(75 + more, 7);
        assert_eq!(check_line(&deck), "refused 5 75");
    }
    // Before 6 and before 7.
    let mut deck = deck_d_with(&[(59, 10), (12, 0)]);
    deck.push(0);
    assert_eq!(check_line(&deck), "refused 5 75");
}

#[test]
fn number_6_opening_outside_the_limit() {
    assert_changed(&[
        (&[(59, 9)], "passed 3 2 2 2"),
        (&[(59, 10)], "refused 6 1"),
        (&[(50, 16)], "refused 6 0"),
        (&[(50, 16), (59, 10)], "refused 6 0"),
        // Before 7.
        (&[(59, 10), (12, 0)], "refused 6 1"),
    ]);
}

#[test]
fn number_7_cycles() {
    let two = |first: Rule, second: Rule| vec![first, second];
    let everywhere = Rule { kind: Kind::Everywhere, ..copy(2, 1) };
    let far = vec![copy(3, 1), copy(1, 2), copy(2, 3)];
    let diamond = vec![copy(0, 1), copy(0, 2), copy(1, 3), copy(2, 3)];
    assert_lines(&[
        ("one channel", deck_of(2, vec![copy(1, 1)], &[&[0]]), "refused 7 1"),
        ("two parts", deck_of(3, two(copy(1, 2), copy(2, 1)), &[&[0], &[1]]), "refused 7 1"),
        ("everywhere, one part", deck_of(3, two(copy(1, 2), everywhere), &[&[0, 1]]), "refused 7 1"),
        (
            "lowest on the cycle, not before it",
            deck_of(
                4,
                {
                    let mut r = far;
                    r.push(copy(0, 3));
                    r
                },
                &[&[0, 1, 2, 3]],
            ),
            "refused 7 1",
        ),
        ("nobody carries one", deck_of(3, two(copy(1, 2), copy(2, 1)), &[&[0], &[0]]), "passed 3 2 2 1"),
        ("diamond", deck_of(4, diamond, &[&[0, 1, 2, 3]]), "passed 4 4 1 2"),
    ]);
    let default = Rule { default_action: vec![assign(2, Number::Own(0))], action: Vec::new(), ..copy(2, 2) };
    assert_eq!(old_check_line(&deck_of(3, vec![default], &[&[0]]).encode().bytes), "refused 7 2");
}

#[test]
fn number_8_charges() {
    let random = &mut Random::new(8);
    for round in 0..20 {
        let (passes, mut refused) = (exact(random, 65_535, Form::New), exact(random, 65_536, Form::New));
        assert!(check_line(&passes.encode().bytes).ends_with(" 65535"), "round {round}");
        assert!(check_line(&refused.encode().bytes).starts_with("refused 8 "), "round {round}");
        // Rules that nobody carries don't count.
        refused.parts.iter_mut().for_each(|part| part.carried.clear());
        assert!(check_line(&refused.encode().bytes).ends_with(" 0"), "round {round}");
    }
}

#[test]
fn number_8_lowest_place() {
    // Each update to channel c makes two to c + 1: an update to channel 1 has charge 2^17 - 1.
    let twice = |event| [copy(event, event + 1), Rule { condition: Truth::False, ..copy(event, event + 1) }];
    let rules: Vec<Rule> = (0..17).flat_map(twice).collect();
    let mut cycle = rules.clone();
    cycle.push(copy(17, 17));
    let all: Vec<u8> = (0..34).collect();
    assert_lines(&[
        ("part 0", deck_of(18, rules.clone(), &[&all]), "refused 8 0"),
        ("rule 1", deck_of(18, rules.clone(), &[&all[1..]]), "refused 8 1"),
        ("part 2", deck_of(18, rules.clone(), &[&all[2..], &all[..18], &all]), "refused 8 128"),
        ("just below", deck_of(18, rules, &[&all[2..]]), "passed 18 34 1 65535"),
        // Before 8 comes 7.
        ("cycle", deck_of(18, cycle, &[&all, &[34]]), "refused 7 17"),
    ]);
}

#[test]
fn number_8_in_an_old_deck_has_old_numbers() {
    let double = |event| Rule {
        default_action: vec![assign(event + 1, Number::Own(event))],
        ..copy(event, event + 1)
    };
    let rules: Vec<Rule> = (0..16).map(double).collect();
    let all: Vec<u8> = (0..16).collect();
    for (carried, line) in [
        (&[&all[..]][..], "refused 8 0"),
        (&[&all[1..], &all[..9], &all], "refused 8 128"),
        (&[&all[1..]], "passed 17 16 1 65534"),
    ] {
        let bytes = deck_of(17, rules.clone(), carried).encode().bytes;
        assert_eq!((old_check_line(&bytes), check_line(&bytes)), (line.to_string(), "refused 20 21".into()));
    }
}

#[test]
fn number_20_default_actions() {
    // Deck E has the count of a default action at 7.
    for (count, line) in [(1, "refused 20 7"), (4, "refused 20 7"), (5, "refused 2 7"), (255, "refused 2 7")]
    {
        assert_eq!(check_line(&deck_e_with(7, count)), line);
        assert_eq!(check_line(&deck_e_with(7, count)[..8]), line);
        assert_eq!(check_line(&deck_e_with(7, count)[..7]), "refused 1 7");
    }
    // In reading order: before whatever stands behind the count, after what stands before it.
    for (at, byte) in [(8, 3), (9, 0), (10, 7), (10, 2), (12, 2), (48, 16)] {
        assert_eq!(check_line(&deck_e_with(at, byte)), "refused 20 7", "{at} {byte}");
    }
    for (at, line) in [(0, "refused 2 0"), (4, "refused 2 4"), (5, "refused 2 5"), (6, "refused 2 6")] {
        assert_eq!(check_line(&deck_e_with(at, 99)), line);
    }
}

#[test]
fn number_20_in_every_call_that_tests_a_deck() {
    let deck = deck_e_with(10, 7);
    let refusal = Refusal { number: 20, place: 7 };
    let mut host = Host { pool: vec![7; 11], ..Host::new(&deck) };
    for call in [input(9, &[]), Call::Commit { place: 9 }, Call::Settle { budget: 65_536 }] {
        assert_eq!(host.call(&call), Answer::Refused(refusal));
    }
    assert_eq!(start(&deck, &mut host.pool), (Err(refusal), State::ZERO));
    assert_eq!(host.pool, [7; 11]);
    assert_eq!([section(&deck, 0), section(&deck, 3)], [Err(refusal), Err(refusal)]);
}

/// Memory before and after a refused call must be the same.
fn assert_refused(host: &mut Host, call: &Call, number: u32) {
    let before = (host.state.clone(), host.pool.clone());
    assert_eq!(host.call(call), Answer::Refused(Refusal { number, place: 0 }), "{call:?}");
    assert_eq!((&host.state, &host.pool), (&before.0, &before.1), "{call:?}");
}

fn input(part: u32, pairs: &[i32]) -> Call {
    Call::Input { part, pairs: pairs.to_vec() }
}

fn one_of_each() -> [Call; 3] {
    [input(0, &[0, 4]), Call::Commit { place: 0 }, Call::Settle { budget: 5 }]
}

#[test]
fn number_9_pool_length() {
    let deck = deck_d();
    for length in [0, 1, 5, 9, 11, 15, 19, 655_345, 655_349, 655_351, 655_360, 700_000] {
        let mut pool = vec![7; length];
        assert_eq!(start(&deck, &mut pool), (Err(Refusal { number: 9, place: 0 }), State::ZERO));
        assert!(pool.iter().all(|&number| number == 7));
        let mut host = Host { pool, ..Host::new(&deck) };
        for call in one_of_each() {
            assert_refused(&mut host, &call, 9);
        }
    }
    for length in [10, 20, 655_350] {
        let mut pool = vec![7; length];
        assert_eq!(start(&deck, &mut pool).0, Ok(()));
        assert!(pool.iter().all(|&number| number == 0));
    }
}

#[test]
fn number_10_values_and_pending_number() {
    let deck = deck_d();
    // An unused channel of a known part, the last value of it, an unknown part, the last of all.
    for index in [3, 31, 35, 63, 64, 511] {
        let mut host = fresh(&deck, 5);
        host.state.values[index] = 1;
        one_of_each().iter().for_each(|call| assert_refused(&mut host, call, 10));
    }
    for pending in [1, 5, 6, u32::MAX] {
        let mut host = fresh(&deck, 5);
        host.state.pending = pending;
        one_of_each().iter().for_each(|call| assert_refused(&mut host, call, 10));
    }
    // Used values may be anything, outside a limit too.
    let mut host = fresh(&deck, 5);
    host.state.values[34] = i32::MAX;
    assert_eq!(host.call(&input(0, &[0, 4])), Answer::Added(2));
}

/// A host with deck D whose pool begins with these places.
fn with_places<'a>(deck: &'a [u8], pending: u32, places: &[[i32; 10]]) -> Host<'a> {
    let mut host = fresh(deck, 5);
    host.state.pending = pending;
    for (number, place) in places.iter().enumerate() {
        host.pool[10 * number..][..10].copy_from_slice(place);
    }
    host
}

#[test]
fn number_10_places() {
    let deck = deck_d();
    let good = [1, 2, 1, 5, 2, -5, 0, 0, 0, 0];
    let swapped = [1, 2, 2, -5, 1, 5, 0, 0, 0, 0];
    let bad: &[(u32, &[[i32; 10]])] = &[
        (0, &[good]),
        (1, &[good, [0, 0, 0, 0, 0, 0, 0, 0, 0, 1]]),
        (1, &[[2, 1, 0, 5, 0, 0, 0, 0, 0, 0]]),
        (1, &[[-1, 1, 0, 5, 0, 0, 0, 0, 0, 0]]),
        (1, &[[0, 0, 0, 0, 0, 0, 0, 0, 0, 0]]),
        (1, &[[0, 5, 0, 1, 1, 1, 2, 1, 0, 1]]),
        (1, &[[0, -1, 0, 1, 0, 0, 0, 0, 0, 0]]),
        (1, &[[0, 1, 3, 5, 0, 0, 0, 0, 0, 0]]),
        (1, &[[0, 1, -1, 5, 0, 0, 0, 0, 0, 0]]),
        (1, &[[0, 1, 2, 5, 1, 0, 0, 0, 0, 0]]),
        (1, &[[0, 1, 2, 5, 0, 0, 0, 0, 0, 3]]),
        (1, &[[0, 2, 2, 5, 2, 6, 0, 0, 0, 0]]),
        (1, &[[256, 1, 2, 5, 0, 0, 0, 0, 0, 0]]),
        (2, &[good, good]),
    ];
    for (pending, places) in bad {
        let mut host = with_places(&deck, *pending, places);
        one_of_each().iter().for_each(|call| assert_refused(&mut host, call, 10));
    }
    // The same pairs in another order are another update.
    let mut host = with_places(&deck, 2, &[good, swapped]);
    assert!(matches!(host.call(&Call::Commit { place: 1 }), Answer::Committed(_)));
}

#[test]
fn number_10_charge() {
    let deck = deck_d();
    // Channel a at part 0 has charge 3 (itself, b at part 1, c at part 1), channel c has 1.
    let a = [0, 1, 0, 5, 0, 0, 0, 0, 0, 0];
    let c = |value| [1, 1, 2, value, 0, 0, 0, 0, 0, 0];
    let mut full = with_places(&deck, 3, &[a, c(1), c(2)]);
    assert!(matches!(full.call(&Call::Commit { place: 0 }), Answer::Committed(_)));
    let mut above = with_places(&deck, 4, &[a, c(1), c(2), c(3)]);
    one_of_each().iter().for_each(|call| assert_refused(&mut above, call, 10));
}

#[test]
fn numbers_11_to_13_inputs() {
    let deck = deck_d();
    let mut host = fresh(&deck, 1);
    for part in [2, 3, 16, 256, u32::MAX] {
        assert_refused(&mut host, &input(part, &[0, 4]), 11);
        // Before 12.
        assert_refused(&mut host, &input(part, &[]), 11);
    }
    let all_twice: Vec<i32> = (0..66).map(|number| number / 2 % 3).collect();
    let bad: &[&[i32]] = &[
        &[],
        &[0],
        &[0, 1, 1],
        &[3, 1],
        &[-1, 1],
        &[0, 1, 0, 1],
        &[0, 1, 1, 2, 0, 3],
        &all_twice,
        &[256, 1],
        &[i32::MIN, 1],
    ];
    for pairs in bad {
        assert_refused(&mut host, &input(0, pairs), 12);
    }
    // Before 13: the first pair alone would exceed C.
    assert_refused(&mut host, &input(0, &[0, 4, 0, 4]), 12);
    assert_refused(&mut host, &input(0, &[0, 4]), 13);
    assert_eq!(host.call(&input(0, &[0, 0, 2, 4])), Answer::Added(0));
    assert_eq!(host.call(&input(1, &[1, 4])), Answer::Added(1));
    assert_refused(&mut host, &input(1, &[1, 5]), 13);
}

#[test]
fn number_12_thirty_two_pairs() {
    let deck = deck_of(32, Vec::new(), &[&[]]).encode().bytes;
    let mut host = fresh(&deck, 1);
    let pairs: Vec<i32> = (0..32).flat_map(|channel| [channel, 1]).collect();
    assert_eq!(host.call(&input(0, &pairs)), Answer::Added(0));
    let more = [&pairs[..], &[0, 1]].concat();
    assert_refused(&mut host, &input(0, &more), 12);
}

#[test]
fn number_13_counts_no_equal_update() {
    // Both events lead to the same update; it is written once, so C = 1 is enough.
    let copy_0_to_2 = |event| Rule { events: vec![event], ..copy(0, 2) };
    let deck = deck_of(3, vec![copy_0_to_2(0), copy_0_to_2(1)], &[&[0, 1]]).encode().bytes;
    let mut host = fresh(&deck, 1);
    assert_eq!(host.call(&input(0, &[0, 3, 1, 3])), Answer::Added(1));
    assert_eq!(host.call(&input(0, &[1, 4])), Answer::Added(0));
    assert_refused(&mut host, &input(0, &[0, 4]), 13);
}

fn assert_added(host: &mut Host, call: &Call, charge: u32) {
    assert_eq!(host.call(call), Answer::Added(charge), "{call:?}");
}

#[test]
fn number_17_only_just_and_in_order() {
    // Part 1 keeps c below 10, and an update of b at part 0 has charge 2.
    let deck = deck_d();
    let assert_fresh = |places, part, pairs: &[i32], number| {
        assert_refused(&mut fresh(&deck, places), &input(part, pairs), number);
    };
    let mut host = fresh(&deck, 2);
    assert_added(&mut host, &input(1, &[2, 9]), 0);
    assert_eq!(host.state.values[34], 9);
    assert_fresh(2, 1, &[2, 10], 17);
    // Before 13.
    assert_fresh(1, 1, &[0, 4, 2, 10], 17);
    assert_fresh(1, 1, &[0, 4, 2, 9], 13);
    // After 11 and 12.
    assert_fresh(2, 2, &[2, 10], 11);
    assert_fresh(2, 1, &[2, 10, 2, 10], 12);
    assert_fresh(2, 1, &[2, 10, 3, 0], 12);
}

#[test]
fn number_17_changes_nothing_that_is_pending() {
    let deck = deck_d();
    let mut host = fresh(&deck, 4);
    assert_added(&mut host, &input(0, &[0, 4]), 2);
    assert_added(&mut host, &input(1, &[0, -3, 2, 9]), 2);
    for value in [10, 11, i32::MAX] {
        assert_refused(&mut host, &input(1, &[0, 7, 1, 7, 2, value]), 17);
    }
    assert_eq!(host.call(&Call::Settle { budget: 9 }).to_string(), "settled 4");
}

#[test]
fn number_17_judges_the_whole_part_and_no_other() {
    let mut two = deck_of(3, Vec::new(), &[&[], &[]]);
    let sum = Number::Sum(Number::Own(0).into(), Number::Own(1).into());
    two.parts[0].limit = Truth::Less(sum.into(), Number::Literal(10).into());
    let deck = two.encode().bytes;
    let mut host = fresh(&deck, 1);
    // Each pair alone would be outside or within; all of them count, in any order.
    assert_added(&mut host, &input(0, &[0, 12, 1, -5]), 0);
    assert_refused(&mut host, &input(0, &[1, -2]), 17);
    assert_refused(&mut host, &input(0, &[1, 4, 0, 6]), 17);
    assert_added(&mut host, &input(0, &[1, -3]), 0);
    assert_added(&mut host, &input(0, &[1, 4, 0, 5]), 0);
    assert_refused(&mut host, &input(0, &[2, 1, 1, 5]), 17);
    assert_added(&mut host, &input(1, &[0, 100, 1, 100]), 0);
}

#[test]
fn number_17_does_not_look_at_the_firing() {
    // Both inputs lead to an update of c that part 1 discards later.
    let deck = deck_d();
    let mut host = fresh(&deck, 3);
    assert_added(&mut host, &input(0, &[0, 50]), 2);
    assert_added(&mut host, &input(1, &[1, 20]), 1);
    assert_eq!(host.call(&Call::Commit { place: 1 }).to_string(), "discarded 2");
    assert_eq!(host.call(&Call::Settle { budget: 9 }).to_string(), "settled 2");
    assert_eq!(host.state.values[33..35], [50, 0]);
}

#[test]
fn number_17_where_an_operation_clamps() {
    // One less is less, but for the least number.
    let mut one = deck_of(1, Vec::new(), &[&[]]);
    let one_less = Number::Difference(Number::Own(0).into(), Number::Literal(1).into());
    one.parts[0].limit = Truth::Less(one_less.into(), Number::Own(0).into());
    let deck = one.encode().bytes;
    let mut host = fresh(&deck, 1);
    assert_refused(&mut host, &input(0, &[0, i32::MIN]), 17);
    assert_added(&mut host, &input(0, &[0, i32::MIN + 1]), 0);
    assert_added(&mut host, &input(0, &[0, i32::MAX]), 0);
}

#[test]
fn number_17_at_a_part_that_is_outside_by_hand() {
    let deck = deck_d();
    let outside = || {
        let mut host = fresh(&deck, 4);
        host.state.values[34] = 12;
        host
    };
    let mut host = outside();
    for pairs in [[0, 1], [1, 0], [2, 12], [2, 10]] {
        assert_refused(&mut host, &input(1, &pairs), 17);
    }
    // Other parts are taken as ever, and so is what brings the part within.
    assert_added(&mut host, &input(0, &[0, 4]), 2);
    assert_added(&mut host, &input(1, &[2, 3]), 0);
    assert_added(&mut host, &input(1, &[0, 1]), 2);
    // Commits there are discarded until one brings it within.
    let mut host = outside();
    assert_added(&mut host, &input(0, &[0, 4]), 2);
    assert_eq!(host.call(&Call::Commit { place: 0 }).to_string(), "discarded 0");
    host.pool[..4].copy_from_slice(&[1, 1, 2, 9]);
    host.state.pending = 1;
    assert_eq!(host.call(&Call::Commit { place: 0 }).to_string(), "applied 0");
    assert_added(&mut host, &input(1, &[0, 1]), 2);
}

#[test]
fn numbers_14_to_16_place_section_budget() {
    let deck = deck_d();
    let mut host = fresh(&deck, 2);
    for place in [0, 1, u32::MAX] {
        assert_refused(&mut host, &Call::Commit { place }, 14);
    }
    host.call(&input(0, &[0, 4]));
    assert_refused(&mut host, &Call::Commit { place: 1 }, 14);
    for budget in [65_536, 65_537, u32::MAX] {
        assert_refused(&mut host, &Call::Settle { budget }, 16);
    }
    for number in [3, 4, u32::MAX] {
        assert_eq!(section(&deck, number), Err(Refusal { number: 15, place: 0 }));
    }
    assert_eq!([section(&deck, 0), section(&deck, 1), section(&deck, 2)], [Ok(0..4), Ok(4..33), Ok(33..75)]);
}

#[test]
fn order_of_refusals() {
    let bad_deck = deck_d_with(&[(12, 0)]);
    let mut host = Host { pool: vec![7; 11], ..Host::new(&bad_deck) };
    for call in [input(9, &[]), Call::Commit { place: 9 }, Call::Settle { budget: 65_536 }] {
        assert_eq!(host.call(&call), Answer::Refused(Refusal { number: 7, place: 0 }));
    }
    assert_eq!(start(&bad_deck, &mut host.pool).0, Err(Refusal { number: 7, place: 0 }));
    assert_eq!(section(&bad_deck, 3), Err(Refusal { number: 7, place: 0 }));
    let deck = deck_d();
    let mut host = Host { pool: vec![7; 10], ..Host::new(&deck) };
    for call in [input(9, &[]), Call::Commit { place: 9 }, Call::Settle { budget: 65_536 }] {
        assert_refused(&mut host, &call, 10);
        host.pool.push(7);
        assert_refused(&mut host, &call, 9);
        host.pool.pop();
    }
}
