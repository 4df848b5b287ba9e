//! The sentences about lists of calls from fresh starts, and agreement with a plain model.

use crate::common::model::{holds, rule_charge, Model};
use crate::common::{assign, copy, deck_of, fresh, fresh_old, is_at_edge, parts_within, Setup};
use reference::deck::{Deck, Form, Kind as RuleKind, Rule};
use reference::engine::{Answer, Call, Committed, Settled};
use reference::expression::{Number, Truth};
use reference::generate::calls::any;
use reference::generate::{deck, old_deck, Kind, Size};
use reference::random::Random;
use reference::refusal::INPUT_OUTSIDE_LIMIT;
use reference::script::Host;

const SMALL: Size = Size { channels: 8, rules: 9, parts: 4, expression: 20 };

/// Sums over a list of calls.
#[derive(Default)]
struct Sums {
    commits: u64,
    added: u64,
}

impl Sums {
    fn count(&mut self, answer: &Answer) {
        match answer {
            Answer::Added(charge) => self.added += u64::from(*charge),
            Answer::Committed(_) => self.commits += 1,
            Answer::Settled(settled) => self.commits += u64::from(settled.commits),
            Answer::Refused(_) => {}
        }
    }
}

/// Mostly decks in which much happens.
const KINDS: [Kind; 3] = [Kind::Rich, Kind::Rich, Kind::Valid];

#[test]
fn calls_agree_with_the_model() {
    let random = &mut Random::new(1);
    let (mut within, mut pending, mut refused) = (0, 0, 0);
    for round in 0..1600 {
        let setup = match round % 2 {
            0 => Setup::new(random, &KINDS, SMALL, 400),
            _ => Setup::old(random, &KINDS, SMALL, 400),
        };
        let mut host = setup.fresh();
        let mut model = Model::new(&setup.deck, setup.places);
        for _ in 0..25 {
            let call = any(random, &setup.known, &host);
            let answer = host.call(&call);
            assert_eq!(answer, model.step(&call), "round {round}, {call:?}");
            assert_eq!((host.state.clone(), host.pool.clone()), model.memory(), "round {round}, {call:?}");
            pending = pending.max(host.state.pending);
            refused += u32::from(matches!(answer, Answer::Refused(_)));
        }
        assert_eq!(model.outside, 0);
        within += model.within;
    }
    assert!(within > 2000 && pending > 50 && refused > 500, "{within} {pending} {refused}");
}

#[test]
fn largest_charge_agrees_with_the_model() {
    let random = &mut Random::new(2);
    for round in 0..400 {
        let (form, bytes) = match round % 2 {
            0 => (Form::New, deck(Kind::Rich, random, SMALL)),
            _ => (Form::Old, old_deck(Kind::Rich, random, SMALL)),
        };
        let (deck, _) = form.read(&bytes).unwrap();
        let carried =
            deck.parts.iter().enumerate().flat_map(|(part, carrier)| {
                carrier.carried.iter().map(move |&rule| (part, usize::from(rule)))
            });
        let largest = carried.map(|(part, rule)| rule_charge(&deck, part, &deck.rules[rule])).max();
        assert_eq!(u64::from(form.check(&bytes).unwrap().charge), largest.unwrap_or(0));
    }
}

/// The charge pending, from the places of the pool.
fn charge_pending(host: &Host) -> u64 {
    let (deck, _) = Deck::read(&host.deck).unwrap();
    let charges = reference::charge::Charges::new(&deck);
    let places = host.pool.chunks(10).take(host.state.pending as usize);
    let targets =
        |place: &[i32]| place[2..].chunks(2).take(place[1] as usize).fold(0, |set, pair| set | 1 << pair[0]);
    places.map(|place| charges.of_update(place[0] as usize, targets(place))).sum()
}

/// Checks the sentences for one call.
fn check_sentences(host: &mut Host, call: &Call, sums: &mut Sums) {
    let (before, pending) = (charge_pending(host), host.state.pending);
    let answer = host.call(call);
    sums.count(&answer);
    let after = charge_pending(host);
    assert!(sums.commits + after <= sums.added, "{call:?}");
    match (call, answer) {
        (Call::Commit { place }, Answer::Refused(refusal)) => {
            assert!(*place >= pending && refusal.number == 14, "{call:?} {refusal}");
        }
        (Call::Commit { place }, Answer::Committed(Committed { charge, .. })) => {
            assert!(*place < pending && after < before && u64::from(charge) == after);
        }
        (Call::Settle { budget }, Answer::Settled(Settled { settled, commits })) => {
            assert!(commits <= *budget && settled == (host.state.pending == 0));
            assert!(settled || commits == *budget);
            assert!(u64::from(*budget) < before || settled);
        }
        (Call::Input { .. }, Answer::Added(charge)) => assert_eq!(before + u64::from(charge), after),
        (_, Answer::Refused(_)) => assert_eq!(before, after),
        (call, answer) => panic!("{call:?} answers {answer}"),
    }
}

#[test]
fn sentences_about_lists() {
    let random = &mut Random::new(3);
    for _ in 0..250 {
        let Setup { bytes, known, places, .. } = Setup::new(random, &KINDS, Size::FULL, usize::MAX);
        let mut host = fresh(&bytes, places);
        let mut sums = Sums::default();
        for _ in 0..20 {
            let call = any(random, &known, &host);
            check_sentences(&mut host, &call, &mut sums);
        }
        // An accepted settle with enough budget ends settled, whatever came before.
        let budget = charge_pending(&host) as u32;
        check_sentences(&mut host, &Call::Settle { budget }, &mut sums);
        assert_eq!(host.state.pending, 0);
    }
}

#[test]
fn after_every_call_every_part_is_within_its_limit() {
    let random = &mut Random::new(5);
    let (mut refused, mut accepted_at_edge, mut discarded) = (0, 0, 0);
    for round in 0..1000 {
        let Setup { bytes, deck, known, places, .. } = Setup::new(random, &KINDS, SMALL, 400);
        let mut host = fresh(&bytes, places);
        for _ in 0..30 {
            let call = any(random, &known, &host);
            let answer = host.call(&call);
            assert!(parts_within(&deck, &host.state.values), "round {round}, {call:?}");
            match (call, answer) {
                (Call::Input { part, pairs }, Answer::Added(_)) => {
                    let values = &host.state.values[32 * part as usize..][..32];
                    let at_edge = is_at_edge(&deck.parts[part as usize].limit, values, &pairs);
                    accepted_at_edge += u32::from(at_edge);
                }
                (_, Answer::Refused(refusal)) => refused += u32::from(refusal.number == INPUT_OUTSIDE_LIMIT),
                (_, Answer::Committed(Committed { applied, .. })) => discarded += u32::from(!applied),
                _ => {}
            }
        }
    }
    // Else nothing came near a limit, and the sentence says nothing.
    assert!(
        refused > 1000 && accepted_at_edge > 1000 && discarded > 100,
        "{refused} {accepted_at_edge} {discarded}"
    );
}

/// Commits place 0 one by one; each applied one must leave its part within its limit.
fn commit_one_by_one(host: &mut Host, deck: &Deck, budget: u32) -> u32 {
    let mut commits = 0;
    while commits < budget && host.state.pending > 0 {
        let part = host.pool[0] as usize;
        let before = host.state.values;
        let answer = host.call(&Call::Commit { place: 0 });
        let Answer::Committed(Committed { applied, .. }) = answer else { panic!("{answer}") };
        if applied {
            assert!(holds(&deck.parts[part].limit, &host.state.values[32 * part..][..32], &[]));
        } else {
            assert_eq!(host.state.values, before);
        }
        commits += 1;
    }
    commits
}

#[test]
fn settle_is_commit_of_place_0_repeated() {
    let random = &mut Random::new(4);
    let mut total = 0;
    for _ in 0..200 {
        let Setup { bytes, deck, known, places, .. } = Setup::new(random, &[Kind::Rich], SMALL, 500);
        let mut host = fresh(&bytes, places);
        for _ in 0..8 {
            let call = any(random, &known, &host);
            host.call(&call);
        }
        let budget = random.below(2 * host.state.pending as usize + 2) as u32;
        let mut other = host.clone();
        let commits = commit_one_by_one(&mut other, &deck, budget);
        let settled = other.state.pending == 0;
        assert_eq!(host.call(&Call::Settle { budget }), Answer::Settled(Settled { settled, commits }));
        assert_eq!((&host.state, &host.pool), (&other.state, &other.pool));
        total += commits;
    }
    assert!(total > 400, "{total}");
}

#[test]
fn unchanged_channels_do_not_fire() {
    let deck = deck_of(2, vec![copy(0, 1)], &[&[0]]).encode().bytes;
    let mut host = fresh(&deck, 3);
    let input = |value| Call::Input { part: 0, pairs: vec![0, value] };
    assert_eq!(host.call(&input(0)), Answer::Added(0));
    assert_eq!(host.call(&input(1)), Answer::Added(1));
    // An update that changes nothing is applied and fires nothing.
    host.pool[..4].copy_from_slice(&[0, 1, 0, 1]);
    assert_eq!(
        host.call(&Call::Commit { place: 0 }),
        Answer::Committed(Committed { applied: true, charge: 0 })
    );
}

#[test]
fn far_channels_are_read_when_the_rule_fires() {
    let sum = Number::Sum(Number::Far(1).into(), Number::Own(0).into());
    let action = vec![assign(2, sum)];
    let rule = Rule { kind: RuleKind::Everywhere, action, ..copy(0, 2) };
    let deck = deck_of(3, vec![rule], &[&[0], &[]]).encode().bytes;
    let mut host = fresh(&deck, 3);
    host.call(&Call::Input { part: 1, pairs: vec![1, 10] });
    host.call(&Call::Input { part: 0, pairs: vec![0, 5, 1, 100] });
    host.call(&Call::Input { part: 1, pairs: vec![1, 20] });
    assert_eq!(host.pool[..4], [1, 1, 2, 15]);
    host.call(&Call::Settle { budget: 1 });
    assert_eq!(host.state.values[34], 15);
}

/// The first four numbers of so many places.
fn written(host: &Host, places: usize) -> Vec<[i32; 4]> {
    host.pool.chunks(10).take(places).map(|place| [place[0], place[1], place[2], place[3]]).collect()
}

#[test]
fn order_of_a_firing() {
    // Rule 0 everywhere, the others here: here actions first.
    let everywhere = Rule { kind: RuleKind::Everywhere, ..copy(0, 2) };
    let never = Rule { condition: Truth::False, ..copy(0, 1) };
    let rules = vec![everywhere, copy(0, 3), never, copy(0, 1)];
    let deck = deck_of(4, rules, &[&[0, 1, 2, 3], &[0], &[]]).encode().bytes;
    let mut host = fresh(&deck, 9);
    host.call(&Call::Input { part: 0, pairs: vec![0, 7] });
    assert_eq!(written(&host, 5), [[0, 1, 3, 7], [0, 1, 1, 7], [1, 1, 2, 7], [2, 1, 2, 7], [0, 0, 0, 0]]);
}

#[test]
fn order_of_a_firing_in_an_old_deck() {
    // Rule 0 everywhere with a default action, rule 1 here: defaults and here actions first.
    let default_action = vec![assign(1, Number::Literal(10))];
    let never = Rule { kind: RuleKind::Everywhere, condition: Truth::False, default_action, ..copy(0, 2) };
    let always = Rule { condition: Truth::True, ..never.clone() };
    let deck = deck_of(4, vec![always, copy(0, 3), never], &[&[0, 1], &[0], &[0], &[2]]).encode().bytes;
    let mut host = fresh_old(&deck, 9);
    host.call(&Call::Input { part: 0, pairs: vec![0, 7] });
    assert_eq!(
        written(&host, 6),
        [[0, 1, 1, 10], [0, 1, 3, 7], [1, 1, 2, 7], [2, 1, 2, 7], [3, 1, 2, 7], [0, 0, 0, 0]]
    );
    // A default action fires whatever the condition says.
    host.call(&Call::Input { part: 3, pairs: vec![0, 7] });
    assert_eq!((host.state.pending, &host.pool[50..54]), (6, &[3, 1, 1, 10][..]));
}

#[test]
fn a_part_outside_its_limit_is_repaired_by_a_commit() {
    let mut abstract_deck = deck_of(3, vec![copy(0, 1)], &[&[0]]);
    abstract_deck.parts[0].limit = Truth::Less(Number::Own(1).into(), Number::Literal(5).into());
    let deck = abstract_deck.encode().bytes;
    let mut host = fresh(&deck, 5);
    for value in [9, 3] {
        assert_eq!(host.call(&Call::Input { part: 0, pairs: vec![0, value] }), Answer::Added(1));
    }
    // No call leads outside the limit; the good state is written by hand.
    host.state.values[1] = 50;
    for (applied, charge) in [(false, 1), (true, 0)] {
        let committed = host.call(&Call::Commit { place: 0 });
        assert_eq!(committed, Answer::Committed(Committed { applied, charge }));
    }
    assert_eq!(host.state.values[..2], [3, 3]);
}

#[test]
fn a_commit_adds_no_update_equal_to_a_pending_one() {
    let one = Rule { action: vec![assign(1, Number::Literal(1))], ..copy(0, 1) };
    let deck = deck_of(2, vec![one], &[&[0]]).encode().bytes;
    let mut host = fresh(&deck, 4);
    host.pool[..4].copy_from_slice(&[0, 1, 0, 1]);
    host.pool[10..14].copy_from_slice(&[0, 1, 1, 1]);
    host.state.pending = 2;
    assert_eq!(
        host.call(&Call::Commit { place: 0 }),
        Answer::Committed(Committed { applied: true, charge: 1 })
    );
    assert_eq!(
        (host.state.pending, &host.pool[..4], &host.pool[10..20]),
        (1, &[0, 1, 1, 1][..], &[0; 10][..])
    );
}

#[test]
fn the_largest_pool_when_it_is_full() {
    let deck = deck_of(2, vec![copy(0, 1)], &[&[0]]).encode().bytes;
    let mut host = fresh(&deck, 65_535);
    for (number, place) in host.pool.chunks_exact_mut(10).enumerate() {
        place[..4].copy_from_slice(&[0, 1, 1, number as i32]);
    }
    host.state.pending = 65_535;
    let one_more = Call::Input { part: 0, pairs: vec![0, -1] };
    assert!(matches!(host.call(&one_more), Answer::Refused(refusal) if refusal.number == 13));
    let committed = host.call(&Call::Commit { place: 65_534 });
    assert_eq!(committed, Answer::Committed(Committed { applied: true, charge: 65_534 }));
    assert_eq!(host.call(&one_more), Answer::Added(1));
    let settled = host.call(&Call::Settle { budget: 65_535 });
    assert_eq!(settled, Answer::Settled(Settled { settled: true, commits: 65_535 }));
    assert_eq!((host.state.values[1], host.state.pending), (-1, 0));
    assert!(host.pool.iter().all(|&number| number == 0));
}
