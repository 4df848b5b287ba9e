//! The cases P1 to P11 of document 01.

use crate::common::{deck_d, deck_d_with, fresh};
use reference::engine::{check_line, Answer, Call, Committed, Passed};
use reference::script::Host;
use reference::{check, Refusal};

/// Rule 0's and rule 1's target, and the parts' carried lists, in deck D.
const TARGET_0: usize = 12;
const TARGET_1: usize = 23;
const CARRIED: [usize; 2] = [46, 63];

fn applied(charge: u32) -> Answer {
    Answer::Committed(Committed { applied: true, charge })
}

fn discarded(charge: u32) -> Answer {
    Answer::Committed(Committed { applied: false, charge })
}

fn input_a(host: &mut Host, value: i32) -> Answer {
    host.call(&Call::Input { part: 0, pairs: vec![0, value] })
}

fn commit_first(host: &mut Host) -> Answer {
    host.call(&Call::Commit { place: 0 })
}

/// Channels a, b, c of part 1.
fn part_1(host: &Host) -> [i32; 3] {
    [host.state.values[32], host.state.values[33], host.state.values[34]]
}

#[test]
fn p1_deck_d_passes() {
    assert_eq!(deck_d().len(), 75);
    assert_eq!(check(&deck_d()), Ok(Passed { channels: 3, rules: 2, parts: 2, charge: 2 }));
    assert_eq!(check_line(&deck_d()), "passed 3 2 2 2");
}

#[test]
fn p2_to_p4_lengths() {
    assert_eq!(check_line(&[]), "refused 1 0");
    assert_eq!(check(&deck_d()[..74]), Err(Refusal { number: 1, place: 74 }));
    let mut longer = deck_d();
    longer.push(0);
    assert_eq!(check(&longer), Err(Refusal { number: 5, place: 75 }));
}

#[test]
fn p5_to_p7_cycles() {
    let cycle = Err(Refusal { number: 7, place: 0 });
    assert_eq!(check(&deck_d_with(&[(TARGET_1, 0)])), cycle);
    assert_eq!(check(&deck_d_with(&[(TARGET_0, 0)])), cycle);
    let mut rule_1_alone = deck_d_with(&[(TARGET_0, 0), (CARRIED[0], 1), (CARRIED[1], 1)]);
    rule_1_alone.remove(CARRIED[1] + 1);
    rule_1_alone.remove(CARRIED[0] + 1);
    assert_eq!(check_line(&rule_1_alone), "passed 3 2 2 1");
}

#[test]
fn p8_input_and_two_commits() {
    let deck = deck_d();
    let mut host = fresh(&deck, 2);
    assert_eq!(input_a(&mut host, 4), Answer::Added(2));
    assert_eq!(commit_first(&mut host), applied(1));
    assert_eq!(commit_first(&mut host), applied(0));
    assert_eq!(part_1(&host), [0, 4, 5]);
    assert_eq!(host.pool, vec![0; 20]);
    let mut tight = fresh(&deck, 1);
    assert_eq!(input_a(&mut tight, 4), Answer::Refused(Refusal { number: 13, place: 0 }));
    assert_eq!((tight.state.values[0], tight.state.pending), (0, 0));
}

#[test]
fn p9_second_commit_is_discarded() {
    let deck = deck_d();
    let mut host = fresh(&deck, 2);
    assert_eq!(input_a(&mut host, 9), Answer::Added(2));
    assert_eq!(commit_first(&mut host), applied(1));
    assert_eq!(commit_first(&mut host), discarded(0));
    assert_eq!(part_1(&host), [0, 9, 0]);
}

#[test]
fn p10_same_input_again_adds_nothing() {
    let deck = deck_d();
    let mut host = fresh(&deck, 2);
    input_a(&mut host, 4);
    commit_first(&mut host);
    commit_first(&mut host);
    assert_eq!(input_a(&mut host, 4), Answer::Added(0));
    assert_eq!(host.state.pending, 0);
}

#[test]
fn p11_the_sum_clamps() {
    let deck = deck_d();
    let mut host = fresh(&deck, 2);
    assert_eq!(input_a(&mut host, i32::MAX), Answer::Added(2));
    assert_eq!(commit_first(&mut host), applied(1));
    assert_eq!(host.pool[..4], [1, 1, 2, i32::MAX]);
    assert_eq!(commit_first(&mut host), discarded(0));
    assert_eq!(part_1(&host), [0, i32::MAX, 0]);
}
