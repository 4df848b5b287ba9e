//! The cases P1 to P11 of document 01, and inputs at the limit of deck D, through the library.

use reaction::raw::{Memory, CHANNELS, PLACE};
use reaction::{Commit, Deck, Refusal, Rig, Section, Settle};

/// Deck D.
fn deck_d() -> Vec<u8> {
    include_bytes!("../../crates/replay/data/d.deck").to_vec()
}

/// Deck D with some bytes changed.
fn deck_d_with(changes: &[(usize, u8)]) -> Vec<u8> {
    let mut deck = deck_d();
    for &(at, byte) in changes {
        deck[at] = byte;
    }
    deck
}

/// R, M, N and the largest charge.
fn counts(bytes: Vec<u8>) -> Result<[u32; 4], Refusal> {
    let deck = Deck::check(bytes)?;
    Ok([deck.channels(), deck.rules(), deck.parts(), deck.largest_charge()])
}

fn refused<T>(number: u32, place: u32) -> Result<T, Refusal> {
    Err(Refusal { number, place })
}

fn started(places: u16) -> Rig {
    let deck = Deck::check(deck_d()).expect("deck D passes");
    Rig::start(deck, places).expect("a good pool")
}

/// The channels of deck D. Part 1 keeps `C` below 10.
const A: u32 = 0;
const B: u32 = 1;
const C: u32 = 2;

/// Offsets of rule 0's and rule 1's target in deck D.
const TARGET_0: usize = 12;
const TARGET_1: usize = 23;

#[test]
fn p1_to_p4_checking() {
    assert_eq!(counts(deck_d()), Ok([3, 2, 2, 2]));
    assert_eq!(counts(Vec::new()), refused(1, 0));
    assert_eq!(counts(deck_d()[..74].to_vec()), refused(1, 74));
    assert_eq!(counts([deck_d(), vec![0]].concat()), refused(5, 75));
}

#[test]
fn p5_to_p7_cycles() {
    assert_eq!(counts(deck_d_with(&[(TARGET_1, 0)])), refused(7, 0));
    let p6 = deck_d_with(&[(TARGET_0, 0)]);
    assert_eq!(counts(p6.clone()), refused(7, 0));
    let (head, parts) = p6.split_at(34);
    let limit = &parts[32..];
    let p7 = [head, &[0; 12], &[1, 1, 1, 0x11], &[0; 12], &[1, 1], limit].concat();
    assert_eq!(counts(p7), Ok([3, 2, 2, 1]));
}

#[test]
fn p8_an_input_and_two_commits() {
    let mut rig = started(2);
    assert_eq!(rig.input(0, &[(0, 4)]), Ok(2));
    assert_eq!(rig.commit(0), Ok(Commit { applied: true, charge: 1 }));
    assert_eq!(rig.commit(0), Ok(Commit { applied: true, charge: 0 }));
    assert_eq!((rig.value(1, 1), rig.value(1, 2)), (Some(4), Some(5)));
    let before = started(1);
    let mut small = before.clone();
    assert_eq!(small.input(0, &[(0, 4)]), Err(Refusal { number: 13, place: 0 }));
    assert_eq!(small, before);
}

#[test]
fn p9_a_commit_is_discarded() {
    let mut rig = started(2);
    assert_eq!(rig.input(0, &[(0, 9)]), Ok(2));
    assert_eq!(rig.commit(0), Ok(Commit { applied: true, charge: 1 }));
    assert_eq!(rig.commit(0), Ok(Commit { applied: false, charge: 0 }));
    assert_eq!(rig.value(1, 2), Some(0));
}

#[test]
fn p10_the_same_input_adds_nothing() {
    let mut rig = started(2);
    assert_eq!(rig.input(0, &[(0, 4)]), Ok(2));
    assert_eq!(rig.settle(2), Ok(Settle { commits: 2, settled: true }));
    assert_eq!(rig.input(0, &[(0, 4)]), Ok(0));
}

#[test]
fn p11_the_sum_clamps() {
    let mut rig = started(2);
    assert_eq!(rig.input(0, &[(0, i32::MAX)]), Ok(2));
    assert_eq!(rig.commit(0), Ok(Commit { applied: true, charge: 1 }));
    let update = rig.pending_updates().next().expect("one is pending");
    assert_eq!((update.part(), update.pairs().collect::<Vec<_>>()), (1, vec![(2, i32::MAX)]));
    assert_eq!(rig.commit(0), Ok(Commit { applied: false, charge: 0 }));
}

/// What an input to a fresh rig answers. A refused one must leave the rig as it was.
fn first_input(places: u16, part: u32, pairs: &[(u32, i32)]) -> Result<u32, Refusal> {
    let mut rig = started(places);
    let before = rig.clone();
    let answer = rig.input(part, pairs);
    match answer {
        Ok(_) => pairs.iter().for_each(|&(channel, value)| assert_eq!(rig.value(part, channel), Some(value))),
        Err(_) => assert_eq!(rig, before),
    }
    answer
}

#[test]
fn an_input_stops_at_the_limit() {
    assert_eq!(first_input(2, 1, &[(C, 9)]), Ok(0));
    assert_eq!(first_input(2, 1, &[(C, 10)]), refused(17, 0));
    // A limit is that of its own part, and part 0 has none.
    assert_eq!(first_input(2, 0, &[(C, 10)]), Ok(0));
    // 11 and 12 come before, 13 after: there is room for one update, and `A` brings two.
    assert_eq!(first_input(1, 1, &[(A, 4), (C, 10)]), refused(17, 0));
    assert_eq!(first_input(1, 1, &[(A, 4), (C, 9)]), refused(13, 0));
    assert_eq!(first_input(2, 2, &[(C, 10)]), refused(11, 0));
    assert_eq!(first_input(2, 1, &[(C, 10), (C, 10)]), refused(12, 0));
}

/// The last value that is taken, found on copies by halving, as `docs/EMBEDDING.md` says.
#[test]
fn the_stop_is_found_by_halving() {
    let rig = started(2);
    let (mut within, mut outside) = (0, 1000);
    while outside - within > 1 {
        let middle = (within + outside) / 2;
        match rig.clone().input(1, &[(C, middle)]) {
            Err(Refusal { number: 17, .. }) => outside = middle,
            _ => within = middle,
        }
    }
    assert_eq!(within, 9);
}

/// What follows from an input is held back by commits, not by the input.
#[test]
fn an_input_may_lead_to_a_limit() {
    let mut rig = started(2);
    assert_eq!(rig.input(1, &[(B, 9)]), Ok(1));
    assert_eq!(rig.commit(0), Ok(Commit { applied: false, charge: 0 }));
    assert_eq!((rig.value(1, B), rig.value(1, C)), (Some(9), Some(0)));
}

/// Deck D with an update of `C` and one of `B` pending at part 1, whose `C` was then written past its limit by hand.
fn outside() -> Memory {
    let mut memory = Memory::new(5 * PLACE);
    assert_eq!(memory.start(&deck_d()).number, 0);
    assert_eq!(entered(&mut memory, 1, B, 4), Ok(1));
    assert_eq!(entered(&mut memory, 0, A, 7), Ok(2));
    memory.values[CHANNELS + C as usize] = 12;
    memory
}

/// The charge that an input of one channel adds, or its refusal, which must change nothing.
fn entered(memory: &mut Memory, part: u32, channel: u32, value: i32) -> Result<u32, u32> {
    let before = memory.clone();
    let answer = memory.input(&deck_d(), part, &[channel as i32, value]).result();
    assert!(answer.is_ok() || *memory == before);
    answer.map(|[added, ..]| added).map_err(|refusal| refusal.number)
}

/// Such a state is a good one: an input there must bring the part within its limit, and one elsewhere is taken.
#[test]
fn inputs_to_a_part_outside_its_limit() {
    assert_eq!(entered(&mut outside(), 1, A, 1), Err(17));
    assert_eq!(entered(&mut outside(), 1, C, 12), Err(17));
    assert_eq!(entered(&mut outside(), 1, C, 3), Ok(0));
    assert_eq!(entered(&mut outside(), 0, A, 4), Ok(2));
}

/// Commits there are discarded until one brings the part within its limit.
#[test]
fn commits_to_a_part_outside_its_limit() {
    let mut memory = outside();
    assert_eq!(memory.commit(&deck_d(), 1).answer, [0, 0, 1, 0, 0]);
    assert_eq!(memory.commit(&deck_d(), 0).answer, [0, 1, 0, 0, 0]);
    assert_eq!(entered(&mut memory, 0, A, 4), Ok(2));
    assert_eq!(memory.settle(&deck_d(), 2).answer, [0, 1, 1, 0, 0]);
    assert_eq!(memory.values[CHANNELS..][..3], [0, 4, 5]);
}

#[test]
fn sections_are_the_decks_own_bytes() {
    let deck = Deck::check(deck_d()).expect("deck D passes");
    let sections = [Section::Channels, Section::Rules, Section::Parts].map(|section| deck.section(section));
    assert_eq!(sections.concat(), deck.bytes());
    let mut at = deck.bytes().as_ptr();
    for section in sections {
        assert_eq!(section.as_ptr(), at);
        at = at.wrapping_add(section.len());
    }
}

#[test]
fn extreme_numbers_are_refused() {
    let mut rig = started(2);
    let before = rig.clone();
    let number = |answer: Result<u32, Refusal>| answer.map_err(|refusal| refusal.number);
    assert_eq!(number(rig.input(u32::MAX, &[(0, 1)])), Err(11));
    for pairs in [&[][..], &[(u32::MAX, 1)], &[(1 << 31, 1)], &[(0, 1); 33], &[(0, 1); 1000]] {
        assert_eq!(number(rig.input(0, pairs)), Err(12));
    }
    assert_eq!(rig.commit(u32::MAX), Err(Refusal { number: 14, place: 0 }));
    assert_eq!(rig.settle(u32::MAX), Err(Refusal { number: 16, place: 0 }));
    assert_eq!((rig.value(u32::MAX, 0), rig.value(0, u32::MAX), rig.value(15, 31)), (None, None, None));
    assert_eq!(rig, before);
}
