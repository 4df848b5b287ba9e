//! The measured calls are what their names say.

use bench::cases::{groups, Call};
use bench::engines::Reference;
use reaction::Refusal;
use reference::check;
use reference::deck::Deck;

#[test]
fn all_are_accepted_or_refused_and_as_large_as_they_say() {
    for group in groups() {
        for case in group.cases {
            let mut lent = case.lent.clone();
            let returned = case.call.make(&mut Reference, &case.deck, &mut lent);
            let (before, after) = (&case.lent.memory, &lent.memory);
            let [place, first, second, ..] = returned.answer;
            let expected = case.refused.map_or((0, 0), |refusal| (refusal.number, refusal.place));
            assert_eq!((returned.number, place), expected, "{}, {}", group.name, case.name);
            match case.call {
                _ if case.refused.is_some() => assert_eq!(after, before, "{}", case.name),
                Call::Input { .. } => assert!(after.pending > before.pending, "{}", case.name),
                Call::Commit { .. } => assert_eq!(first, 1, "{}", case.name),
                Call::Settle { .. } => assert_eq!((first as usize, second), (case.size, 1), "{}", case.name),
                Call::Convert => assert!(check(&lent.buffer[..first as usize]).is_ok(), "{}", case.name),
                Call::Check | Call::Start => {}
            }
        }
    }
}

/// In a commit with room for more, updates follow.
#[test]
fn commits_fire() {
    for case in groups().into_iter().flat_map(|group| group.cases) {
        if !matches!(case.call, Call::Commit { .. }) || case.lent.memory.pending == 65_535 {
            continue;
        }
        let mut lent = case.lent.clone();
        case.call.make(&mut Reference, &case.deck, &mut lent);
        assert!(lent.memory.pending >= case.lent.memory.pending, "{}", case.name);
    }
}

/// Most calls are measured where they do their work; one check finds a fault in the last byte, and one input stops at a
/// limit.
#[test]
fn two_are_refused() {
    let refused = groups().into_iter().flat_map(|group| group.cases).filter_map(|case| case.refused);
    let last = Deck::BYTES as u32 - 1;
    let expected = [Refusal { number: 3, place: last }, Refusal { number: 17, place: 0 }];
    assert_eq!(refused.collect::<Vec<_>>(), expected);
}

/// The deck with a fault is compared with one that passes and is as long, and differs from it in one byte.
#[test]
fn the_fault_is_all_that_differs() {
    let checks = groups().into_iter().flat_map(|group| group.cases).filter(|case| case.size == Deck::BYTES);
    let decks: Vec<Vec<u8>> = checks.map(|case| case.deck).collect();
    let [passing, faulty] = &decks[..] else { panic!("{} decks", decks.len()) };
    assert_eq!(passing.len(), faulty.len());
    let differing = (0..passing.len()).filter(|&at| passing[at] != faulty[at]);
    assert_eq!(differing.collect::<Vec<_>>(), [Deck::BYTES - 1]);
}
