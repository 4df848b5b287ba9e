//! What a trace tells is what the archive's pool and values show after each call.

use reaction::raw::{Memory, CHANNELS};
use reference::deck::{Deck, Form};
use reference::generate::expressions::value;
use reference::generate::{decks, numbered, Size};
use reference::random::Random;
use rig::calls::{Call, Place};
use rig::firing::{pending, Made, Update};
use rig::host::{Answer, Event, Host};
use rig::order::Order;
use std::collections::BTreeMap;

/// Generated lists, and the calls of each.
const LISTS: u64 = 2_000;
const CALLS: usize = 20;

/// How often something came up, over all lists.
type Counts = BTreeMap<&'static str, usize>;

fn count(counts: &mut Counts, what: &'static str) {
    *counts.entry(what).or_default() += 1;
}

fn random_call(random: &mut Random, deck: &reaction::Deck, memory: &Memory) -> Call {
    match random.below(10) {
        0..=4 => {
            let channel = random.below(deck.channels() as usize) as i32;
            let pairs = vec![channel, value(random)];
            Call::Input { part: random.below(deck.parts() as usize) as u32, pairs }
        }
        5..=7 => {
            let place = random.below(memory.pending as usize + 1) as u32;
            Call::Commit { place: Place::Number(place) }
        }
        _ => Call::Settle { budget: random.below(6) as u32 },
    }
}

/// What the events make of the values and pending updates that were there before.
fn retold(events: &[Event], values: &mut [i32], waiting: &mut Vec<Update>, counts: &mut Counts) {
    for event in events {
        match event {
            Event::Made(Made { update, new, .. }) => {
                assert_eq!(*new, !waiting.contains(update), "an equal update is not added");
                if *new {
                    waiting.push(update.clone());
                }
                count(counts, if *new { "made" } else { "made again" });
            }
            Event::Applied(update) | Event::Discarded(update) => {
                let place = waiting.iter().position(|other| other == update).expect("a pending update");
                waiting.remove(place);
                let applied = matches!(event, Event::Applied(_));
                for &(channel, value) in update.pairs.iter().filter(|_| applied) {
                    values[CHANNELS * update.part + channel] = value;
                }
                count(counts, if applied { "applied" } else { "discarded" });
            }
        }
    }
}

/// By the archive: with one rule alone at the part that makes it, the same input leaves what was told of that rule.
fn made_by_its_rule(deck: &Deck, before: &Memory, call: &Call, events: &[Event], counts: &mut Counts) {
    let Call::Input { part, pairs } = call else { return };
    let carried = deck.parts[*part as usize].carried.clone();
    for rule in carried {
        let mut alone = deck.clone();
        alone.parts[*part as usize].carried = vec![rule];
        let bytes = alone.encode().bytes;
        let mut memory = Memory::new(before.pool.len());
        memory.values = before.values;
        if memory.input(&bytes, *part, pairs).result().is_err() {
            continue;
        }
        let mut told: Vec<&Update> = Vec::new();
        for event in events {
            if let Event::Made(made) = event {
                assert_eq!(made.at, *part as usize);
                if made.rule == usize::from(rule) && !told.contains(&&made.update) {
                    told.push(&made.update);
                }
            }
        }
        assert_eq!(pending(&memory).iter().collect::<Vec<_>>(), told, "rule {rule} at part {part}");
        count(counts, "rules alone");
    }
}

fn list(random: &mut Random, counts: &mut Counts) {
    let size = Size { channels: 6, rules: 8, parts: 4, expression: 16 };
    let fields = decks::rich(random, size, Form::New);
    let deck = reaction::Deck::check(fields.encode().bytes).expect("a deck that passes");
    let order = random.pick(&[None, Some("newest"), Some("7")]).and_then(Order::named);
    let ordered = order.is_some();
    let mut host = Host::new(&deck, &fields, order, true);
    assert_eq!(host.perform(&Call::Start { length: Some(2_000) }).answer, Answer::Started);
    for _ in 0..CALLS {
        let call = random_call(random, &deck, &host.memory);
        let before = host.memory.clone();
        let told = host.perform(&call);
        let (mut values, mut waiting) = (before.values, pending(&before));
        if let (Call::Input { part, pairs }, Answer::Added { .. }) = (&call, &told.answer) {
            values[CHANNELS * *part as usize + pairs[0] as usize] = pairs[1];
            made_by_its_rule(&fields, &before, &call, &told.events, counts);
        }
        retold(&told.events, &mut values, &mut waiting, counts);
        assert_eq!((values, waiting), (host.memory.values, pending(&host.memory)), "{call:?}");
        assert!(told.events.is_empty() || !told.answer.refused());
        count(counts, if told.answer.refused() { "refused" } else { "accepted" });
        if ordered && call != (Call::Settle { budget: 0 }) {
            count(counts, "ordered");
        }
    }
}

#[test]
fn the_trace_is_what_the_pool_shows() {
    let mut counts = Counts::new();
    for number in 0..LISTS {
        list(&mut numbered(24, number), &mut counts);
    }
    for what in
        ["made", "made again", "applied", "discarded", "rules alone", "refused", "accepted", "ordered"]
    {
        assert!(counts.get(what).copied().unwrap_or(0) > 500, "{what}: {counts:?}");
    }
}

/// A settle is the engine's own, commit by commit.
#[test]
fn a_settle_is_the_engines() {
    for number in 0..500 {
        let random = &mut numbered(25, number);
        let size = Size { channels: 6, rules: 8, parts: 4, expression: 16 };
        let fields = decks::rich(random, size, Form::New);
        let deck = reaction::Deck::check(fields.encode().bytes).expect("a deck that passes");
        let mut host = Host::new(&deck, &fields, None, random.chance(50));
        host.perform(&Call::Start { length: Some(2_000) });
        for _ in 0..6 {
            let call = random_call(random, &deck, &host.memory);
            host.perform(&call);
            let mut memory = host.memory.clone();
            let budget = random.below(9) as u32;
            let answer = memory.settle(deck.bytes(), budget).result().expect("a good state");
            let told = host.perform(&Call::Settle { budget });
            assert_eq!(told.answer, Answer::Settled { commits: answer[0], settled: answer[1] == 1 });
            assert_eq!(host.memory, memory);
        }
    }
}
