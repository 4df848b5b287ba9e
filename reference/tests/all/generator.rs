//! The generators reach what they are for, and no input makes a call panic.

use crate::common::{fresh, is_at_edge, parts_within, with_pairs};
use reference::cases::{self, Case};
use reference::conversion::{convert_whole, converted};
use reference::deck::{Deck, Field, Form};
use reference::engine::{check, check_line, Answer, Call};
use reference::generate::calls::{any, Known};
use reference::generate::decks::rich;
use reference::generate::faults::damage;
use reference::generate::scripts::script;
use reference::generate::{any_kind, any_old_kind, deck, old_deck, Kind, Size};
use reference::random::Random;
use reference::refusal::INPUT_OUTSIDE_LIMIT;
use reference::script::{parse, replay, Host, Line};
use reference::{commit, convert, input, section, settle, start, State};
use std::collections::{BTreeMap, BTreeSet, HashSet};

/// Counts lines by their first word, and refusals by their number.
fn count(counts: &mut BTreeMap<String, usize>, text: &str) {
    for line in text.lines() {
        let mut words = line.split(' ');
        let first = words.next().unwrap_or("");
        let key = if first == "refused" {
            format!("refused {}", words.next().unwrap_or(""))
        } else {
            first.to_string()
        };
        *counts.entry(key).or_default() += 1;
    }
}

/// Which of these words and refusals come less than so many times.
fn rare(
    counts: &BTreeMap<String, usize>,
    words: &[&str],
    refusals: impl IntoIterator<Item = u32>,
    least: usize,
) -> Vec<String> {
    let refusals = refusals.into_iter().map(|number| format!("refused {number}"));
    let wanted = words.iter().map(|word| word.to_string()).chain(refusals);
    wanted.filter(|key| counts.get(key).is_none_or(|&count| count < least)).collect()
}

/// The refusals of check.
fn of_check() -> impl Iterator<Item = u32> {
    (1..=8).chain(18..=20)
}

/// The refusals of the converter, lent enough.
fn of_converter() -> impl Iterator<Item = u32> {
    (1..=8).chain([18, 19, 21])
}

/// What the converter answers: whether the deck changed, or the refusal.
fn conversion_line(deck: &[u8]) -> String {
    match convert_whole(deck) {
        Ok(new) if new == deck => "same".to_string(),
        Ok(new) => format!("converted {}", new.len()),
        Err(refusal) => refusal.to_string(),
    }
}

#[test]
fn decks_reach_every_refusal() {
    let mut counts = BTreeMap::new();
    for (name, kind) in Kind::ALL {
        let random = &mut Random::new(20);
        let rounds = if kind == Kind::Longest { 20 } else { 500 };
        for round in 0..rounds {
            let line = check_line(&deck(kind, random, Size::FULL));
            if matches!(kind, Kind::Valid | Kind::Rich) {
                assert!(line.starts_with("passed"), "{name} {round}: {line}");
            }
            count(&mut counts, &line);
        }
    }
    assert_eq!(rare(&counts, &["passed"], of_check(), 1), Vec::<String>::new(), "{counts:?}");
}

#[test]
fn decks_of_a_comparison_have_each_refusal_often() {
    let mut counts = BTreeMap::new();
    (0..4000).for_each(|number| count(&mut counts, &check_line(&any_kind(1, number).1)));
    assert_eq!(rare(&counts, &["passed"], of_check(), 100), Vec::<String>::new(), "{counts:?}");
}

#[test]
fn old_decks_reach_every_answer_of_the_converter() {
    for (name, kind) in [("valid", Kind::Valid), ("rich", Kind::Rich)] {
        let random = &mut Random::new(27);
        for round in 0..500 {
            let deck = old_deck(kind, random, Size::FULL);
            assert!(Form::Old.check(&deck).is_ok(), "{name} {round}");
        }
    }
    let mut counts = BTreeMap::new();
    (0..2000).for_each(|number| count(&mut counts, &conversion_line(&any_old_kind(1, number).1)));
    let rare = rare(&counts, &["same", "converted"], of_converter(), 40);
    assert_eq!(rare, Vec::<String>::new(), "{counts:?}");
}

#[test]
fn decks_with_default_actions_stand_around_64_rules_and_around_the_count() {
    let random = &mut Random::new(28);
    let mut rules = BTreeMap::new();
    let mut lines = BTreeMap::new();
    for _ in 0..2000 {
        let deck = deck(Kind::Defaults, random, Size::FULL);
        if let Ok((deck, _)) = Form::Old.read(&deck) {
            *rules.entry(converted(&deck).rules.len()).or_insert(0) += 1;
        }
        count(&mut lines, &check_line(&deck));
    }
    assert!((64..=65).all(|number| rules[&number] > 100), "{rules:?}");
    let most = lines["refused 20"];
    assert!(most > 1500 && lines["refused 1"] > 5 && lines["refused 2"] > 20, "{lines:?}");
}

#[test]
fn damage_reaches_every_kind_of_field() {
    let random = &mut Random::new(21);
    let mut faults = HashSet::new();
    for _ in 0..20_000 {
        let whole =
            rich(random, Size { channels: 6, rules: 6, parts: 4, expression: 12 }, Form::New).encode();
        let mut damaged = whole.clone();
        damage(random, &mut damaged);
        let Err(refusal) = Deck::read(&damaged.bytes) else { continue };
        let at = refusal.place as usize;
        // Up to the fault the bytes are those of the whole deck, and so are the fields.
        if whole.bytes.get(..at) == damaged.bytes.get(..at) {
            let field = whole.fields.iter().find(|&&(start, _)| start == at);
            faults.insert((refusal.number, field.map(|&(_, field)| field)));
        }
    }
    use Field::{
        ActionCount, CarriedCount, CarriedRule, ChannelCount, DefaultCount, Event, EventCount, Expression,
    };
    use Field::{ExpressionLength, Label, OpeningValue, PartCount, RuleCount, Target};
    let listed = [ChannelCount, Label, RuleCount, EventCount, Event, DefaultCount, ActionCount, Target];
    let others = [ExpressionLength, Field::Kind, PartCount, CarriedCount, CarriedRule];
    for field in listed.into_iter().chain(others) {
        assert!(faults.contains(&(2, Some(field))), "no fault 2 at {field:?}");
        assert!(faults.contains(&(1, Some(field))), "no fault 1 at {field:?}");
    }
    // 19 is left out: its place is not the byte that was changed.
    let inside = [(1, Some(Expression)), (3, Some(Expression)), (18, Some(Expression))];
    let others = [(1, Some(OpeningValue)), (4, Some(Target)), (5, None), (20, Some(DefaultCount))];
    for fault in inside.into_iter().chain(others) {
        assert!(faults.contains(&fault), "no fault {fault:?}");
    }
}

#[test]
fn scripts_reach_every_answer() {
    let mut counts = BTreeMap::new();
    for (_, kind) in Kind::ALL.into_iter().filter(|&(_, kind)| kind != Kind::Longest) {
        let random = &mut Random::new(22);
        for _ in 0..60 {
            let deck = deck(kind, random, Size::FULL);
            let text = script(random, &deck, 30);
            count(&mut counts, &replay(&deck, text.as_bytes()));
        }
    }
    let words = ["added", "applied", "discarded", "settled", "spent", "section", "started", "unreadable"];
    let words = [&words[..], &["converted"]].concat();
    assert_eq!(rare(&counts, &words, 1..=22, 1), Vec::<String>::new(), "{counts:?}");
}

/// How inputs of ordinary lists of calls end.
#[derive(Debug, Default)]
struct Inputs {
    all: usize,
    accepted: usize,
    outside: usize,
    /// One step of a channel from being refused by 17.
    accepted_at_edge: usize,
    /// One step of a channel from being within the limit.
    outside_at_edge: usize,
}

impl Inputs {
    /// Counts an input that found these values at its part, and what it was answered.
    fn count(&mut self, deck: &Deck, values: &[i32], part: u32, pairs: &[i32], answer: &Answer) {
        self.all += 1;
        let at_edge = || is_at_edge(&deck.parts[part as usize].limit, &with_pairs(values, pairs), pairs);
        match answer {
            Answer::Added(_) => {
                self.accepted += 1;
                self.accepted_at_edge += usize::from(at_edge());
            }
            Answer::Refused(refusal) if refusal.number == INPUT_OUTSIDE_LIMIT => {
                self.outside += 1;
                self.outside_at_edge += usize::from(at_edge());
            }
            _ => {}
        }
    }
}

#[test]
fn most_inputs_are_accepted_and_many_stand_at_the_edge_of_a_limit() {
    for (name, kind) in [("rich", Kind::Rich), ("valid", Kind::Valid)] {
        let random = &mut Random::new(25);
        let mut inputs = Inputs::default();
        for _ in 0..600 {
            let bytes = deck(kind, random, Size { channels: 8, rules: 9, parts: 4, expression: 20 });
            let (deck, _) = Deck::read(&bytes).unwrap();
            let known = Known::of(&bytes);
            let charge = check(&bytes).unwrap().charge as usize;
            let mut host = fresh(&bytes, random.between(10, (8 * charge).clamp(20, 2000)));
            for _ in 0..30 {
                let call = any(random, &known, &host);
                let before = host.state.values;
                let answer = host.call(&call);
                if let Call::Input { part, pairs } = &call {
                    let values = before.chunks(32).nth(*part as usize).unwrap_or(&[]);
                    inputs.count(&deck, values, *part, pairs, &answer);
                }
            }
        }
        assert!(10 * inputs.accepted > 6 * inputs.all, "{name}: {inputs:?}");
        assert!(12 * inputs.outside > inputs.all, "{name}: {inputs:?}");
        assert!(15 * inputs.accepted_at_edge > inputs.all, "{name}: {inputs:?}");
        assert!(25 * inputs.outside_at_edge > inputs.all, "{name}: {inputs:?}");
    }
}

#[test]
fn scripts_have_parts_that_are_outside_their_limits_by_hand() {
    let random = &mut Random::new(26);
    let mut counts = BTreeMap::new();
    for _ in 0..800 {
        let bytes = deck(Kind::Rich, random, Size { channels: 8, rules: 9, parts: 4, expression: 20 });
        let (deck, _) = Deck::read(&bytes).unwrap();
        let mut host = Host::new(&bytes);
        for line in script(random, &bytes, 40).lines() {
            let outside = !parts_within(&deck, &host.state.values);
            let Some(line) = parse(line.as_bytes()) else { continue };
            let printed = host.perform(&line);
            if outside && matches!(line, Line::Call(_)) {
                count(&mut counts, &printed.0.unwrap_or_default());
            }
        }
    }
    for answer in ["added", "applied", "discarded", "settled", "spent", "refused 17"] {
        assert!(counts.get(answer).is_some_and(|&count| count > 10), "{answer}: {counts:?}");
    }
}

#[test]
fn the_same_seed_gives_the_same() {
    for (_, kind) in Kind::ALL {
        let make = || {
            let random = &mut Random::new(23);
            let deck = deck(kind, random, Size::FULL);
            let text = script(random, &deck, 10);
            (deck, text)
        };
        assert_eq!(make(), make());
    }
}

#[test]
fn each_forty_cases_have_every_answer() {
    let mut committed = 0;
    for seed in 0..10 {
        for cases in cases::generate(seed, 120, &cases::Size::SMALL).chunks(40) {
            let refusals = cases.iter().flat_map(Case::refusals).map(|refusal| refusal.number);
            assert_eq!(refusals.collect::<BTreeSet<u32>>(), (1..=22).collect(), "seed {seed}");
            for word in ["added", "applied", "discarded", "settled", "spent"] {
                assert!(cases.iter().any(|case| case.run_answers(word)), "seed {seed}: {word}");
            }
            let accepted = |wanted: fn(&Case) -> bool| cases.iter().any(wanted);
            assert!(accepted(|case| matches!(case, Case::Check { line, .. } if line.starts_with("passed"))));
            assert!(accepted(|case| matches!(case, Case::Section { answer: Ok(_), .. })));
            assert!(accepted(|case| matches!(case, Case::Start { answer: Ok(()), .. })));
            assert!(accepted(
                |case| matches!(case, Case::Convert { deck, answer: Ok(new), .. } if new != deck)
            ));
            for case in cases {
                assert_case(case);
                if let Case::Run { answers, .. } = case {
                    committed +=
                        answers.iter().filter(|answer| matches!(answer, Answer::Committed(_))).count();
                }
            }
        }
    }
    assert!(committed > 300, "{committed}");
}

/// A case keeps its size, and a refusal changes nothing.
fn assert_case(case: &Case) {
    match case {
        Case::Start { pool_before, answer, state, pool_after, .. } => match answer {
            Ok(()) => assert!(pool_after.iter().all(|&number| number == 0)),
            Err(_) => assert_eq!((pool_before, state), (pool_after, &State::ZERO)),
        },
        Case::Run { pool_length, calls, answers, pool, .. } => {
            assert!(calls.len() == answers.len() && calls.len() <= 12);
            assert!(pool.len() == *pool_length && *pool_length <= 121);
        }
        Case::Memory { state_before, pool_before, answer, state_after, pool_after, .. } => {
            if matches!(answer, Answer::Refused(_)) {
                assert_eq!((state_before, pool_before), (state_after, pool_after));
            }
        }
        Case::Check { deck, line } => assert_eq!(check_line(deck), *line),
        Case::Section { deck, number, answer } => assert_eq!(section(deck, *number), *answer),
        Case::Convert { deck, length, answer } => {
            let mut buffer = vec![9; *length];
            let converted = convert(deck, &mut buffer);
            assert_eq!(converted.map(|length| buffer[..length].to_vec()), *answer);
            let written = answer.as_ref().map_or(0, Vec::len);
            assert!(buffer[written..].iter().all(|&byte| byte == 9));
        }
    }
}

#[test]
fn no_content_makes_a_call_panic() {
    let random = &mut Random::new(24);
    let edge = |random: &mut Random| {
        let any = random.bits() as i32;
        random.pick(&[0, 0, 1, 2, -1, 255, 256, 65_536, i32::MIN, i32::MAX, any])
    };
    for _ in 0..3000 {
        let kind = random.pick(&[Kind::Rich, Kind::Valid, Kind::Damaged, Kind::Noise]);
        let deck = deck(kind, random, Size { channels: 32, rules: 6, parts: 16, expression: 12 });
        let mut state = State::ZERO;
        state.values.iter_mut().for_each(|value| *value = edge(random));
        state.pending = edge(random) as u32;
        let length = random.pick(&[0, 1, 10, 25, 100]);
        let mut pool: Vec<i32> = (0..length).map(|_| edge(random)).collect();
        let pairs: Vec<i32> = (0..random.below(9)).map(|_| edge(random)).collect();
        let number = edge(random) as u32;
        let before = (state.clone(), pool.clone());
        let refused = input(&deck, &mut pool, &mut state, number, &pairs).is_err()
            && commit(&deck, &mut pool, &mut state, number).is_err()
            && settle(&deck, &mut pool, &mut state, number).is_err();
        assert!(!refused || before == (state, pool.clone()));
        let _ = (start(&deck, &mut pool), section(&deck, number));
        let _ = convert(&deck, &mut vec![0; length]);
    }
}
