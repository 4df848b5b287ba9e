//! The converter: bytes, refusals, and what a converted deck does beside the old one.

use crate::common::{
    copy, deck_d, deck_e, deck_e_converted, deck_e_with, deck_of, deck_of_33_rules, fresh, fresh_old,
    old_check_line,
};
use reference::charge::Charges;
use reference::conversion::{convert_whole, converted};
use reference::deck::{Deck, Encoded, Field, Form};
use reference::engine::{check_line, Answer, Call};
use reference::generate::calls::{any, damage, hand_written, Known};
use reference::generate::defaults::crowded;
use reference::generate::scripts::old_script;
use reference::generate::{any_kind, any_old_kind, old_deck, Kind, Size};
use reference::random::Random;
use reference::script::{replay, replay_old, Host};
use reference::{check, convert, Refusal};
use std::collections::BTreeMap;
use std::ops::Range;

/// What the converter answers for a deck, lent enough.
fn line(deck: &[u8]) -> String {
    match convert_whole(deck) {
        Ok(new) => format!("converted {}", new.len()),
        Err(refusal) => refusal.to_string(),
    }
}

#[test]
fn deck_e_becomes_what_is_written_down() {
    let (old, new) = (deck_e(), deck_e_converted());
    assert_eq!((old.len(), new.len()), (65, 73));
    assert_eq!(convert_whole(&old), Ok(new.clone()));
    assert_eq!((old_check_line(&old), check_line(&old)), ("passed 3 2 2 3".into(), "refused 20 7".into()));
    assert_eq!((old_check_line(&new), check_line(&new)), ("passed 3 3 2 2".into(), "passed 3 3 2 2".into()));
    // Once more it stays as it is, and so does deck D.
    assert_eq!(convert_whole(&new), Ok(new));
    assert_eq!(convert_whole(&deck_d()), Ok(deck_d()));
}

#[test]
fn refusals_are_those_of_the_old_check() {
    let longer = [&deck_e()[..], &[0]].concat();
    for (deck, new, converter) in [
        (deck_e_with(7, 5), "refused 2 7", "refused 2 7"),
        (deck_e_with(10, 7), "refused 20 7", "refused 3 10"),
        (deck_e_with(10, 2), "refused 20 7", "refused 18 10"),
        (deck_e()[..7].to_vec(), "refused 1 7", "refused 1 7"),
        (deck_e()[..8].to_vec(), "refused 20 7", "refused 1 8"),
        (longer, "refused 20 7", "refused 5 65"),
        (deck_e_with(8, 0), "refused 20 7", "refused 7 0"),
        (deck_of_33_rules(32), "refused 20 6", "refused 21 0"),
        (deck_of_33_rules(31), "refused 20 6", "converted 723"),
    ] {
        assert_eq!((&*check_line(&deck), &*line(&deck)), (new, converter), "{deck:x?}");
    }
    let (new, _) = Deck::read(&convert_whole(&deck_of_33_rules(31)).unwrap()).unwrap();
    assert_eq!((new.rules.len(), &new.parts[0].carried[..]), (64, &[0, 1, 63][..]));
}

/// Converts into a buffer of so many bytes, all 7: the answer and the buffer.
fn lent(deck: &[u8], length: usize) -> (Result<usize, Refusal>, Vec<u8>) {
    let mut buffer = vec![7; length];
    (convert(deck, &mut buffer), buffer)
}

#[test]
fn the_front_of_the_buffer_is_written_or_nothing() {
    let new = deck_e_converted();
    let refused = |number, place| Err(Refusal { number, place });
    for length in 0..73 {
        assert_eq!(lent(&deck_e(), length), (refused(22, 0), vec![7; length]));
    }
    for more in [0, 1, 7, 1000] {
        let whole = [&new[..], &vec![7; more]].concat();
        assert_eq!(lent(&deck_e(), 73 + more), (Ok(73), whole));
    }
    // First the old check, then 21, then 22.
    for length in [0, 72, 50_000] {
        assert_eq!(lent(&deck_e_with(10, 7), length), (refused(3, 10), vec![7; length]));
        assert_eq!(lent(&deck_of_33_rules(32), length), (refused(21, 0), vec![7; length]));
    }
    assert_eq!(lent(&deck_of_33_rules(31), 722).0, refused(22, 0));
}

#[test]
fn a_rule_is_split_carried_or_not_and_with_an_empty_action() {
    let mut rules = vec![copy(0, 1), copy(1, 2), copy(0, 2)];
    rules[0].default_action = copy(0, 2).action;
    rules[0].action.clear();
    rules[2].default_action = copy(0, 1).action;
    let (new, _) =
        Deck::read(&convert_whole(&deck_of(3, rules, &[&[0, 1], &[1]]).encode().bytes).unwrap()).unwrap();
    assert_eq!(new.rules.len(), 5);
    assert!(new.rules[1].action.is_empty() && new.rules[3].action == copy(0, 1).action);
    assert_eq!([&new.parts[0].carried[..], &new.parts[1].carried], [&[0, 1, 2][..], &[2]]);
}

/// The same by the bytes: stretches of the old deck, with what a rule becomes written between them.
fn by_bytes(old: &Encoded) -> Vec<u8> {
    let mut splitter = Splitter::default();
    let ends = old.fields.iter().skip(1).map(|&(at, _)| at).chain([old.bytes.len()]);
    for (&(at, field), end) in old.fields.iter().zip(ends) {
        splitter.field(field, &old.bytes[at..end]);
    }
    splitter.new
}

#[derive(Default)]
struct Splitter {
    new: Vec<u8>,
    /// Where the count stands that may grow: that of the rules, then that of a carried list.
    count_at: usize,
    events: Vec<u8>,
    in_default: bool,
    default: Vec<u8>,
    /// By old number, the numbers of what a rule became.
    numbers: Vec<Range<u8>>,
}

impl Splitter {
    fn field(&mut self, field: Field, bytes: &[u8]) {
        if matches!(field, Field::RuleCount | Field::CarriedCount) {
            self.count_at = self.new.len();
        }
        match field {
            Field::EventCount => self.events = bytes.to_vec(),
            Field::Event => self.events.extend(bytes),
            Field::DefaultCount => (self.in_default, self.default) = (true, bytes.to_vec()),
            Field::Kind => {
                self.rule();
                self.new.extend(bytes);
            }
            Field::CarriedRule => {
                let became = self.numbers[usize::from(bytes[0])].clone();
                self.new[self.count_at] += became.len() as u8 - 1;
                self.new.extend(became);
            }
            _ if self.in_default => self.default.extend(bytes),
            _ => self.new.extend(bytes),
        }
    }

    /// Writes what stands before a rule's kind.
    fn rule(&mut self) {
        let first = self.numbers.last().map_or(0, |last| last.end);
        let split = self.default[0] > 0;
        if split {
            self.new.extend([&self.events[..], &[0, 0, 1, 17], &self.default].concat());
            self.new[self.count_at] += 1;
        }
        self.new.extend([&self.events[..], &[0]].concat());
        self.numbers.push(first..first + 1 + u8::from(split));
        self.in_default = false;
    }
}

/// Decks that the old check passes, small and large, with few and many default actions.
fn old_ones(seed: u64, count: usize) -> impl Iterator<Item = Vec<u8>> {
    const SMALL: Size = Size { channels: 8, rules: 9, parts: 4, expression: 20 };
    let mut random = Random::new(seed);
    let decks = std::iter::repeat_with(move || {
        let size = if random.chance(20) { Size::FULL } else { SMALL };
        let kind =
            random.pick(&[Kind::Rich, Kind::Rich, Kind::Rich, Kind::Valid, Kind::Defaults, Kind::Heavy]);
        old_deck(kind, &mut random, size)
    });
    decks.filter(|deck| Form::Old.check(deck).is_ok()).take(count)
}

#[test]
fn the_bytes_are_those_of_a_second_way_to_convert() {
    let mut crowded = 0;
    for bytes in old_ones(40, 1500) {
        let (old, _) = Form::Old.read(&bytes).unwrap();
        match convert_whole(&bytes) {
            Ok(new) => assert_eq!(new, by_bytes(&old.encode())),
            Err(refusal) => {
                assert_eq!(refusal, Refusal { number: 21, place: 0 });
                assert!(converted(&old).rules.len() > 64);
                crowded += 1;
            }
        }
    }
    assert!(crowded > 50, "{crowded}");
}

#[test]
fn the_new_check_passes_and_charges_of_updates_stay() {
    let random = &mut Random::new(41);
    let mut split = 0;
    for bytes in old_ones(42, 800) {
        let Ok(new) = convert_whole(&bytes) else { continue };
        let (before, after) = (Form::Old.check(&bytes).unwrap(), check(&new).unwrap());
        assert_eq!((before.channels, before.parts), (after.channels, after.parts));
        assert!(before.rules <= after.rules && before.charge >= after.charge);
        assert_eq!(convert_whole(&new), Ok(new.clone()));
        split += usize::from(new != bytes);
        let (old, _) = Form::Old.read(&bytes).unwrap();
        let (new, _) = Deck::read(&new).unwrap();
        let (one, two) = (Charges::new(&old), Charges::new(&new));
        for _ in 0..20 {
            let part = random.below(old.parts.len());
            let known = u32::MAX >> (32 - old.labels.len());
            let targets = random.bits() as u32 & random.bits() as u32 & known;
            assert_eq!(one.of_update(part, targets), two.of_update(part, targets));
        }
    }
    assert!(split > 500, "{split}");
}

#[test]
fn a_deck_without_default_actions_becomes_its_own_bytes() {
    let mut passed = 0;
    for number in 0..2000 {
        let (_, deck) = any_kind(43, number);
        let Ok(_) = check(&deck) else { continue };
        assert_eq!(convert_whole(&deck), Ok(deck));
        passed += 1;
    }
    assert!(passed > 500, "{passed}");
}

#[test]
fn any_old_deck_is_refused_as_the_old_check_refuses_it() {
    let mut counts = BTreeMap::new();
    for number in 0..1500 {
        let (_, deck) = any_old_kind(44, number);
        let line = match (Form::Old.check(&deck), convert_whole(&deck)) {
            (Err(old), new) => {
                assert_eq!(new, Err(old));
                format!("refused {}", old.number)
            }
            (Ok(passed), Ok(new)) => {
                assert_eq!(check(&new).map(|new| new.parts), Ok(passed.parts));
                "converted".to_string()
            }
            (Ok(_), Err(new)) => new.to_string(),
        };
        *counts.entry(line).or_insert(0) += 1;
    }
    assert!(counts.len() == 12 && counts.values().all(|&count| count > 10), "{counts:?}");
}

/// Both hosts hold the same after the same call.
fn assert_same(old: &mut Host, new: &mut Host, call: &Call) -> Answer {
    let answer = old.call(call);
    assert_eq!(new.call(call), answer, "{call:?}");
    assert_eq!((&new.state, &new.pool), (&old.state, &old.pool), "{call:?}");
    answer
}

#[test]
fn runs_are_equal_call_by_call() {
    let random = &mut Random::new(45);
    let (mut commits, mut inputs, mut discarded, mut refused) = (0, 0, 0, 0);
    for bytes in old_ones(46, 1500) {
        let Ok(converted) = convert_whole(&bytes) else { continue };
        let charge = Form::Old.check(&bytes).unwrap().charge as usize;
        let places = random.between(1, (4 * charge).clamp(3, 500));
        let (mut old, mut new) = (fresh_old(&bytes, places), fresh(&converted, places));
        assert_eq!((&new.state, &new.pool), (&old.state, &old.pool));
        let known = Known::of(&bytes);
        for _ in 0..25 {
            let call = any(random, &known, &old);
            match assert_same(&mut old, &mut new, &call) {
                Answer::Added(_) => inputs += 1,
                Answer::Committed(committed) => {
                    commits += 1;
                    discarded += u32::from(!committed.applied);
                }
                Answer::Settled(settled) => commits += settled.commits,
                Answer::Refused(_) => refused += 1,
            }
        }
    }
    assert!(commits > 5000 && inputs > 5000 && discarded > 200 && refused > 2000, "{commits} {inputs}");
}

#[test]
fn runs_are_equal_on_any_memory() {
    let random = &mut Random::new(47);
    let (mut bad, mut good) = (0, 0);
    for bytes in old_ones(48, 800) {
        let Ok(converted) = convert_whole(&bytes) else { continue };
        let (mut old, mut new) = (fresh_old(&bytes, 40), fresh(&converted, 40));
        let known = Known::of(&bytes);
        for _ in 0..6 {
            let mut lines = hand_written(random, &known, &old);
            if random.chance(30) {
                lines.push(damage(random, &known, &old));
            }
            for line in lines {
                assert_eq!(old.perform(&line), new.perform(&line));
            }
            let call = any(random, &known, &old);
            match assert_same(&mut old, &mut new, &call) {
                Answer::Refused(refusal) => bad += u32::from(refusal.number == 10),
                _ => good += 1,
            }
        }
    }
    assert!(bad > 500 && good > 500, "{bad} {good}");
}

#[test]
fn texts_print_the_same() {
    let random = &mut Random::new(49);
    for bytes in old_ones(50, 300) {
        let Ok(new) = convert_whole(&bytes) else { continue };
        let text = old_script(random, &bytes, 30);
        let converting = format!("convert 50000\n{text}");
        let said = format!("converted {}\n{}", new.len(), replay_old(&bytes, text.as_bytes()));
        assert_eq!(replay(&bytes, converting.as_bytes()), said);
    }
}

#[test]
fn crowded_decks_result_in_what_was_asked_for() {
    let random = &mut Random::new(51);
    for resulting in 33..=66 {
        let deck = crowded(random, 33, resulting);
        assert_eq!(converted(&deck).rules.len(), resulting);
        let converts = convert_whole(&deck.encode().bytes).is_ok();
        assert_eq!(converts, resulting <= 64, "{resulting}");
    }
}
