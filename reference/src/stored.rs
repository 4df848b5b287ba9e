//! Small decks by hand, and the decks that are stored beside the proved programs for their
//! tests, each with its line. The lines are written down here and not computed.

use crate::deck::{Assignment, Deck, Form, Kind, Part, Rule};
use crate::expression::{Number, Truth};
use crate::generate::decks::longest_of;
use crate::generate::heavy::exact;
use crate::random::Random;

/// Deck D of document 01.
pub fn deck_d() -> Vec<u8> {
    let mut deck = vec![0x03, 0x61, 0x62, 0x63, 0x02];
    deck.extend([0x01, 0x00, 0x00, 0x01, 0x01, 0x11, 0x01, 0x01, 0x02, 0x01, 0x00]);
    deck.extend([
        0x01, 0x01, 0x00, 0x00, 0x01, 0x11, 0x01, 0x02, 0x08, 0x03, 0x01, 0x01, 0x00, 0x01, 0x00, 0x00, 0x00,
    ]);
    deck.push(0x02);
    deck.extend([0; 12]);
    deck.extend([0x02, 0x00, 0x01, 0x01, 0x11]);
    deck.extend([0; 12]);
    deck.extend([0x02, 0x00, 0x01, 0x08, 0x15, 0x01, 0x02, 0x00, 0x0A, 0x00, 0x00, 0x00]);
    deck
}

/// Deck D with some bytes changed.
pub fn deck_d_with(changes: &[(usize, u8)]) -> Vec<u8> {
    let mut deck = deck_d();
    for &(at, byte) in changes {
        deck[at] = byte;
    }
    deck
}

/// Deck D with bytes added at its end.
fn deck_d_and(more: &[u8]) -> Vec<u8> {
    [&deck_d()[..], more].concat()
}

/// Deck E, an old deck. Rule 0 has a default action: it sends a to b, and to the others' c; rule 1 sets c
/// to b. Both parts carry rule 1, and part 0 carries rule 0 too.
pub fn deck_e() -> Vec<u8> {
    deck_e_with_rules(
        2,
        &[0x01, 0x00, 0x01, 0x01, 0x02, 0x01, 0x00, 0x01, 0x01, 0x11, 0x01, 0x02, 0x02, 0x01, 0x00],
        [&[0, 1], &[1]],
    )
}

/// What deck E is converted to.
pub fn deck_e_converted() -> Vec<u8> {
    let default = [0x01, 0x00, 0x00, 0x00, 0x01, 0x11, 0x01, 0x01, 0x02, 0x01, 0x00];
    let task = [0x01, 0x00, 0x00, 0x01, 0x01, 0x11, 0x01, 0x02, 0x02, 0x01, 0x00];
    deck_e_with_rules(3, &[default, task].concat(), [&[0, 1, 2], &[2]])
}

/// So many rules, these and the last one, which sets c to b.
fn deck_e_with_rules(count: u8, rules: &[u8], carried: [&[u8]; 2]) -> Vec<u8> {
    let mut deck = vec![0x03, 0x61, 0x62, 0x63, count];
    deck.extend(rules);
    deck.extend([0x01, 0x01, 0x00, 0x00, 0x01, 0x11, 0x01, 0x02, 0x02, 0x01, 0x01]);
    deck.push(0x02);
    for carried in carried {
        deck.extend([0; 12]);
        deck.push(carried.len() as u8);
        deck.extend(carried);
        deck.extend([0x01, 0x11]);
    }
    deck
}

/// Deck E with one byte changed.
pub fn deck_e_with(at: usize, byte: u8) -> Vec<u8> {
    let mut deck = deck_e();
    deck[at] = byte;
    deck
}

/// Thirty-three rules from a to b, of which the first so many have a default action. The part carries the
/// first and the last.
pub fn deck_of_33_rules(defaults: usize) -> Vec<u8> {
    let default_action = |number| if number < defaults { copy(0, 1).action } else { Vec::new() };
    let rule = |number| Rule { default_action: default_action(number), ..copy(0, 1) };
    deck_of(2, (0..33).map(rule).collect(), &[&[0, 32]]).encode().bytes
}

/// Two channels, and one rule, carried by nobody, with this kind and condition: the condition's
/// first byte stands at 9.
pub fn deck_with_condition(kind: u8, condition: &[u8]) -> Vec<u8> {
    let mut deck = vec![2, b'a', b'b', 1];
    deck.extend([1, 0, 0, kind, condition.len() as u8]);
    deck.extend(condition);
    deck.extend([0, 1]);
    deck.extend([0; 8]);
    deck.extend([0, 1, 0x11]);
    deck
}

/// A rule "here" that copies its event to its target.
pub fn copy(event: u8, target: u8) -> Rule {
    Rule {
        events: vec![event],
        default_action: Vec::new(),
        kind: Kind::Here,
        condition: Truth::True,
        action: vec![assign(target, Number::Own(event))],
    }
}

pub fn assign(target: u8, expression: Number) -> Assignment {
    Assignment { target, expression }
}

/// A deck whose parts open with zeros, without limits, and carry these rules.
pub fn deck_of(channels: usize, rules: Vec<Rule>, carried: &[&[u8]]) -> Deck {
    let part =
        |carried: &&[u8]| Part { opening: vec![0; channels], carried: carried.to_vec(), limit: Truth::True };
    Deck { labels: vec![b'a'; channels], rules, parts: carried.iter().map(part).collect() }
}

/// Sixteen parts that carry 31 rules "everywhere", one for each channel but the last: to the next channel,
/// when the charge of the first rule is 15^31 and more.
fn sixteen_parts(target: impl Fn(u8) -> u8) -> Deck {
    let rule = |event: u8| Rule { kind: Kind::Everywhere, ..copy(event, target(event)) };
    let carried: Vec<u8> = (0..31).collect();
    deck_of(32, (0..31).map(rule).collect(), &[&carried[..]; 16])
}

/// A charge beyond 2^64.
pub fn steep() -> Vec<u8> {
    sixteen_parts(|event| event + 1).encode().bytes
}

/// The same with a default action to the next channel in each rule.
fn steep_old() -> Vec<u8> {
    let mut deck = sixteen_parts(|event| event + 1);
    for rule in &mut deck.rules {
        rule.default_action = copy(rule.events[0], rule.events[0] + 1).action;
    }
    deck.encode().bytes
}

/// As long as `steep`, with the same rules but for their targets: every rule has charge 15.
pub fn flat() -> Vec<u8> {
    sixteen_parts(|_| 31).encode().bytes
}

/// The longest new deck that can pass.
pub fn whole() -> Vec<u8> {
    longest_of(&mut Random::new(1), Form::New).encode().bytes
}

/// The longest old deck that can pass, and the longest with half as many rules, from which 64 result.
fn whole_old() -> [Vec<u8>; 2] {
    let deck = longest_of(&mut Random::new(1), Form::Old);
    let mut half = deck.clone();
    half.rules.truncate(32);
    half.parts.iter_mut().for_each(|part| part.carried.truncate(32));
    [deck.encode().bytes, half.encode().bytes]
}

/// A stored deck. Names begin with the number of the check's refusal.
pub struct Stored {
    pub name: &'static str,
    pub line: &'static str,
    pub deck: Vec<u8>,
    /// What the converter answers, where the deck is refused with 20.
    old: Option<&'static str>,
}

impl Stored {
    /// What the converter answers: a deck that passes is converted to itself, and one with a fault before
    /// any default action is refused as check refuses it.
    pub fn converter_line(&self) -> String {
        match self.old {
            Some(line) => line.to_string(),
            None if self.line.starts_with("passed") => format!("converted {}", self.deck.len()),
            None => self.line.to_string(),
        }
    }
}

fn stored(name: &'static str, line: &'static str, deck: Vec<u8>) -> Stored {
    Stored { name, line, deck, old: None }
}

/// A deck with default actions, its line and what the converter answers.
fn old(name: &'static str, line: &'static str, old: &'static str, deck: Vec<u8>) -> Stored {
    Stored { name, line, deck, old: Some(old) }
}

/// Deck D with some bytes changed.
fn changed(name: &'static str, line: &'static str, changes: &[(usize, u8)]) -> Stored {
    stored(name, line, deck_d_with(changes))
}

/// All stored decks, in the order in which they are checked.
pub fn all() -> Vec<Stored> {
    let to_4 = [document(), number_1(), number_2(), number_3(), number_18(), number_19(), number_4()];
    let others = [conditions(), numbers_5_and_6(), number_7(), number_8(), longest_ones()];
    let with_defaults = [deck_e_and_edits(), other_old_ones()];
    to_4.into_iter().chain(others).chain(with_defaults).flatten().collect()
}

/// A line for each stored deck with what the converter answers.
pub fn converter_lines() -> String {
    all().iter().map(|stored| format!("{}.deck {}\n", stored.name, stored.converter_line())).collect()
}

/// What stands beside the two programs, by paths below the folder `crates`: `check_deck` reads
/// one deck, and `check_files` the files that its arguments name.
pub fn files() -> Vec<(String, Vec<u8>)> {
    let stored = all();
    let names: String = stored.iter().map(|stored| format!("{}.deck\n", stored.name)).collect();
    let lines: String =
        stored.iter().map(|stored| format!("{}.deck {}\n", stored.name, stored.line)).collect();
    let mut files = vec![
        ("check_deck/stdin".to_string(), deck_d()),
        ("check_deck/stdout".to_string(), b"passed 3 2 2 2\n".to_vec()),
        ("check_files/args".to_string(), names.into_bytes()),
        ("check_files/stdout".to_string(), lines.into_bytes()),
    ];
    let data = |stored: Stored| (format!("check_files/data/{}.deck", stored.name), stored.deck);
    files.extend(stored.into_iter().map(data));
    files
}

/// P1 to P7.
fn document() -> Vec<Stored> {
    let mut alone = deck_d_with(&[(12, 0), (46, 1), (63, 1)]);
    alone.remove(64);
    alone.remove(47);
    vec![
        stored("p1", "passed 3 2 2 2", deck_d()),
        stored("p2", "refused 1 0", Vec::new()),
        stored("p3", "refused 1 74", deck_d()[..74].to_vec()),
        stored("p4", "refused 5 75", deck_d_and(&[0])),
        changed("p5", "refused 7 0", &[(23, 0)]),
        changed("p6", "refused 7 0", &[(12, 0)]),
        stored("p7", "passed 3 2 2 1", alone),
    ]
}

fn number_1() -> Vec<Stored> {
    let (unknown, wrong_type) = (deck_d_with(&[(25, 99)]), deck_d_with(&[(25, 17)]));
    vec![
        stored("1-count-alone", "refused 1 1", vec![3]),
        stored("1-before-parts", "refused 1 33", deck_d()[..33].to_vec()),
        stored("1-opening-value", "refused 1 36", deck_d()[..36].to_vec()),
        stored("1-before-3", "refused 1 32", unknown[..32].to_vec()),
        stored("1-before-18", "refused 1 32", wrong_type[..32].to_vec()),
        changed("1-before-19", "refused 1 75", &[(66, 9)]),
    ]
}

fn number_2() -> Vec<Stored> {
    vec![
        changed("2-no-channel", "refused 2 0", &[(0, 0)]),
        changed("2-33-channels", "refused 2 0", &[(0, 33)]),
        changed("2-label-32", "refused 2 1", &[(1, 32)]),
        changed("2-label-127", "refused 2 3", &[(3, 127)]),
        changed("2-65-rules", "refused 2 4", &[(4, 65)]),
        changed("2-no-event", "refused 2 5", &[(5, 0)]),
        changed("2-nine-events", "refused 2 5", &[(5, 9)]),
        changed("2-event", "refused 2 6", &[(6, 3)]),
        changed("2-events-do-not-rise", "refused 2 7", &[(5, 2)]),
        changed("2-five-assignments", "refused 2 11", &[(11, 5)]),
        changed("2-target", "refused 2 12", &[(12, 3)]),
        changed("2-kind", "refused 2 8", &[(8, 2)]),
        changed("2-length-0", "refused 2 13", &[(13, 0)]),
        changed("2-length-65", "refused 2 66", &[(66, 65)]),
        changed("2-no-part", "refused 2 33", &[(33, 0)]),
        changed("2-17-parts", "refused 2 33", &[(33, 17)]),
        changed("2-carried-count", "refused 2 46", &[(46, 3)]),
        changed("2-carried-rule", "refused 2 47", &[(47, 2)]),
        changed("2-carried-do-not-rise", "refused 2 65", &[(64, 1)]),
    ]
}

fn number_3() -> Vec<Stored> {
    vec![
        changed("3-operator-7", "refused 3 14", &[(14, 7)]),
        changed("3-operator-15", "refused 3 10", &[(10, 15)]),
        changed("3-operator-23", "refused 3 10", &[(10, 23)]),
        changed("3-operator-255", "refused 3 67", &[(67, 255)]),
        changed("3-second-operand", "refused 3 28", &[(28, 9)]),
        changed("3-own-channel", "refused 3 15", &[(15, 3)]),
        changed("3-far-channel", "refused 3 15", &[(14, 2), (15, 3)]),
        changed("3-channel-in-limit", "refused 3 69", &[(69, 3)]),
        changed("3-before-2", "refused 3 14", &[(14, 7), (33, 0)]),
        changed("3-before-7", "refused 3 69", &[(12, 0), (69, 3)]),
    ]
}

fn number_18() -> Vec<Stored> {
    let mut far = Rule { kind: Kind::Everywhere, ..copy(0, 1) };
    far.condition = Truth::Equal(Number::Far(0).into(), Number::Own(0).into());
    far.action = vec![assign(1, Number::Far(1))];
    let allowed = deck_of(2, vec![far], &[&[0], &[0]]);
    vec![
        changed("18-number-for-truth", "refused 18 10", &[(10, 3)]),
        changed("18-truth-for-number", "refused 18 25", &[(25, 17)]),
        changed("18-truth-as-operand", "refused 18 68", &[(68, 17)]),
        changed("18-number-as-operand", "refused 18 68", &[(67, 19)]),
        changed("18-number-for-limit", "refused 18 67", &[(67, 3)]),
        changed("18-far-in-here", "refused 18 26", &[(26, 2)]),
        changed("18-far-in-limit", "refused 18 68", &[(68, 2)]),
        changed("18-before-6", "refused 18 68", &[(50, 16), (68, 17)]),
        stored("far-allowed", "passed 2 1 2 1", allowed.encode().bytes),
    ]
}

fn number_19() -> Vec<Stored> {
    let cut = deck_d_with(&[(66, 7)]);
    let longer = [&deck_d_with(&[(66, 9)])[..], &[0]].concat();
    vec![
        changed("19-literal-cut", "refused 19 33", &[(26, 0)]),
        changed("19-length-less", "refused 19 74", &[(66, 7)]),
        changed("19-bytes-left", "refused 19 28", &[(25, 6)]),
        changed("19-length-more", "refused 19 33", &[(24, 9)]),
        stored("19-at-the-end-of-the-deck", "refused 19 74", cut[..74].to_vec()),
        stored("19-before-5", "refused 19 75", longer),
    ]
}

/// Conditions with a fault in the first byte, between the operands, at the end and behind it.
fn conditions() -> Vec<Stored> {
    let condition = |name, line, kind, bytes: &[u8]| stored(name, line, deck_with_condition(kind, bytes));
    let nots = |count| [vec![0x12; count], vec![0x11; 64 - count]].concat();
    vec![
        condition("3-alone", "refused 3 9", 0, &[0x07]),
        condition("3-before-18", "refused 3 10", 0, &[0x15, 0x07, 0x11]),
        condition("3-last-channel", "refused 3 13", 0, &[0x15, 0x01, 0x00, 0x01, 0x02]),
        condition("3-far-allowed", "refused 3 11", 1, &[0x15, 0x02, 0x09, 0x01, 0x00]),
        condition("18-before-19", "refused 18 9", 0, &[0x01]),
        condition("18-before-3", "refused 18 10", 0, &[0x15, 0x11, 0x07]),
        condition("18-not-of-a-number", "refused 18 10", 0, &[0x12, 0x01, 0x00]),
        condition("18-far", "refused 18 10", 0, &[0x15, 0x02, 0x00, 0x01, 0x00]),
        condition("18-far-before-its-channel", "refused 18 10", 0, &[0x15, 0x02, 0x09, 0x01, 0x00]),
        condition("18-far-without-channel", "refused 18 10", 0, &[0x15, 0x02]),
        condition("18-far-for-truth", "refused 18 9", 1, &[0x02, 0x09]),
        condition("19-far-without-channel", "refused 19 11", 1, &[0x15, 0x02]),
        condition("19-not-alone", "refused 19 10", 0, &[0x12]),
        condition("19-two-truths", "refused 19 10", 0, &[0x11, 0x11]),
        condition("19-channel-missing", "refused 19 13", 0, &[0x15, 0x01, 0x00, 0x01]),
        condition("19-literal-of-two-bytes", "refused 19 13", 0, &[0x15, 0x00, 0x05, 0x00]),
        condition("19-unknown-byte-left", "refused 19 14", 0, &[0x15, 0x01, 0x00, 0x01, 0x01, 0x07]),
        condition("19-not-64-times", "refused 19 73", 0, &nots(64)),
        condition("19-not-62-times", "refused 19 72", 0, &nots(62)),
        condition("not-63-times", "passed 2 1 1 0", 0, &nots(63)),
        condition("less-than-far", "passed 2 1 1 0", 1, &[0x15, 0x02, 0x00, 0x01, 0x00]),
    ]
}

/// Three assignments, the last of which has the target of the first.
fn target_twice() -> Vec<Assignment> {
    vec![assign(1, Number::Own(0)), assign(2, Number::Own(0)), assign(1, Number::Own(0))]
}

fn number_4() -> Vec<Stored> {
    let rule = Rule { action: target_twice(), ..copy(0, 1) };
    let twice = deck_of(3, vec![rule], &[&[]]).encode().bytes;
    let with = |at: usize, byte| {
        let mut deck = twice.clone();
        deck[at] = byte;
        deck
    };
    vec![
        stored("4-action", "refused 4 20", twice.clone()),
        stored("4-before-2", "refused 4 20", with(21, 65)),
        stored("4-before-3", "refused 4 20", with(22, 7)),
        stored("18-before-4", "refused 18 18", with(18, 17)),
        stored("19-before-4", "refused 19 20", with(18, 6)),
    ]
}

fn numbers_5_and_6() -> Vec<Stored> {
    // A sum that clamps is equal to the largest number; the literal is negative, high byte last.
    let largest = || Box::new(Number::Literal(i32::MAX));
    let sum = Number::Sum(largest(), Box::new(Number::Literal(1)));
    let negative = Truth::Less(Number::Own(0).into(), Number::Literal(-2).into());
    let mut clamps = deck_of(1, Vec::new(), &[&[], &[]]);
    clamps.parts[0].limit = Truth::Equal(sum.into(), largest());
    clamps.parts[1].opening = vec![-3];
    clamps.parts[1].limit = negative;
    vec![
        stored("5-many-bytes", "refused 5 75", deck_d_and(&[7; 1000])),
        stored("5-before-6", "refused 5 75", [&deck_d_with(&[(59, 10)])[..], &[0]].concat()),
        changed("6-part-1", "refused 6 1", &[(59, 10)]),
        changed("6-both-parts", "refused 6 0", &[(59, 10), (50, 16)]),
        changed("6-before-7", "refused 6 1", &[(59, 10), (12, 0)]),
        changed("at-the-limit", "passed 3 2 2 2", &[(59, 9)]),
        stored("clamps", "passed 1 0 2 0", clamps.encode().bytes),
    ]
}

fn number_7() -> Vec<Stored> {
    let links = |links: &[(u8, u8)]| links.iter().map(|&(a, b)| copy(a, b)).collect::<Vec<_>>();
    let diamond = deck_of(4, links(&[(0, 1), (0, 2), (1, 3), (2, 3)]), &[&[0, 1, 2, 3]]);
    let ring = deck_of(4, links(&[(0, 2), (2, 3), (3, 1), (1, 2)]), &[&[0, 1], &[2], &[3]]);
    let broken = deck_of(4, links(&[(0, 2), (2, 3), (3, 1), (1, 2)]), &[&[0, 1], &[2], &[]]);
    vec![
        stored("diamond", "passed 4 4 1 2", diamond.encode().bytes),
        stored("7-ring-of-three", "refused 7 1", ring.encode().bytes),
        stored("ring-that-nobody-carries", "passed 4 4 3 2", broken.encode().bytes),
    ]
}

/// Rule 0, and rules that each lead from a channel to the next, so many from each; only part 1 carries them.
fn later_part(each: usize, rule: impl Fn(u8) -> Rule) -> Vec<u8> {
    let mut rules = vec![copy(17, 18)];
    rules.extend((0..17).flat_map(|event| vec![rule(event); each]));
    let all: Vec<u8> = (0..rules.len() as u8).collect();
    deck_of(19, rules, &[&[0], &all]).encode().bytes
}

fn number_8() -> Vec<Stored> {
    let exact = |charge| exact(&mut Random::new(2), charge, Form::New).encode().bytes;
    vec![
        stored("charge-65535", "passed 13 44 2 65535", exact(65_535)),
        stored("8-65536", "refused 8 5", exact(65_536)),
        stored("8-later-part", "refused 8 65", later_part(2, |event| copy(event, event + 1))),
        stored("8-beyond-64-bits", "refused 8 0", steep()),
        stored("as-long", "passed 32 31 16 15", flat()),
    ]
}

fn longest_ones() -> Vec<Stored> {
    vec![
        stored("longest", "passed 32 64 16 8385", whole()),
        stored("longest-and-a-byte", "refused 5 25987", [&whole()[..], &[0]].concat()),
        stored("longest-and-two", "refused 5 25987", [&whole()[..], &[0, 0]].concat()),
    ]
}

fn deck_e_and_edits() -> Vec<Stored> {
    vec![
        old("20-e", "refused 20 7", "converted 73", deck_e()),
        stored("e-converted", "passed 3 3 2 2", deck_e_converted()),
        stored("2-five-in-default", "refused 2 7", deck_e_with(7, 5)),
        old("20-before-3", "refused 20 7", "refused 3 10", deck_e_with(10, 7)),
        old("20-before-18", "refused 20 7", "refused 18 10", deck_e_with(10, 2)),
        stored("1-default-count", "refused 1 7", deck_e()[..7].to_vec()),
        old("20-before-1", "refused 20 7", "refused 1 8", deck_e()[..8].to_vec()),
        old("20-before-5", "refused 20 7", "refused 5 65", [&deck_e()[..], &[0]].concat()),
        old("20-before-7", "refused 20 7", "refused 7 0", deck_e_with(8, 0)),
        old("20-four-assignments", "refused 20 7", "refused 4 12", deck_e_with(7, 4)),
        stored("2-default-count-255", "refused 2 7", deck_e_with(7, 255)),
        old("20-before-2", "refused 20 7", "refused 2 8", deck_e_with(8, 3)),
        old("20-before-19", "refused 20 7", "refused 19 12", deck_e_with(10, 6)),
        old("20-before-6", "refused 20 7", "refused 6 0", deck_e_with(48, 16)),
        old("20-here", "refused 20 7", "converted 73", deck_e_with(12, 0)),
    ]
}

fn other_old_ones() -> Vec<Stored> {
    let one = |rule: Rule| deck_of(3, vec![rule], &[&[0], &[0]]).encode().bytes;
    let default = |default_action| Rule { default_action, ..copy(0, 1) };
    let far = Rule { kind: Kind::Everywhere, ..default(vec![assign(1, Number::Far(1))]) };
    let alone = Rule { action: Vec::new(), ..default(copy(0, 1).action) };
    let ring = Rule { default_action: copy(2, 2).action, action: Vec::new(), ..copy(2, 2) };
    let double = |event| Rule { default_action: copy(event, event + 1).action, ..copy(event, event + 1) };
    let second = deck_of(3, vec![copy(0, 1), default(copy(0, 2).action)], &[&[]]).encode().bytes;
    let mut unknown_before = second.clone();
    unknown_before[14] = 7;
    let [whole, half] = whole_old();
    vec![
        old("20-far-in-default", "refused 20 7", "refused 18 10", one(far)),
        old("20-before-4", "refused 20 7", "refused 4 16", one(default(target_twice()))),
        old("20-target-in-both", "refused 20 7", "converted 62", one(default(copy(0, 1).action))),
        old("20-default-alone", "refused 20 7", "converted 58", one(alone)),
        old("20-default-ring", "refused 20 7", "refused 7 2", one(ring)),
        old("20-second-rule", "refused 20 18", "converted 54", second),
        stored("3-before-20", "refused 3 14", unknown_before),
        old("20-before-8", "refused 20 34", "refused 8 65", later_part(1, double)),
        old("20-beyond-64-bits", "refused 20 36", "refused 8 0", steep_old()),
        old("20-33-rules-32-defaults", "refused 20 6", "refused 21 0", deck_of_33_rules(32)),
        old("20-33-rules-31-defaults", "refused 20 6", "converted 723", deck_of_33_rules(31)),
        old("20-longest", "refused 20 43", "refused 21 0", whole.clone()),
        old("20-longest-and-a-byte", "refused 20 43", "refused 5 42883", [&whole[..], &[0]].concat()),
        old("20-longest-half", "refused 20 43", "converted 23971", half),
    ]
}
