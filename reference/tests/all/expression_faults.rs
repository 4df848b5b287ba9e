//! Faults inside expressions (3, 18, 19): number, place, and the order among them and the others.

use crate::common::{assign, copy, deck_d, deck_d_with, deck_of, deck_with_condition, old_check_line};
use reference::deck::{Encoded, Field, Form, Kind, Rule};
use reference::engine::{check_line, Answer, Call};
use reference::expression::{Expression, Number, Scope, Truth};
use reference::generate::expression_faults::{broken, spoil};
use reference::generate::expressions::{number, truth};
use reference::generate::faults::passing;
use reference::generate::Size;
use reference::random::Random;
use reference::script::Host;
use reference::{section, start, Refusal, State};
use std::collections::BTreeMap;

/// What deck D with these bytes changed is told.
fn assert_changed(cases: &[(&[(usize, u8)], &str)]) {
    for (changes, line) in cases {
        assert_eq!(check_line(&deck_d_with(changes)), *line, "{changes:?}");
    }
}

#[test]
fn conditions() {
    // A kind and a condition whose first byte stands at 9.
    let cases: &[(u8, &[u8], &str)] = &[
        (0, &[0x07], "refused 3 9"),
        (0, &[0x01], "refused 18 9"),
        (0, &[0x12], "refused 19 10"),
        (0, &[0x11, 0x11], "refused 19 10"),
        (0, &[0x12, 0x01, 0x00], "refused 18 10"),
        (0, &[0x15, 0x01, 0x00, 0x01, 0x02], "refused 3 13"),
        (0, &[0x15, 0x01, 0x00, 0x01], "refused 19 13"),
        (0, &[0x15, 0x00, 0x05, 0x00], "refused 19 13"),
        (0, &[0x15, 0x11, 0x07], "refused 18 10"),
        (0, &[0x15, 0x07, 0x11], "refused 3 10"),
        (0, &[0x15, 0x02, 0x00, 0x01, 0x00], "refused 18 10"),
        (1, &[0x15, 0x02, 0x00, 0x01, 0x00], "passed 2 1 1 0"),
        (0, &[0x15, 0x02, 0x09, 0x01, 0x00], "refused 18 10"),
        (1, &[0x15, 0x02, 0x09, 0x01, 0x00], "refused 3 11"),
        (0, &[0x15, 0x02], "refused 18 10"),
        (1, &[0x15, 0x02], "refused 19 11"),
        (1, &[0x02, 0x09], "refused 18 9"),
        (0, &[0x15, 0x01, 0x00, 0x01, 0x01, 0x07], "refused 19 14"),
        (0, &[0x15, 0x01, 0x00, 0x01, 0x01], "passed 2 1 1 0"),
    ];
    for (kind, condition, line) in cases {
        assert_eq!(check_line(&deck_with_condition(*kind, condition)), *line, "{kind} {condition:x?}");
    }
}

#[test]
fn conditions_and_assigned_expressions_of_deck_d() {
    assert_changed(&[
        (&[(10, 3)], "refused 18 10"),         // a number where a truth stands
        (&[(10, 23)], "refused 3 10"),         // an unknown operator
        (&[(10, 18)], "refused 19 11"),        // not without an operand
        (&[(14, 7)], "refused 3 14"),          // an unknown operator
        (&[(15, 3)], "refused 3 15"),          // an unknown own channel
        (&[(14, 2), (15, 3)], "refused 3 15"), // an unknown far channel
        (&[(14, 2), (15, 1)], "passed 3 2 2 2"),
        (&[(25, 17)], "refused 18 25"),         // a truth where a number stands
        (&[(25, 6)], "refused 19 28"),          // bytes left over
        (&[(26, 2)], "refused 18 26"),          // a far channel in a here task
        (&[(26, 2), (27, 9)], "refused 18 26"), // before its channel
        (&[(26, 0)], "refused 19 33"),          // the second operand ends early
        (&[(28, 22)], "refused 18 28"),         // a truth as second operand
        (&[(24, 7)], "refused 19 32"),          // a literal cut short
        (&[(24, 9)], "refused 19 33"),          // a byte of the next section left over
    ]);
}

#[test]
fn limits_of_deck_d() {
    assert_changed(&[
        (&[(68, 2)], "refused 18 68"),
        (&[(68, 0x11)], "refused 18 68"),
        (&[(69, 3)], "refused 3 69"),
        (&[(67, 19)], "refused 18 68"),
        (&[(67, 3)], "refused 18 67"),
        (&[(70, 255)], "refused 3 70"),
        (&[(50, 7)], "refused 3 50"),
        (&[(50, 19)], "refused 19 51"),
        (&[(49, 2), (51, 17)], "refused 19 51"),
    ]);
}

#[test]
fn default_actions_of_old_decks() {
    let default = |expression: &[u8]| {
        let rule = Rule {
            default_action: vec![assign(1, Number::Own(0)), assign(0, Number::Own(0))],
            kind: Kind::Everywhere,
            ..copy(0, 1)
        };
        let mut encoded = deck_of(2, vec![rule], &[&[]]).encode();
        encoded.replace_expression(13, expression);
        assert_eq!(check_line(&encoded.bytes), "refused 20 6");
        old_check_line(&encoded.bytes)
    };
    assert_eq!(default(&[1, 1]), "passed 2 1 1 0");
    // No far channel may stand there, whatever the kind.
    assert_eq!(default(&[2, 1]), "refused 18 13");
    assert_eq!(default(&[3, 1, 0, 2, 9]), "refused 18 16");
    assert_eq!(default(&[3, 1, 2, 2, 0]), "refused 3 15");
    assert_eq!(default(&[6, 17]), "refused 18 14");
    assert_eq!(default(&[6, 6, 6]), "refused 19 16");
    assert_eq!(default(&[1, 1, 1]), "refused 19 15");
}

#[test]
fn the_longest_expressions() {
    let of = |nots, others| [vec![18; nots], vec![17; others]].concat();
    assert_eq!(check_line(&deck_with_condition(0, &of(63, 1))), "passed 2 1 1 0");
    assert_eq!(check_line(&deck_with_condition(0, &of(64, 0))), "refused 19 73");
    assert_eq!(check_line(&deck_with_condition(0, &of(62, 2))), "refused 19 72");
    assert_eq!(check_line(&deck_with_condition(0, &of(64, 1))), "refused 2 8");
}

#[test]
fn after_number_1_where_bytes_are_missing() {
    // An expression is judged when all its bytes are there, whatever stands before.
    for (changes, line) in [([(25, 99)], "refused 3 25"), ([(25, 17)], "refused 18 25")] {
        let deck = deck_d_with(&changes);
        assert_eq!(check_line(&deck[..33]), line);
        for length in 25..33 {
            assert_eq!(check_line(&deck[..length]), format!("refused 1 {length}"));
        }
    }
    assert_eq!(check_line(&deck_d_with(&[(66, 9)])), "refused 1 75");
    // What the length byte counts is all there: the deck may end with it.
    assert_eq!(check_line(&deck_d()[..74]), "refused 1 74");
    assert_eq!(check_line(&deck_d_with(&[(66, 7)])[..74]), "refused 19 74");
    assert_eq!(check_line(&deck_d_with(&[(66, 7)])), "refused 19 74");
}

#[test]
fn in_reading_order_with_numbers_2_and_4() {
    assert_changed(&[
        (&[(14, 7), (33, 0)], "refused 3 14"),
        (&[(8, 2), (14, 7)], "refused 2 8"),
        (&[(12, 3), (14, 17)], "refused 2 12"),
        (&[(14, 17), (33, 0)], "refused 18 14"),
        (&[(13, 1), (16, 0)], "refused 19 15"),
        (&[(13, 0), (14, 7)], "refused 2 13"),
        (&[(13, 65), (14, 7)], "refused 2 13"),
        (&[(14, 17), (25, 7)], "refused 18 14"),
        (&[(14, 7), (25, 17)], "refused 3 14"),
    ]);
    // Three assignments, the last of which has the first one's target at 20, or in a default action at 16.
    let twice = vec![assign(1, Number::Own(0)), assign(2, Number::Own(0)), assign(1, Number::Own(0))];
    let action = Rule { action: twice.clone(), ..copy(0, 1) };
    let default = Rule { default_action: twice, ..copy(0, 1) };
    let cases = [(2, 7, 3, 2), (2, 17, 18, 2), (2, 6, 19, 4), (6, 7, 4, 4), (6, 17, 4, 4), (6, 6, 4, 4)];
    for (after, byte, number, place) in cases {
        let with = |rule: &Rule, first: usize| {
            let mut deck = deck_of(3, vec![rule.clone()], &[&[0]]).encode().bytes;
            deck[first + after] = byte;
            deck
        };
        assert_eq!(check_line(&with(&action, 16)), format!("refused {number} {}", 16 + place));
        assert_eq!(old_check_line(&with(&default, 12)), format!("refused {number} {}", 12 + place));
    }
}

#[test]
fn before_numbers_5_to_8() {
    let longer = |changes: &[(usize, u8)]| [&deck_d_with(changes)[..], &[0]].concat();
    assert_eq!(check_line(&longer(&[])), "refused 5 75");
    assert_eq!(check_line(&longer(&[(66, 9)])), "refused 19 75");
    assert_eq!(check_line(&longer(&[(68, 17)])), "refused 18 68");
    assert_eq!(check_line(&longer(&[(69, 3)])), "refused 3 69");
    // Part 0 opens outside its limit; rule 0 leads from its event to itself.
    for (at, byte, line) in [(68, 17, "refused 18 68"), (69, 3, "refused 3 69"), (66, 7, "refused 19 74")] {
        assert_changed(&[(&[(50, 16), (at, byte)], line), (&[(12, 0), (at, byte)], line)]);
    }
    let mut steep = reference::stored::steep();
    assert_eq!(check_line(&steep), "refused 8 0");
    let last = steep.len() - 1;
    for (byte, line) in [(7, "refused 3"), (1, "refused 18"), (18, "refused 19")] {
        steep[last] = byte;
        let place = if byte == 18 { last + 1 } else { last };
        assert_eq!(check_line(&steep), format!("{line} {place}"));
    }
}

#[test]
fn in_every_call_that_tests_a_deck() {
    for (changes, number, place) in [([(69, 3)], 3, 69), ([(68, 17)], 18, 68), ([(66, 7)], 19, 74)] {
        let deck = deck_d_with(&changes);
        let refusal = Refusal { number, place };
        // Before 9 and 10, and before what each call tests of its own.
        let mut host = Host { pool: vec![7; 11], ..Host::new(&deck) };
        host.state.pending = 9;
        let before = host.clone();
        let input = Call::Input { part: 9, pairs: Vec::new() };
        for call in [input, Call::Commit { place: 99 }, Call::Settle { budget: 65_536 }] {
            assert_eq!(host.call(&call), Answer::Refused(refusal), "{call:?}");
        }
        assert_eq!(start(&deck, &mut host.pool), (Err(refusal), State::ZERO));
        assert_eq!((host.state, host.pool), (before.state, before.pool));
        assert_eq!([section(&deck, 0), section(&deck, 3)], [Err(refusal), Err(refusal)]);
    }
}

/// What the next byte of an expression has to be.
#[derive(Clone, Copy, Debug, PartialEq, Eq)]
enum Awaited {
    Number,
    Truth,
    Channel,
    Literal,
}

/// A fault of an expression: how many bytes stand before it, and what was awaited there.
#[derive(Clone, Copy, Debug, PartialEq, Eq)]
struct Fault {
    number: u32,
    at: usize,
    awaited: Option<Awaited>,
}

/// Goes over the bytes one by one with a list of what is awaited.
fn first_fault(bytes: &[u8], wanted: Awaited, scope: Scope) -> Option<Fault> {
    let mut list = vec![wanted];
    let mut at = 0;
    loop {
        let awaited = list.pop();
        let taken = match (awaited, bytes.get(at)) {
            (None, None) => return None,
            (None, Some(_)) | (Some(_), None) => Err(19),
            (Some(awaited), Some(&byte)) => taken(byte, awaited, scope),
        };
        match taken {
            Ok(operands) => list.extend(operands),
            Err(number) => return Some(Fault { number, at, awaited }),
        }
        at += 1;
    }
}

/// What is awaited after a byte, or the number of its fault.
fn taken(byte: u8, wanted: Awaited, scope: Scope) -> Result<&'static [Awaited], u32> {
    use Awaited::{Channel, Literal, Number, Truth};
    let (given, operands): (Awaited, &[Awaited]) = match (wanted, byte) {
        (Literal, _) => return Ok(&[]),
        (Channel, _) => return if usize::from(byte) < scope.channels { Ok(&[]) } else { Err(3) },
        (_, 0) => (Number, &[Literal; 4]),
        (_, 1 | 2) => (Number, &[Channel]),
        (_, 3..=5) => (Number, &[Number; 2]),
        (_, 6) => (Number, &[Number]),
        (_, 16 | 17) => (Truth, &[]),
        (_, 18) => (Truth, &[Truth]),
        (_, 19 | 20) => (Truth, &[Truth; 2]),
        (_, 21 | 22) => (Truth, &[Number; 2]),
        _ => return Err(3),
    };
    let allowed = given == wanted && (byte != 2 || scope.far);
    allowed.then_some(operands).ok_or(18)
}

/// The reader must find the same fault, where other bytes stand before the expression as well.
fn assert_agreed(bytes: &[u8], wanted: Awaited, scope: Scope, before: usize) -> Option<Fault> {
    let fault = first_fault(bytes, wanted, scope);
    let all = [&vec![17; before][..], bytes].concat();
    let refusal = match wanted {
        Awaited::Truth => Truth::read_whole(&all, before, scope).err(),
        _ => Number::read_whole(&all, before, scope).err(),
    };
    let expected = fault.map(|fault| Refusal::at(fault.number, before + fault.at));
    assert_eq!(refusal, expected, "{bytes:x?} {wanted:?} {scope:?}");
    fault
}

/// All lists of so many of these bytes.
fn all_lists(bytes: &[u8], length: usize) -> Vec<Vec<u8>> {
    let longer = |list: Vec<u8>| bytes.iter().map(move |&byte| [&list[..], &[byte]].concat());
    (0..length).fold(vec![Vec::new()], |lists, _| lists.into_iter().flat_map(longer).collect())
}

#[test]
fn the_reader_agrees_on_all_short_expressions() {
    // Every operator, and unknown ones beside them; channels 0 and 1 are known.
    let bytes: Vec<u8> = (0..=7).chain(15..=23).chain([255]).collect();
    let mut numbers = BTreeMap::new();
    for list in (1..=4).flat_map(|length| all_lists(&bytes, length)) {
        for wanted in [Awaited::Number, Awaited::Truth] {
            for far in [false, true] {
                let fault = assert_agreed(&list, wanted, Scope { channels: 2, far }, 0);
                *numbers.entry(fault.map_or(0, |fault| fault.number)).or_insert(0) += 1;
            }
        }
    }
    assert!([0, 3, 18, 19].iter().all(|number| numbers[number] > 50), "{numbers:?}");
}

/// In which way an expression is broken.
fn way(bytes: &[u8], fault: &Fault) -> &'static str {
    let (byte, left) = (bytes.get(fault.at), bytes.len() - fault.at);
    match (fault.number, fault.awaited) {
        (3, Some(Awaited::Channel)) if bytes[fault.at - 1] == 2 => "unknown far channel",
        (3, Some(Awaited::Channel)) => "unknown own channel",
        (3, _) => "unknown operator",
        (18, Some(Awaited::Number)) if byte == Some(&2) => "far channel",
        (18, _) if fault.at == 0 => "wrong type",
        (18, _) => "wrong type of an operand",
        (_, None) if left == 1 => "a byte left over",
        (_, None) => "bytes left over",
        (_, Some(Awaited::Literal)) => "ends within a literal",
        (_, Some(Awaited::Channel)) => "ends before a channel",
        _ => "ends before an operand",
    }
}

#[test]
fn the_reader_agrees_on_broken_expressions() {
    let random = &mut Random::new(30);
    let (mut numbers, mut ways, mut late) = (BTreeMap::new(), BTreeMap::new(), 0);
    for _ in 0..20_000 {
        let scope = Scope { channels: random.between(1, 32), far: random.chance(50) };
        let (wanted, length) =
            (random.pick(&[Awaited::Number, Awaited::Truth]), random.pick(&[3, 8, 20, 64]));
        let mut bytes = match wanted {
            Awaited::Truth => truth(random, scope, length).encode(),
            _ => number(random, scope, length).encode(),
        };
        assert_eq!(first_fault(&bytes, wanted, scope), None);
        spoil(random, &mut bytes, scope.channels as u8);
        assert!((1..=64).contains(&bytes.len()));
        let Some(fault) = assert_agreed(&bytes, wanted, scope, random.below(100)) else { continue };
        *numbers.entry(fault.number).or_insert(0) += 1;
        *ways.entry(way(&bytes, &fault)).or_insert(0) += 1;
        late += usize::from(fault.at > 10);
    }
    assert!([3, 18, 19].iter().all(|number| numbers[number] > 3000), "{numbers:?}");
    assert!(ways.len() == 11 && ways.values().all(|&count| count > 200), "{ways:?}");
    assert!(late > 3000, "{late}");
}

/// An expression of a deck: where it stands and what it must be.
#[derive(Clone, Copy)]
struct Standing {
    start: usize,
    role: &'static str,
    wanted: Awaited,
    far: bool,
}

fn expressions(encoded: &Encoded) -> Vec<Standing> {
    let limit = Standing { start: 0, role: "limit", wanted: Awaited::Truth, far: false };
    let (mut found, mut now) = (Vec::new(), limit);
    for &(at, field) in &encoded.fields {
        match field {
            Field::EventCount => now = Standing { role: "default action", wanted: Awaited::Number, ..limit },
            Field::Kind => now = Standing { role: "condition", far: encoded.bytes[at] == 1, ..limit },
            Field::ActionCount if now.role == "condition" => {
                now = Standing { role: "action", wanted: Awaited::Number, ..now };
            }
            Field::PartCount => now = limit,
            Field::Expression => found.push(Standing { start: at, ..now }),
            _ => {}
        }
    }
    found
}

const SMALL: Size = Size { channels: 6, rules: 6, parts: 4, expression: 20 };

/// Roles of expressions, with their kind, times three faults: default actions stand in old decks alone.
const FORMS: [(Form, usize); 2] = [(Form::New, 15), (Form::Old, 18)];

#[test]
fn the_deck_has_the_fault_of_its_expression_where_it_stands() {
    for (form, roles) in FORMS {
        faults_where_they_stand(form, roles);
    }
}

fn faults_where_they_stand(form: Form, roles: usize) {
    let random = &mut Random::new(31);
    let mut counts = BTreeMap::new();
    for round in 0..6000 {
        let passing = passing(random, SMALL, form);
        let mut encoded = passing.encode();
        let Standing { start, role, wanted, far } = random.pick(&expressions(&encoded));
        let scope = Scope { channels: passing.labels.len(), far };
        let end = start + usize::from(encoded.bytes[start - 1]);
        let mut expression = encoded.bytes[start..end].to_vec();
        assert_eq!(first_fault(&expression, wanted, scope), None);
        spoil(random, &mut expression, scope.channels as u8);
        encoded.replace_expression(start, &expression);
        let Some(Fault { number, at, .. }) = first_fault(&expression, wanted, scope) else { continue };
        assert_eq!(form.check(&encoded.bytes), Err(Refusal::at(number, start + at)), "{round}");
        *counts.entry((role, far, number)).or_insert(0) += 1;
    }
    // Conditions and actions stand in rules of both kinds.
    assert!(counts.len() == roles && counts.values().all(|&count| count > 20), "{counts:?}");
}

#[test]
fn generated_decks_have_faults_in_all_expressions_and_at_their_end() {
    for (form, roles) in FORMS {
        faults_in_all_expressions(form, roles);
    }
}

fn faults_in_all_expressions(form: Form, roles: usize) {
    let mut counts = BTreeMap::new();
    let (mut at_the_end, mut cut) = (0, 0);
    for seed in 0..6000 {
        let whole = passing(&mut Random::new(seed), SMALL, form).encode();
        let broken = broken(&mut Random::new(seed), SMALL, form);
        let Err(Refusal { number, place }) = form.check(&broken) else { continue };
        // Up to the broken expression the two decks are mostly the same.
        let standing = expressions(&whole).into_iter().rfind(|standing| standing.start <= place as usize);
        if let Some(Standing { role, far, .. }) = standing.filter(|_| [3, 18, 19].contains(&number)) {
            *counts.entry((role, far, number)).or_insert(0) += 1;
        }
        at_the_end += usize::from(number == 19 && place as usize == broken.len());
        cut += usize::from(number == 1);
    }
    assert!(counts.len() == roles && counts.values().all(|&count| count > 20), "{counts:?}");
    assert!(at_the_end > 100 && cut > 200, "{at_the_end} {cut}");
}
