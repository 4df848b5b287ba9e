//! A channel that no accepted input named, and that no named one leads to, is left alone: it keeps its
//! opening value at every part, and no pending update targets it. From any later state on it keeps the value
//! that it has there, if what is pending there counts as named.

use crate::common::{copy, deck_d, deck_of, fresh, ways, Setup};
use reference::check;
use reference::deck::{channel_set, Deck, Form};
use reference::engine::{Answer, Call};
use reference::generate::calls::any;
use reference::generate::{deck, Kind, Size};
use reference::graph;
use reference::random::Random;
use reference::refusal::{INPUT_CHARGE, INPUT_OUTSIDE_LIMIT};
use reference::script::{parse, Host, Line};
use reference::state::{base, below, State, Update, PLACE, VALUES};
use std::fmt::{self, Debug, Formatter};

/// The value table as the deck opens it.
fn opening_values(deck: &Deck) -> [i32; VALUES] {
    let mut values = State::ZERO.values;
    for (number, part) in deck.parts.iter().enumerate() {
        values[base(number)..][..part.opening.len()].copy_from_slice(&part.opening);
    }
    values
}

/// The channels that a table of edges or ways has for these.
fn led_to(table: &[u32; Deck::CHANNELS], from: u32) -> u32 {
    let rows = (0..Deck::CHANNELS).filter(|channel| from >> channel & 1 == 1);
    rows.fold(0, |set, channel| set | table[channel])
}

/// A list of calls so far, from a fresh start or from where it was marked.
struct Run<'a> {
    deck: &'a Deck,
    edges: [u32; Deck::CHANNELS],
    ways: [u32; Deck::CHANNELS],
    host: Host<'a>,
    /// The values that are to be kept.
    kept: [i32; VALUES],
    /// The channels that accepted inputs named, at whatever part.
    named: u32,
}

impl<'a> Run<'a> {
    fn new(deck: &'a Deck, host: Host<'a>) -> Run<'a> {
        let edges = graph::edges(deck);
        Run { deck, edges, ways: ways(&edges), host, kept: opening_values(deck), named: 0 }
    }

    /// From here on: the values as they are now, and the channels of pending updates count as named.
    fn mark(&mut self) {
        (self.kept, self.named) = (self.host.state.values, self.targeted());
    }

    fn call(&mut self, call: &Call) -> Answer {
        let answer = self.host.call(call);
        if let (Call::Input { pairs, .. }, Answer::Added(_)) = (call, &answer) {
            self.named |= self.channels_of(pairs);
        }
        answer
    }

    /// The known channels of an input's list, whether it is a good one or not.
    fn channels_of(&self, pairs: &[i32]) -> u32 {
        let known = |&channel: &i32| below(channel, self.deck.labels.len());
        channel_set(&pairs.iter().step_by(2).filter_map(known).collect::<Vec<u8>>())
    }

    /// Computed from the deck and the names alone, not from what the calls did.
    fn left_alone(&self) -> u32 {
        graph::left_alone(self.deck, self.named)
    }

    /// The same in another manner.
    fn by_ways(&self) -> u32 {
        let known = u32::MAX >> (Deck::CHANNELS - self.deck.labels.len());
        known & !self.named & !led_to(&self.ways, self.named)
    }

    fn moved(&self) -> u32 {
        self.moved_from(&self.kept)
    }

    /// The channels whose value at some part is not that of the table.
    fn moved_from(&self, values: &[i32; VALUES]) -> u32 {
        let differs = |&channel: &u8| {
            let mut places = (0..self.deck.parts.len()).map(|part| base(part) + usize::from(channel));
            places.any(|place| self.host.state.values[place] != values[place])
        };
        channel_set(&(0..self.deck.labels.len() as u8).filter(differs).collect::<Vec<u8>>())
    }

    /// The channels that some pending update targets.
    fn targeted(&self) -> u32 {
        let places = self.host.pool.chunks(PLACE).take(self.host.state.pending as usize);
        places.fold(0, |set, place| set | Update::load(place, self.deck).unwrap().targets())
    }

    /// The channels that moved or may move: none that is left alone may be among them.
    fn touched(&self) -> u32 {
        self.moved() | self.targeted()
    }

    fn assert_left_alone(&self, context: impl Debug) {
        assert_eq!(self.left_alone(), self.by_ways(), "{context:?}");
        assert_eq!(self.left_alone() & self.touched(), 0, "{context:?}");
    }
}

const LISTS: usize = 1000;
const CALLS: usize = 30;
/// In larger pools inputs seldom find no room.
const MOST_PLACES: usize = 300;

/// Mostly decks in which much happens.
const KINDS: [Kind; 6] = [Kind::Rich, Kind::Rich, Kind::Rich, Kind::Valid, Kind::Cyclic, Kind::Heavy];

/// Where rules are few beside the channels, the graph has several components.
const SIZES: [Size; 4] = [
    Size { channels: 8, rules: 6, parts: 4, expression: 20 },
    Size { channels: 16, rules: 8, parts: 4, expression: 20 },
    Size { channels: 32, rules: 16, parts: 3, expression: 20 },
    Size { channels: 32, rules: 32, parts: 16, expression: 64 },
];

/// A deck that passes. Most callers know a few of its first channels only, or soon every channel is named.
fn setup(random: &mut Random) -> Setup {
    let (kind, size) = (random.pick(&KINDS), random.pick(&SIZES));
    let bytes = std::iter::repeat_with(|| deck(kind, random, size)).find(|bytes| check(bytes).is_ok());
    let mut setup = Setup::of(Form::New, random, bytes.unwrap(), MOST_PLACES);
    if random.chance(80) {
        setup.known.channels = random.between(1, setup.known.channels.min(6));
    }
    setup
}

/// Goes through generated lists, which are marked each time that so many calls were made: each is shown after
/// its start and after every call, with that call.
fn go_through_lists(stretch: usize, mut show: impl FnMut(usize, &Run, Option<(&Call, Answer)>)) {
    let random = &mut Random::new(60);
    for list in 0..LISTS {
        let setup = setup(random);
        let mut run = Run::new(&setup.deck, setup.fresh());
        show(list, &run, None);
        for number in 0..CALLS {
            if number > 0 && number % stretch == 0 {
                run.mark();
            }
            let call = any(random, &setup.known, &run.host);
            let answer = run.call(&call);
            show(list, &run, Some((&call, answer)));
        }
    }
}

/// Channels, counted after every start and call, and the lists that had some.
#[derive(Default)]
struct Count {
    channels: u32,
    lists: u32,
    last: Option<usize>,
}

impl Count {
    fn add(&mut self, list: usize, channels: u32) {
        self.channels += channels.count_ones();
        if channels != 0 && self.last.replace(list) != Some(list) {
            self.lists += 1;
        }
    }
}

impl Debug for Count {
    fn fmt(&self, f: &mut Formatter) -> fmt::Result {
        write!(f, "{} in {} lists", self.channels, self.lists)
    }
}

#[derive(Debug, Default)]
struct Counts {
    left_alone: Count,
    /// Those of them where something was named, and then those that some carried rule targets: only they
    /// could move by a rule that fires wrongly.
    while_named: Count,
    while_named_and_target: Count,
    moved: Count,
    /// Those of them that were not named themselves, and then those that no named one has an edge to.
    only_reached: Count,
    by_two_edges: Count,
    pending: u32,
    /// Refused inputs with a channel that no accepted one named.
    refused: u32,
    /// Those of them with a channel that is left alone, by 13 and by 17.
    refused_charge: u32,
    refused_limit: u32,
}

impl Counts {
    fn channels(&mut self, list: usize, run: &Run) {
        let (left_alone, moved) = (run.left_alone(), run.moved());
        self.left_alone.add(list, left_alone);
        if run.named != 0 {
            self.while_named.add(list, left_alone);
            self.while_named_and_target.add(list, left_alone & led_to(&run.edges, u32::MAX));
        }
        let only_reached = moved & !run.named;
        self.moved.add(list, moved);
        self.only_reached.add(list, only_reached);
        self.by_two_edges.add(list, only_reached & !led_to(&run.edges, run.named));
        self.pending += run.host.state.pending;
    }

    fn refused_input(&mut self, run: &Run, pairs: &[i32], number: u32) {
        let channels = run.channels_of(pairs);
        let left_alone = u32::from(channels & run.left_alone() != 0);
        self.refused += u32::from(channels & !run.named != 0);
        match number {
            INPUT_CHARGE => self.refused_charge += left_alone,
            INPUT_OUTSIDE_LIMIT => self.refused_limit += left_alone,
            _ => {}
        }
    }
}

#[test]
fn channels_that_are_left_alone_keep_their_opening_values() {
    let mut counts = Counts::default();
    go_through_lists(CALLS, |list, run, last| {
        run.assert_left_alone((list, last));
        counts.channels(list, run);
        if let Some((Call::Input { pairs, .. }, Answer::Refused(refusal))) = last {
            counts.refused_input(run, pairs, refusal.number);
        }
    });
    println!("{LISTS} lists of {CALLS} calls: {counts:?}");
    // About half of what comes: with far fewer the sentence would hardly be put to the test.
    let floors = [
        (&counts.left_alone, 75_000, 500),
        (&counts.while_named, 60_000, 400),
        (&counts.while_named_and_target, 20_000, 270),
        (&counts.moved, 60_000, 400),
        (&counts.only_reached, 10_000, 240),
        (&counts.by_two_edges, 1_800, 70),
    ];
    let enough =
        |(count, channels, lists): &(&Count, u32, u32)| count.channels > *channels && count.lists > *lists;
    assert!(floors.iter().all(enough), "{counts:?}");
    let Counts { pending, refused, refused_charge, refused_limit, .. } = counts;
    assert!(pending > 45_000 && refused > 1_200 && refused_charge > 550 && refused_limit > 240, "{counts:?}");
}

#[test]
fn from_any_state_on_they_keep_what_they_have() {
    let (mut left_alone, mut away, mut moved) = (0, 0, 0);
    go_through_lists(CALLS / 3, |list, run, last| {
        run.assert_left_alone((list, last));
        left_alone += run.left_alone().count_ones();
        away += (run.left_alone() & run.moved_from(&opening_values(run.deck))).count_ones();
        moved += run.moved().count_ones();
    });
    println!("{LISTS} lists of {CALLS} calls: {left_alone} left alone, {away} of them away from their opening value, {moved} moved");
    assert!(left_alone > 75_000 && away > 2_000 && moved > 30_000, "{left_alone} {away} {moved}");
}

/// Which channels are left alone.
type Reading = fn(&Run) -> u32;

#[test]
fn wrong_readings_leave_alone_what_moves() {
    let readings: [(&str, Reading); 4] = [
        ("one edge only", |run| !run.named & !led_to(&run.edges, run.named)),
        ("no edges", |run| !run.named),
        ("named ones left alone", |run| !led_to(&run.ways, run.named)),
        ("nothing named", |_| u32::MAX),
    ];
    let mut violations = readings.map(|(reading, _)| (reading, 0));
    go_through_lists(CALLS, |_, run, _| {
        let touched = run.touched();
        for ((_, count), (_, left_alone)) in violations.iter_mut().zip(readings) {
            *count += (left_alone(run) & touched).count_ones();
        }
    });
    println!("{LISTS} lists of {CALLS} calls: {violations:?}");
    assert!(violations.iter().all(|&(_, count)| count > 2_000), "{violations:?}");
}

/// The call that a line says; an input's fields are part, channel and value.
fn call_of(line: &str) -> Call {
    match parse(line.as_bytes()) {
        Some(Line::Call(call)) => call,
        other => panic!("{line}: {other:?}"),
    }
}

#[test]
fn lists_on_deck_d() {
    let bytes = deck_d();
    let (deck, _) = Deck::read(&bytes).unwrap();
    let [a, b, c] = [0, 1, 2].map(|channel| 1 << channel);
    // Places, named, left alone, calls with their answers.
    let lists: [(usize, u32, u32, &[_]); 7] = [
        (2, 0, a | b | c, &[]),
        (2, c, a | b, &[("input 1 2 5", "added 0")]),
        (2, 0, a | b | c, &[("input 1 2 10", "refused 17 0")]),
        (2, b, a, &[("input 1 1 1", "added 1"), ("settle 65535", "settled 1")]),
        (2, a, 0, &[("input 0 0 4", "added 2")]),
        (2, a, 0, &[("input 0 0 0", "added 0")]),
        (1, 0, a | b | c, &[("input 0 0 4", "refused 13 0")]),
    ];
    for (places, named, left_alone, calls) in lists {
        let mut run = Run::new(&deck, fresh(&bytes, places));
        run.assert_left_alone("start");
        for (line, answer) in calls {
            assert_eq!(run.call(&call_of(line)).to_string(), *answer, "{line}");
            run.assert_left_alone(line);
        }
        assert_eq!((run.named, run.left_alone()), (named, left_alone), "{calls:?}");
    }
}

#[test]
fn what_a_leads_to_in_deck_d() {
    let bytes = deck_d();
    let mut host = fresh(&bytes, 2);
    host.call(&call_of("input 0 0 4"));
    assert_eq!((host.state.pending, &host.pool[..4]), (1, &[1, 1, 1, 4][..]));
    host.call(&call_of("settle 65535"));
    let mut values = State::ZERO.values;
    (values[0], values[base(1) + 1], values[base(1) + 2]) = (4, 4, 5);
    assert_eq!(host.state, State { values, pending: 0 });
}

#[test]
fn edges_are_those_of_rules_that_some_part_carries() {
    // Nobody carries the first rule, and only part 1 the second.
    let deck = deck_of(3, vec![copy(0, 1), copy(1, 2)], &[&[], &[1]]);
    let bytes = deck.encode().bytes;
    for (line, left_alone) in [("input 0 0 4", &[1, 2][..]), ("input 0 1 4", &[0])] {
        let mut run = Run::new(&deck, fresh(&bytes, 1));
        assert_eq!(run.call(&call_of(line)), Answer::Added(0));
        assert_eq!(run.left_alone(), channel_set(left_alone), "{line}");
    }
}
