//! Calls and damage for what a host holds.

use super::expressions::value;
use super::limits::Limit;
use crate::conversion::convert_whole;
use crate::deck::Form;
use crate::engine::Call;
use crate::random::Random;
use crate::script::{Host, Line, LONGEST_BUFFER, LONGEST_POOL};
use crate::state::{base, PLACE, VALUES};

/// What a caller knows of a deck, whether it passes or not.
#[derive(Clone, Debug)]
pub struct Known {
    pub channels: usize,
    pub parts: usize,
    /// The parts' limits; none of a deck that can't be read.
    pub limits: Vec<Limit>,
}

impl Known {
    /// Counts that can't be read are taken to be small. An old deck shows as much as a new one.
    pub fn of(deck: &[u8]) -> Known {
        match Form::New.read(deck).or_else(|_| Form::Old.read(deck)) {
            Ok((deck, _)) => Known {
                channels: deck.labels.len(),
                parts: deck.parts.len(),
                limits: deck.parts.iter().map(|part| Limit::of(&part.limit)).collect(),
            },
            Err(_) => Known { channels: 3, parts: 2, limits: Vec::new() },
        }
    }

    /// The limit of a part, if some value of a channel might break it.
    fn limit(&self, part: usize) -> Option<&Limit> {
        self.limits.get(part).filter(|limit| !limit.channels.is_empty())
    }
}

/// Of a hundred inputs at a part with a limit, so many are aimed at an edge of it.
const AIMED: usize = 35;
/// Of a hundred of those, so many are within it: other inputs often break a limit anyway.
const WITHIN: usize = 65;

/// Any call, mostly one that is accepted.
pub fn any(random: &mut Random, known: &Known, host: &Host) -> Call {
    // With nothing pending there is little to commit.
    let inputs = if host.state.pending == 0 { 85 } else { 40 };
    match random.below(100) {
        choice if choice < inputs => input(random, known, host),
        choice if choice % 4 == 0 => Call::Settle { budget: budget(random, host.state.pending) },
        _ => Call::Commit { place: place(random, host.state.pending) },
    }
}

/// An input, mostly a good one.
pub fn input(random: &mut Random, known: &Known, host: &Host) -> Call {
    let part = match random.below(30) {
        0 => known.parts as u32,
        1 if random.chance(50) => random.bits() as u32,
        _ => random.below(known.parts) as u32,
    };
    let mut pairs = good_pairs(random, known, host, part as usize);
    if random.chance(AIMED) {
        aim(random, known, host, part as usize, &mut pairs);
    }
    if random.chance(9) {
        spoil(random, known, &mut pairs);
    }
    Call::Input { part, pairs }
}

/// Brings the part to an edge of its limit, on either side, if it has one: all pairs are kept but
/// for one channel, which may be added.
fn aim(random: &mut Random, known: &Known, host: &Host, part: usize, pairs: &mut Vec<i32>) {
    let Some(limit) = known.limit(part) else { return };
    let channel = random.pick(&limit.channels);
    let mut values = values_of(host, part).to_vec();
    pairs.chunks_exact(2).for_each(|pair| values[pair[0] as usize] = pair[1]);
    let Some(edge) = limit.edge(random, &values, channel) else { return };
    let value = if random.chance(WITHIN) { edge.within } else { edge.outside };
    match pairs.chunks_exact_mut(2).find(|pair| pair[0] == channel.into()) {
        Some(pair) => pair[1] = value,
        None => pairs.extend([channel.into(), value]),
    }
}

/// The values of a part, one of sixteen.
fn values_of<'a>(host: &'a Host, part: usize) -> &'a [i32] {
    &host.state.values[base(part)..base(part + 1)]
}

/// Different known channels; some of the values are those already there.
fn good_pairs(random: &mut Random, known: &Known, host: &Host, part: usize) -> Vec<i32> {
    let most = if random.chance(15) { known.channels } else { known.channels.min(4) };
    let mut channels: Vec<usize> = (0..known.channels).collect();
    random.shuffle(&mut channels);
    channels.truncate(random.between(1, most));
    let mut pairs = Vec::new();
    for channel in channels {
        let current = host.state.values.get(base(part.min(VALUES)) + channel).copied();
        let value = if random.chance(15) { current.unwrap_or(0) } else { value(random) };
        pairs.extend([channel as i32, value]);
    }
    pairs
}

/// Makes an input list a bad one.
fn spoil(random: &mut Random, known: &Known, pairs: &mut Vec<i32>) {
    let any = 2 * random.below(pairs.len() / 2);
    match random.below(8) {
        0 => pairs.clear(),
        1 => pairs.truncate(pairs.len() - 1),
        2 => pairs.push(0),
        3 => pairs.extend_from_within(any..any + 2),
        4 => pairs[any] = -random.within(1..=40),
        5 => pairs[any] = known.channels as i32,
        6 => pairs[any] = random.bits() as i32,
        _ => *pairs = (0..33).flat_map(|channel| [channel % known.channels as i32, 1]).collect(),
    }
}

/// A place, mostly below the pending number.
fn place(random: &mut Random, pending: u32) -> u32 {
    match random.below(10) {
        0 => pending,
        1 if random.chance(30) => random.bits() as u32,
        2 => random.below(pending as usize + 3) as u32,
        3 | 4 => 0,
        _ => random.below(pending as usize) as u32,
    }
}

fn budget(random: &mut Random, pending: u32) -> u32 {
    match random.below(12) {
        0 => 0,
        1 => pending,
        2 => 65_536,
        3 if random.chance(50) => random.bits() as u32,
        4 => 65_535,
        5 => random.below(65_536) as u32,
        _ => random.below(6) as u32,
    }
}

/// One number of the lent memory that is made another one.
pub fn damage(random: &mut Random, known: &Known, host: &Host) -> Line {
    let places = host.pool.len() / PLACE;
    let pending = host.state.pending as usize;
    if random.chance(15) {
        if let Some(line) = outside(random, known, host) {
            return line;
        }
    }
    match random.below(6) {
        0 => Line::Value { index: random.below(VALUES) as u32, value: value(random) },
        1 => {
            let unused = base(random.below(known.parts)) + random.between(known.channels - 1, 31);
            Line::Value { index: unused as u32, value: 1 }
        }
        2 => {
            let (one_less, one_more) =
                (host.state.pending.wrapping_sub(1), host.state.pending.wrapping_add(1));
            let any = random.bits() as u32;
            let number = random.pick(&[one_less, one_more, one_more, places as u32, places as u32 + 1, any]);
            Line::Pending { number }
        }
        3 if pending < places => {
            let number = value(random);
            pool_number(random, pending, number)
        }
        _ => {
            let number = random.pick(&[-1, 0, 1, 2, 3, 4, 5, known.parts as i32, known.channels as i32]);
            pool_number(random, pending.saturating_sub(1), number)
        }
    }
}

/// A value that brings a part only just outside its limit, as no call does; the state stays as good
/// as it was.
fn outside(random: &mut Random, known: &Known, host: &Host) -> Option<Line> {
    let part = random.below(known.parts);
    let limit = known.limit(part)?;
    let channel = random.pick(&limit.channels);
    let edge = limit.edge(random, values_of(host, part), channel)?;
    Some(Line::Value { index: (base(part) + usize::from(channel)) as u32, value: edge.outside })
}

/// A number in one of the places up to this one.
fn pool_number(random: &mut Random, last: usize, value: i32) -> Line {
    let place = if random.chance(50) { last } else { random.below(last + 1) };
    // The first numbers of a place are in use most often.
    let number = random.pick(&[0, 1, 2, 2, 3, 4, 4, 5, 6, 7, 8, 9]);
    Line::Pool { index: (PLACE * place + number) as u32, value }
}

/// What was there before a line wrote into memory; none where it writes nothing.
pub fn restored(line: &Line, host: &Host) -> Option<Line> {
    Some(match *line {
        Line::Value { index, .. } => Line::Value { index, value: *host.state.values.get(index as usize)? },
        Line::Pool { index, .. } => Line::Pool { index, value: *host.pool.get(index as usize)? },
        Line::Pending { .. } => Line::Pending { number: host.state.pending },
        _ => return None,
    })
}

/// An update written behind the pending ones by hand: new, or one that is pending already. Now and
/// then a part is outside its limit as well.
pub fn hand_written(random: &mut Random, known: &Known, host: &Host) -> Vec<Line> {
    let first = PLACE * host.state.pending as usize;
    if first + PLACE > host.pool.len() {
        return Vec::new();
    }
    let again = host.state.pending > 0 && random.chance(15);
    let numbers = if again { host.pool[first - PLACE..first].to_vec() } else { update(random, known) };
    let write = |(offset, value): (usize, i32)| Line::Pool { index: (first + offset) as u32, value };
    let mut lines: Vec<Line> =
        numbers.into_iter().enumerate().filter(|&(_, value)| value != 0).map(write).collect();
    lines.push(Line::Pending { number: host.state.pending + 1 });
    if random.chance(15) {
        lines.extend(outside(random, known, host));
    }
    lines
}

/// The ten numbers of an update, now and then with one channel twice.
fn update(random: &mut Random, known: &Known) -> Vec<i32> {
    let mut channels: Vec<i32> = (0..known.channels as i32).collect();
    random.shuffle(&mut channels);
    let count = random.between(1, known.channels.min(4));
    let mut numbers = vec![random.below(known.parts) as i32, count as i32];
    for &channel in &channels[..count] {
        numbers.extend([channel, value(random)]);
    }
    if count > 1 && random.chance(5) {
        numbers[4] = numbers[2];
    }
    numbers.resize(PLACE, 0);
    numbers
}

/// A length that no pool may have.
pub fn bad_length(random: &mut Random) -> u32 {
    let near = random.between(1, 9) as u32;
    let small = 10 * random.below(40) as u32 + near;
    if random.chance(4) {
        random.pick(&[655_350 + near, 655_360, LONGEST_POOL])
    } else {
        random.pick(&[0, near, small, small])
    }
}

/// A length for the converter's buffer: just enough, one byte too few, none, more or any.
pub fn buffer_length(random: &mut Random, deck: &[u8]) -> u32 {
    let enough = convert_whole(deck).map_or(0, |new| new.len() as u32);
    match random.below(10) {
        0 => 0,
        1 | 2 => enough.saturating_sub(1),
        3..=5 => enough,
        6 => enough + random.below(40) as u32,
        7 => random.below(LONGEST_BUFFER as usize + 1) as u32,
        _ => LONGEST_BUFFER,
    }
}
