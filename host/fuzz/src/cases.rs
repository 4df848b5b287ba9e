//! Generated cases: a deck and the steps on it.

use crate::compare::{Comparison, Difference};
use crate::step::Step;
use reaction::raw::{CHANNELS, PLACE};
use reference::deck::{Deck, Encoded, Field};
use reference::engine::Call;
use reference::generate::calls::{any, bad_length, buffer_length, damage, hand_written, restored, Known};
use reference::generate::limits::Edge;
use reference::generate::{deck, old_deck, Kind, Size};
use reference::random::Random;
use reference::refusal::DEFAULT_ACTION;
use reference::script::Line;
use reference::stored::deck_d;
use reference::Refusal;

/// Small decks come most often, since the reference takes long to read large ones.
const SMALL: Size = Size { channels: 6, rules: 8, parts: 4, expression: 16 };
const MEDIUM: Size = Size { channels: 14, rules: 20, parts: 8, expression: 32 };

/// One case in so many has many pending updates, and one in so many all 65,535: those are slow.
const MANY: u64 = 100;
const FULL: u64 = 1_000;

/// Case `number` of a seed, the same whatever came before.
pub fn case(comparison: &mut Comparison, seed: u64, number: u64) -> Result<(), Difference> {
    let mut random = Random::new(seed ^ number.wrapping_mul(0xD134_2543_DE82_EF95));
    if number % FULL == FULL - 1 {
        return many(comparison, &mut random, 65_535, 65_535);
    }
    if number % MANY == MANY - 1 {
        let (count, room) = (random.between(200, 12_000), random.below(5));
        return many(comparison, &mut random, count, count + room);
    }
    let deck = any_deck(&mut random);
    comparison.begin(deck.clone());
    let mut case = Case { known: Known::of(&deck), charge: 0, deck, random, comparison };
    case.run()
}

/// Of a hundred decks so many are old ones of any kind, and so many are made for the converter: their charges are near the
/// largest, or their rules become about 64.
const OLD: usize = 12;
const HEAVY: usize = 3;
const CROWDED: usize = 12;

fn any_deck(random: &mut Random) -> Vec<u8> {
    let size = match random.below(40) {
        0 => Size::FULL,
        1..=5 => MEDIUM,
        _ => SMALL,
    };
    match random.below(100) {
        choice if choice < OLD => old_deck(any_kind(random), random, size),
        choice if choice < OLD + HEAVY => old_deck(Kind::Heavy, random, size),
        choice if choice < OLD + HEAVY + CROWDED => {
            let rules = random.pick(&[size.rules, Deck::RULES]);
            old_deck(Kind::Defaults, random, Size { rules, ..size })
        }
        _ => deck(any_kind(random), random, size),
    }
}

fn any_kind(random: &mut Random) -> Kind {
    match random.below(440) {
        0 => Kind::Longest,
        1..=16 => Kind::Heavy,
        17..=180 => Kind::Rich,
        181..=280 => Kind::Valid,
        281..=320 => Kind::Damaged,
        321..=360 => Kind::Expression,
        361..=390 => Kind::Cyclic,
        391..=420 => Kind::Limit,
        _ => Kind::Noise,
    }
}

struct Case<'a> {
    random: Random,
    deck: Vec<u8>,
    known: Known,
    /// The largest charge of a rule, or 0 for a deck that doesn't pass.
    charge: usize,
    comparison: &'a mut Comparison,
}

impl Case<'_> {
    fn run(&mut self) -> Result<(), Difference> {
        self.step(Step::Check)?;
        if self.random.chance(10) {
            self.call()?;
        }
        let mut passed = reference::check(&self.deck);
        let conversions = match passed {
            Err(Refusal { number: DEFAULT_ACTION, .. }) => 90,
            Err(_) => 25,
            Ok(_) => 5,
        };
        if self.random.chance(conversions) {
            self.conversions()?;
            passed = reference::check(&self.deck);
        }
        self.charge = passed.map_or(0, |passed| passed.charge as usize);
        self.start()?;
        // A deck that does not pass has one refusal for every call.
        let steps = if passed.is_ok() { self.random.between(5, 60) } else { self.random.between(0, 6) };
        for _ in 0..steps {
            self.any_step()?;
        }
        Ok(())
    }

    fn step(&mut self, step: Step) -> Result<(), Difference> {
        self.comparison.step(step)
    }

    fn line(&mut self, line: Line) -> Result<(), Difference> {
        self.step(Step::Line(line))
    }

    fn any_step(&mut self) -> Result<(), Difference> {
        match self.random.below(100) {
            0..=3 => self.start(),
            4..=9 => self.damaged_memory(),
            10..=13 => self.hand_write(),
            14..=16 => {
                let number = self.random.pick(&[0, 1, 2, 3, 4, u32::MAX]);
                self.line(Line::Section { number })
            }
            17 => self.step(Step::Check),
            18..=20 => self.other_deck(),
            21..=22 => self.other_length(),
            23..=26 => self.outside_limit(),
            27 => self.convert(),
            _ => self.call(),
        }
    }

    /// A few conversions: from the first that finds room the deck is the new one, which stays as it is.
    fn conversions(&mut self) -> Result<(), Difference> {
        (0..self.random.between(1, 4)).try_for_each(|_| self.convert())
    }

    /// A conversion into a buffer that is long enough or not.
    fn convert(&mut self) -> Result<(), Difference> {
        let length = buffer_length(&mut self.random, &self.deck);
        self.line(Line::Convert { length })?;
        self.deck.clone_from(&self.comparison.deck);
        Ok(())
    }

    fn call(&mut self) -> Result<(), Difference> {
        let call = any(&mut self.random, &self.known, &self.comparison.host);
        self.line(Line::Call(call))
    }

    /// A pool that is tight or roomy, rarely as large as can be, or of a bad length.
    fn start(&mut self) -> Result<(), Difference> {
        if self.random.chance(10) {
            let length = bad_length(&mut self.random);
            self.line(Line::Start { length })?;
        }
        let places = match self.random.below(1000) {
            0 => self.random.between(60_000, 65_535),
            1..=200 => self.random.between(1, 4),
            201..=450 => self.charge.clamp(1, 300),
            451..=600 => self.random.between(1, self.charge.clamp(2, 300)),
            _ => self.random.between(10, (8 * self.charge).clamp(20, 300)),
        };
        self.line(Line::Start { length: (PLACE * places) as u32 })
    }

    /// Damages memory, calls, and mostly repairs it.
    fn damaged_memory(&mut self) -> Result<(), Difference> {
        let line = damage(&mut self.random, &self.known, &self.comparison.host);
        let Some(repair) = restored(&line, &self.comparison.host) else { return Ok(()) };
        self.line(line)?;
        self.call()?;
        if self.random.chance(80) {
            self.line(repair)
        } else {
            self.call()?;
            self.start()
        }
    }

    /// Writes updates by hand, calls, and mostly starts again, since the state may be a bad one.
    fn hand_write(&mut self) -> Result<(), Difference> {
        for _ in 0..self.random.between(1, 3) {
            for line in hand_written(&mut self.random, &self.known, &self.comparison.host) {
                self.line(line)?;
            }
        }
        self.call()?;
        self.call()?;
        if self.random.chance(30) {
            return self.start();
        }
        Ok(())
    }

    /// Puts a part just outside its limit by hand, which leaves the state a good one, and calls there. Mostly the part
    /// comes within again in the end.
    fn outside_limit(&mut self) -> Result<(), Difference> {
        let part = self.random.below(self.known.parts);
        let Some((channel, edge)) = self.edge(part) else { return Ok(()) };
        let index = (CHANNELS * part) as u32 + u32::from(channel);
        self.line(Line::Value { index, value: edge.outside })?;
        for _ in 0..self.random.between(2, 6) {
            self.call_at(part)?;
        }
        let pairs = vec![channel.into(), edge.within];
        match self.random.below(4) {
            0 => Ok(()),
            1 => self.line(Line::Value { index, value: edge.within }),
            _ => self.line(Line::Call(Call::Input { part: part as u32, pairs })),
        }
    }

    /// A channel of a part with two neighbouring values, one within its limit and one outside.
    fn edge(&mut self, part: usize) -> Option<(u8, Edge)> {
        let limit = self.known.limits.get(part).filter(|limit| !limit.channels.is_empty())?;
        let channel = self.random.pick(&limit.channels);
        let values = &self.comparison.host.state.values[CHANNELS * part..][..CHANNELS];
        let edge = limit.edge(&mut self.random, values, channel)?;
        Some((channel, edge))
    }

    /// An input at a part, the commit of an update for it, or a settle.
    fn call_at(&mut self, part: usize) -> Result<(), Difference> {
        let mut call = any(&mut self.random, &self.known, &self.comparison.host);
        match &mut call {
            Call::Input { part: given, .. } => *given = part as u32,
            Call::Commit { place } => {
                let places = self.comparison.host.pool.chunks_exact(PLACE);
                let there = places.take(*place as usize + 1).rposition(|update| update[0] == part as i32);
                *place = there.map_or(*place, |there| there as u32);
            }
            Call::Settle { .. } => {}
        }
        self.line(Line::Call(call))
    }

    /// The same memory with a deck that was damaged, cut, or is another one; then the old deck again.
    fn other_deck(&mut self) -> Result<(), Difference> {
        let mut other = self.deck.clone();
        let at = self.random.below(other.len());
        match self.random.below(7) {
            0 => other.truncate(at),
            1 => other.truncate(self.random.below(2)),
            2 => other.push(self.random.byte()),
            3 => other = any_deck(&mut self.random),
            4 => other = deck(Kind::Expression, &mut self.random, SMALL),
            5 => other = target_twice(&mut self.random, &other).unwrap_or(other),
            _ => other.iter_mut().skip(at).take(1).for_each(|byte| *byte = self.random.byte()),
        }
        self.step(Step::Deck(other))?;
        self.call()?;
        if self.random.chance(40) {
            let length = buffer_length(&mut self.random, &self.comparison.deck);
            self.line(Line::Convert { length })?;
        }
        self.step(Step::Deck(self.deck.clone()))
    }

    /// The pool cut or made longer; then a new start, since updates may be lost.
    fn other_length(&mut self) -> Result<(), Difference> {
        let length = self.comparison.host.pool.len();
        let near = self.random.between(1, 12);
        let other = self.random.pick(&[0, length.saturating_sub(near), length + near, length + PLACE]);
        self.step(Step::Resize(other))?;
        self.call()?;
        self.call()?;
        self.start()
    }
}

/// The deck with a target that stands twice and an unknown operator in the expression behind it, so that two refusals
/// hold; none if no action has two targets.
fn target_twice(random: &mut Random, deck: &[u8]) -> Option<Vec<u8>> {
    let Encoded { mut bytes, fields } = Deck::read(deck).ok()?.0.encode();
    // Between the targets of an action stands one expression, a length and its bytes.
    let neighbours = fields.windows(4).filter(|run| run[0].1 == Field::Target && run[3].1 == Field::Target);
    let targets: Vec<(usize, usize)> = neighbours.map(|run| (run[0].0, run[3].0)).collect();
    if targets.is_empty() {
        return None;
    }
    let (first, second) = random.pick(&targets);
    bytes[second] = bytes[first];
    bytes[second + 2] = u8::MAX;
    Some(bytes)
}

/// Deck D with so many updates pending: commits anywhere, inputs, one at part 1's limit, settles, and damage deep in
/// the pool.
pub fn many(
    comparison: &mut Comparison,
    random: &mut Random,
    pending: usize,
    places: usize,
) -> Result<(), Difference> {
    comparison.begin(deck_d());
    comparison.step(Step::Line(Line::Start { length: (PLACE * places) as u32 }))?;
    comparison.step(Step::Fill(pending))?;
    let anywhere = PLACE * random.below(pending) + random.below(PLACE);
    let lines = [
        format!("commit {}", random.below(pending)),
        "input 0 0 4".to_string(),
        format!("input 1 0 5 2 {}", random.pick(&[9, 10])),
        format!("settle {}", random.below(50)),
        format!("pool {anywhere} {}", random.pick(&[-1, 0, 1, 2, 3, 7])),
        "settle 1".to_string(),
    ];
    let lines = lines.iter().filter_map(|line| reference::script::parse(line.as_bytes()));
    lines.map(Step::Line).try_for_each(|step| comparison.step(step))
}
