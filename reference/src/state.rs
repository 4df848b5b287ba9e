//! State and pool as a host lends them, and the machine that a good state stands for.

use crate::charge::Charges;
use crate::deck::Deck;
use std::collections::{HashSet, VecDeque};

/// Numbers in the value table.
pub const VALUES: usize = 512;
/// Numbers in a place of the pool.
pub const PLACE: usize = 10;
/// Most places of a pool, and the largest charge of a rule.
pub const MOST_PLACES: usize = 65_535;

/// Values and pending number as a host hands them in: any content.
#[derive(Clone, Debug, PartialEq, Eq)]
pub struct State {
    pub values: [i32; VALUES],
    pub pending: u32,
}

impl State {
    pub const ZERO: State = State { values: [0; VALUES], pending: 0 };
}

/// The number of places, if the pool's length is a legal one.
pub fn places(pool_length: usize) -> Option<usize> {
    let legal = pool_length.is_multiple_of(PLACE) && (PLACE..=PLACE * MOST_PLACES).contains(&pool_length);
    legal.then_some(pool_length / PLACE)
}

/// Where the values of a part begin in the value table.
pub fn base(part: usize) -> usize {
    Deck::CHANNELS * part
}

/// A pending update: a part and a list of 1 to 4 pairs of channel and value.
/// Pairs beyond the count are (0, 0), so equal means part and list are equal.
#[derive(Clone, Copy, Debug, PartialEq, Eq, Hash)]
pub struct Update {
    part: u8,
    count: u8,
    pairs: [(u8, i32); Deck::ASSIGNMENTS],
}

impl Update {
    /// The list must have 1 to 4 pairs.
    pub fn new(part: usize, list: impl IntoIterator<Item = (u8, i32)>) -> Update {
        let mut update = Update { part: part as u8, count: 0, pairs: [(0, 0); Deck::ASSIGNMENTS] };
        for pair in list {
            update.pairs[usize::from(update.count)] = pair;
            update.count += 1;
        }
        update
    }

    pub fn part(&self) -> usize {
        self.part.into()
    }

    pub fn pairs(&self) -> &[(u8, i32)] {
        &self.pairs[..usize::from(self.count)]
    }

    pub fn targets(&self) -> u32 {
        crate::deck::channel_set(self.pairs().iter().map(|(channel, _)| channel))
    }

    /// The update in a place, if it is on a known part with different known
    /// channels and the unused numbers are 0.
    pub fn load(place: &[i32], deck: &Deck) -> Option<Update> {
        let part = below(place[0], deck.parts.len())?;
        let count = below(place[1], Deck::ASSIGNMENTS + 1).filter(|&count| count > 0)?;
        let (used, unused) = place[2..].split_at(2 * usize::from(count));
        let mut update = Update::new(part.into(), []);
        for pair in used.chunks_exact(2) {
            let channel = below(pair[0], deck.labels.len())?;
            if update.targets() >> channel & 1 == 1 {
                return None;
            }
            update.pairs[usize::from(update.count)] = (channel, pair[1]);
            update.count += 1;
        }
        unused.iter().all(|&number| number == 0).then_some(update)
    }

    /// The ten numbers of this update's place.
    pub fn store(&self) -> [i32; PLACE] {
        let mut place = [0; PLACE];
        place[0] = self.part.into();
        place[1] = self.count.into();
        for (slot, &(channel, value)) in place[2..].chunks_exact_mut(2).zip(self.pairs()) {
            slot.copy_from_slice(&[channel.into(), value]);
        }
        place
    }
}

/// The number as a byte, if it is from 0 to below the bound.
pub fn below(number: i32, bound: usize) -> Option<u8> {
    u8::try_from(number).ok().filter(|&number| usize::from(number) < bound)
}

/// Values, pending updates in order, and their charge.
#[derive(Clone, Debug)]
pub struct Machine {
    pub values: [i32; VALUES],
    pending: VecDeque<Update>,
    /// The pending updates once more, to find an equal one quickly.
    present: HashSet<Update>,
    charge: u64,
}

impl Machine {
    pub fn new(values: [i32; VALUES]) -> Machine {
        Machine { values, pending: VecDeque::new(), present: HashSet::new(), charge: 0 }
    }

    pub fn pending(&self) -> usize {
        self.pending.len()
    }

    pub fn charge(&self) -> u64 {
        self.charge
    }

    /// The values of a part.
    pub fn part(&self, part: usize) -> &[i32] {
        &self.values[base(part)..base(part + 1)]
    }

    /// Adds an update behind the last pending one, unless an equal one is pending.
    pub fn add(&mut self, update: Update, charges: &Charges) -> bool {
        let new = self.present.insert(update);
        if new {
            self.pending.push_back(update);
            self.charge = self.charge.saturating_add(charges.of_update(update.part(), update.targets()));
        }
        new
    }

    /// Takes out the update at this place; later ones move down.
    pub fn take_out(&mut self, place: usize, charges: &Charges) -> Option<Update> {
        let update = self.pending.remove(place)?;
        self.present.remove(&update);
        self.charge -= charges.of_update(update.part(), update.targets());
        Some(update)
    }

    /// The machine that a good state stands for; none if the state isn't a good one.
    pub fn load(deck: &Deck, charges: &Charges, pool: &[i32], state: &State) -> Option<Machine> {
        let pending = usize::try_from(state.pending).ok()?;
        let most = pool.len() / PLACE;
        if pending > most || !unused_values_are_zero(deck, &state.values) {
            return None;
        }
        let (used, free) = pool.split_at(PLACE * pending);
        let mut machine = Machine::new(state.values);
        for place in used.chunks_exact(PLACE) {
            let update = Update::load(place, deck)?;
            if !machine.add(update, charges) {
                return None;
            }
        }
        let good = machine.charge <= most as u64 && free.iter().all(|&number| number == 0);
        good.then_some(machine)
    }

    /// Writes the machine into lent memory, with every unused number 0.
    pub fn store(&self, pool: &mut [i32], state: &mut State) {
        state.values = self.values;
        state.pending = self.pending.len() as u32;
        pool.fill(0);
        for (place, update) in pool.chunks_exact_mut(PLACE).zip(&self.pending) {
            place.copy_from_slice(&update.store());
        }
    }
}

fn unused_values_are_zero(deck: &Deck, values: &[i32; VALUES]) -> bool {
    values.chunks_exact(Deck::CHANNELS).enumerate().all(|(part, values)| {
        let used = if part < deck.parts.len() { deck.labels.len() } else { 0 };
        values[used..].iter().all(|&value| value == 0)
    })
}
