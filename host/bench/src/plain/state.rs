//! The test of a state (refusal 10), and the pending updates in a hash table.

use super::charge::Charges;
use super::deck::{Tables, CHANNELS};
use reaction::raw::{Memory, PLACE};
use std::ops::Range;

/// The ten numbers of an update.
pub type Update = [i32; PLACE];

/// Where equal updates are found, by open addressing.
///
/// A slot is 0 when it is free, otherwise 65,536 times a tag, which is a part of the hash, plus a place
/// counted from 1. An update that is taken out stays in the table: what a slot leads to is compared anyway.
pub struct Seen {
    slots: Vec<u32>,
    used: usize,
}

/// A free slot and the tag of the update that it was found for.
pub struct Slot {
    at: usize,
    tag: u32,
}

/// Spreads an update over 64 bits. Most have one pair, and then the first four numbers are enough.
#[inline(always)]
fn hash(update: &Update) -> u64 {
    let word = |at: usize| u64::from(update[at] as u32) | u64::from(update[at + 1] as u32) << 32;
    let fold = |one: u64, two: u64| {
        let product = u128::from(one) * u128::from(two);
        product as u64 ^ (product >> 64) as u64
    };
    let first = fold(word(0) ^ 0x9E37_79B9_7F4A_7C15, word(2) ^ 0xD6E8_FEB8_6659_FD93);
    if update[1] == 1 {
        return first;
    }
    let others = fold(word(4) ^ 0xA076_1D64_78BD_642F, word(6) ^ 0xE703_7ED1_A0B4_28DB);
    first ^ others ^ word(8).wrapping_mul(0x8EBC_6AF0_9C88_C6E3)
}

impl Seen {
    pub const fn new() -> Seen {
        Seen { slots: Vec::new(), used: 0 }
    }

    /// Empties the table and makes room: at most half of it is used by so many updates.
    fn empty(&mut self, updates: usize) {
        self.slots.clear();
        self.slots.resize((2 * updates).next_power_of_two().max(16), 0);
        self.used = 0;
    }

    /// The slot for an update that is not pending; none if an equal one stands in the pool, outside the
    /// places that were taken out.
    #[inline(always)]
    fn free_slot(&self, places: &[Update], taken: &Range<usize>, update: &Update) -> Option<Slot> {
        let hash = hash(update);
        let tag = (hash >> 48) as u32;
        let mask = self.slots.len() - 1;
        let mut at = hash as usize & mask;
        while self.slots[at] != 0 {
            let slot = self.slots[at];
            let other = (slot & 0xFFFF) as usize - 1;
            if slot >> 16 == tag && places[other] == *update && !taken.contains(&other) {
                return None;
            }
            at = (at + 1) & mask;
        }
        Some(Slot { at, tag })
    }

    /// Notes the place of the update that the slot was found for.
    pub fn note(&mut self, slot: Slot, place: usize) {
        self.slots[slot.at] = slot.tag << 16 | (place as u32 + 1);
        self.used += 1;
    }

    /// As `free_slot`, for an update that is to come behind these; the table grows where it must.
    pub fn slot(&mut self, places: &[Update], taken: &Range<usize>, update: &Update) -> Option<Slot> {
        if 4 * self.used > 3 * self.slots.len() {
            self.empty(2 * (places.len() - taken.len()));
            for (place, old) in places.iter().enumerate().filter(|(place, _)| !taken.contains(place)) {
                if let Some(slot) = self.free_slot(places, taken, old) {
                    self.note(slot, place);
                }
            }
        }
        self.free_slot(places, taken, update)
    }
}

/// Charges of updates that were asked for, by part and targets.
pub struct Memo {
    entries: [(u32, u32, u32); 64],
}

impl Memo {
    pub const fn new() -> Memo {
        Memo { entries: [(0, 0, 0); 64] }
    }

    /// Forgets the charges of another deck: no update has no targets.
    fn empty(&mut self) {
        self.entries.fill((0, 0, 0));
    }

    fn charge(&mut self, tables: &Tables, charges: &Charges, part: usize, targets: u32) -> u32 {
        let at = (targets.wrapping_mul(0x9E37_79B9) >> 26) as usize ^ part;
        let entry = &mut self.entries[at];
        if (entry.0, entry.1) != (part as u32, targets) {
            *entry = (part as u32, targets, charges.of_update(tables, part, targets));
        }
        entry.2
    }
}

/// The set of an update's channels, if it is well written: a known part, different known channels, and 0
/// where nothing is used.
#[inline(always)]
fn targets(tables: &Tables, update: &Update) -> Option<u32> {
    let [part, count, channel, _, others @ ..] = update;
    if *part as u32 >= tables.parts as u32 || *channel as u32 >= tables.channels as u32 {
        return None;
    }
    if *count == 1 {
        let unused = others.iter().fold(0, |bits, number| bits | number);
        return (unused == 0).then_some(1 << channel);
    }
    more_targets(tables, update)
}

/// The same for updates that have not one pair.
fn more_targets(tables: &Tables, update: &Update) -> Option<u32> {
    let [_, count, pairs @ ..] = update;
    if !(1..=4).contains(count) {
        return None;
    }
    let (used, unused) = pairs.split_at(2 * *count as usize);
    let mut targets = 0;
    for pair in used.as_chunks::<2>().0 {
        let channel = pair[0] as u32;
        if channel >= tables.channels as u32 || targets >> channel & 1 == 1 {
            return None;
        }
        targets |= 1 << channel;
    }
    all_zero(unused).then_some(targets)
}

/// The charge of an update that is well written.
pub fn charge(tables: &Tables, charges: &Charges, update: &Update) -> u32 {
    let used = 2 * update[1] as usize;
    let targets = update[2..][..used].as_chunks::<2>().0.iter().fold(0, |set, pair| set | 1 << pair[0]);
    charges.of_update(tables, update[0] as usize, targets)
}

/// Whether all are 0; read in pieces, so that there is no test for each number.
fn all_zero(numbers: &[i32]) -> bool {
    numbers.chunks(1024).all(|piece| piece.iter().fold(0, |bits, number| bits | number) == 0)
}

fn unused_values_are_zero(tables: &Tables, values: &[i32]) -> bool {
    let (used, unused) = values.split_at(CHANNELS * tables.parts);
    let inside = used.as_chunks::<CHANNELS>().0.iter().all(|values| all_zero(&values[tables.channels..]));
    inside && all_zero(unused)
}

/// The charge of a good state, with its pending updates in the table; none if it isn't a good one.
pub fn judge(
    tables: &Tables,
    charges: &Charges,
    memo: &mut Memo,
    seen: &mut Seen,
    memory: &Memory,
) -> Option<u32> {
    let places = memory.pool.as_chunks::<PLACE>().0;
    let pending = memory.pending as usize;
    if pending > places.len() || !unused_values_are_zero(tables, &memory.values) {
        return None;
    }
    let pending = &places[..pending];
    seen.empty(pending.len());
    memo.empty();
    let mut charge = 0;
    for (place, update) in pending.iter().enumerate() {
        let targets = targets(tables, update)?;
        charge += memo.charge(tables, charges, update[0] as usize, targets);
        if charge as usize > places.len() {
            return None;
        }
        let slot = seen.free_slot(places, &(0..0), update)?;
        seen.note(slot, place);
    }
    all_zero(places[pending.len()..].as_flattened()).then_some(charge)
}
