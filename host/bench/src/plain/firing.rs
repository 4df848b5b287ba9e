//! The firing, and a commit without its tests.

use super::charge::Charges;
use super::deck::{bits, Tables};
use super::expression::{number, truth, Values};
use super::state::{Seen, Update};
use std::ops::Range;

/// The pending updates while a call works on them. Nothing moves down yet: what is taken out stays in its
/// place. The charge counts all updates that follow from those pending, so there is room for them behind.
pub struct Queue<'a> {
    pub places: &'a mut [Update],
    /// The places that were taken out.
    pub taken: Range<usize>,
    /// The first free place.
    pub end: usize,
    /// The charge pending, and the most that it may become.
    pub charge: u32,
    pub capacity: u32,
}

/// A deck that passed, with its tables.
pub struct Passed<'a> {
    pub deck: &'a [u8],
    pub tables: &'a Tables,
    pub charges: &'a Charges,
}

/// Sets values at a part; the answer is the set of channels whose value differs.
pub fn assign(values: &mut Values, pairs: &[[i32; 2]]) -> u32 {
    let mut changed = 0;
    for &[channel, value] in pairs {
        let slot = &mut values[channel as usize & 31];
        changed |= u32::from(*slot != value) << (channel & 31);
        *slot = value;
    }
    changed
}

impl Passed<'_> {
    /// The firing at a part for changed channels; false if the charge would exceed the capacity.
    pub fn fire(
        &self,
        queue: &mut Queue,
        seen: &mut Seen,
        values: &[Values],
        part: usize,
        changed: u32,
    ) -> bool {
        let active = self.tables.listening(changed) & self.tables.part[part].carried;
        let own = &values[part];
        let mut everywhere = 0;
        for number in bits(active) {
            let rule = &self.tables.rule[number];
            if rule.default_targets != 0 {
                let update = self.update(rule.default_at, part, own, own);
                if !queue.add(seen, update, self.charges.default[number][part]) {
                    return false;
                }
            }
            if rule.everywhere {
                everywhere |= u64::from(rule.targets != 0) << number;
            } else if rule.targets != 0 && !self.offer(queue, seen, values, number, part, part) {
                return false;
            }
        }
        bits(everywhere).all(|number| {
            let mut others = (0..self.tables.parts).filter(|&other| other != part);
            others.all(|other| self.offer(queue, seen, values, number, part, other))
        })
    }

    /// Adds a rule's action to the receiver if its condition is true; false if there is no room.
    fn offer(
        &self,
        queue: &mut Queue,
        seen: &mut Seen,
        values: &[Values],
        number: usize,
        sender: usize,
        receiver: usize,
    ) -> bool {
        let rule = &self.tables.rule[number];
        let (own, far) = (&values[sender], &values[receiver]);
        if !truth(self.deck, rule.condition_at, own, far).0 {
            return true;
        }
        let update = self.update(rule.action_at, receiver, own, far);
        queue.add(seen, update, self.charges.action[number][receiver])
    }

    /// The update that the action at an offset comes to.
    fn update(&self, at: usize, part: usize, own: &Values, far: &Values) -> Update {
        let count = self.deck[at];
        let mut update = [0; 10];
        update[0] = part as i32;
        update[1] = i32::from(count);
        let mut at = at + 1;
        for pair in update[2..].as_chunks_mut::<2>().0.iter_mut().take(count.into()) {
            // The target, then the length, which the expression itself says too.
            let (value, after) = number(self.deck, at + 2, own, far);
            *pair = [i32::from(self.deck[at]), value];
            at = after;
        }
        update
    }

    /// Applies an update that was taken out and fires, or discards it; whether it was applied.
    pub fn commit(&self, queue: &mut Queue, seen: &mut Seen, values: &mut [Values], update: &Update) -> bool {
        let part = update[0] as usize;
        let pairs = &update[2..].as_chunks::<2>().0[..update[1] as usize];
        let mut before = [[0; 2]; 4];
        for (old, &[channel, _]) in before.iter_mut().zip(pairs) {
            *old = [channel, values[part][channel as usize & 31]];
        }
        let changed = assign(&mut values[part], pairs);
        if !self.tables.within_limit(self.deck, part, &values[part]) {
            assign(&mut values[part], &before[..pairs.len()]);
            return false;
        }
        // A commit lowers the charge, so there is room.
        self.fire(queue, seen, values, part, changed)
    }
}

impl Queue<'_> {
    /// Adds an update of this charge unless an equal one is pending; false if there is no room.
    fn add(&mut self, seen: &mut Seen, update: Update, charge: u32) -> bool {
        let Some(slot) = seen.slot(&self.places[..self.end], &self.taken, &update) else { return true };
        self.charge += charge;
        if self.charge > self.capacity {
            return false;
        }
        seen.note(slot, self.end);
        self.places[self.end] = update;
        self.end += 1;
        true
    }

    /// Moves the pending updates down over those that were taken out; the answer is their number.
    pub fn close(self) -> u32 {
        let length = self.taken.len();
        if length > 0 {
            self.places.copy_within(self.taken.end..self.end, self.taken.start);
            self.places[self.end - length..self.end].fill([0; 10]);
        }
        (self.end - length) as u32
    }
}
