//! A plain engine, written for speed: the same seven calls on the same memory, with nothing proved.
//!
//! One pass over the deck fills tables of masks and offsets; charges are worked out for all parts at once;
//! equal updates are found by a hash table; a settle tests once and moves places down once. The tables and
//! the hash table are kept between calls for their memory alone: every call tests afresh what it is given.
//!
//! An engine for old decks makes the same calls on those, under the old check: what a converted deck must give.

mod charge;
mod conversion;
mod deck;
mod expression;
mod faults;
mod firing;
mod state;

use charge::Charges;
use conversion::Conversion;
use deck::{Form, Tables, CHANNELS, RULES};
use firing::{assign, Passed, Queue};
use reaction::raw::{Memory, PLACE};
use reaction::Refusal;
use state::{Memo, Seen};

/// The most places of a pool, and the largest budget.
const MOST_PLACES: u32 = 65_535;

/// The engine: the form of its decks, and memory that its calls work in.
pub struct Engine {
    form: Form,
    tables: Tables,
    charges: Charges,
    memo: Memo,
    seen: Seen,
    converted: Vec<u8>,
}

/// A refusal whose place is 0.
fn refuse(number: u32) -> Refusal {
    Refusal { number, place: 0 }
}

impl Default for Engine {
    fn default() -> Engine {
        Engine::new()
    }
}

impl Engine {
    /// An engine with empty tables.
    pub const fn new() -> Engine {
        Engine::for_form(Form::New)
    }

    /// An engine whose calls take old decks.
    pub const fn for_old_decks() -> Engine {
        Engine::for_form(Form::Old)
    }

    const fn for_form(form: Form) -> Engine {
        Engine {
            form,
            tables: Tables::new(),
            charges: Charges::new(),
            memo: Memo::new(),
            seen: Seen::new(),
            converted: Vec::new(),
        }
    }

    /// What it is called in a table.
    pub fn name(&self) -> &'static str {
        match self.form {
            Form::New => "plain",
            Form::Old => "plain, on the old deck",
        }
    }

    /// Tests a deck: 1 to 8 and 18 to 20.
    fn pass(&mut self, deck: &[u8]) -> Result<(), Refusal> {
        self.pass_as(deck, self.form)
    }

    fn pass_as(&mut self, deck: &[u8], form: Form) -> Result<(), Refusal> {
        self.tables.read(deck, form)?;
        self.charges.measure(&self.tables)
    }

    /// Tests a deck, then the pool's length (9).
    fn pass_with_pool(&mut self, deck: &[u8], memory: &Memory) -> Result<(), Refusal> {
        self.pass(deck)?;
        let length = memory.pool.len();
        if length == 0 || !length.is_multiple_of(PLACE) || length > PLACE * MOST_PLACES as usize {
            return Err(refuse(9));
        }
        Ok(())
    }

    /// Tests a deck and the pool's length, then the state (10). The answer is the state's charge.
    fn pass_with_state(&mut self, deck: &[u8], memory: &Memory) -> Result<u32, Refusal> {
        self.pass_with_pool(deck, memory)?;
        state::judge(&self.tables, &self.charges, &mut self.memo, &mut self.seen, memory).ok_or(refuse(10))
    }

    /// R, M, N and the largest charge of any carried rule.
    pub fn check(&mut self, deck: &[u8]) -> Result<[u32; 4], Refusal> {
        self.pass(deck)?;
        let Tables { channels, rules, parts, .. } = self.tables;
        Ok([channels as u32, rules as u32, parts as u32, self.charges.largest])
    }

    /// The section's part of the deck.
    pub fn section<'d>(&mut self, deck: &'d [u8], number: u32) -> Result<&'d [u8], Refusal> {
        self.pass(deck)?;
        let Tables { rules_at, parts_at, .. } = self.tables;
        match number {
            0 => Ok(&deck[..rules_at]),
            1 => Ok(&deck[rules_at..parts_at]),
            2 => Ok(&deck[parts_at..]),
            _ => Err(refuse(15)),
        }
    }

    /// A refused start hands back a state of zeros.
    pub fn start(&mut self, deck: &[u8], memory: &mut Memory) -> Result<(), Refusal> {
        memory.values.fill(0);
        memory.pending = 0;
        self.pass_with_pool(deck, memory)?;
        let parts = memory.values.as_chunks_mut::<CHANNELS>().0;
        for (part, values) in parts.iter_mut().enumerate().take(self.tables.parts) {
            *values = self.tables.opening(deck, part);
        }
        memory.pool.fill(0);
        Ok(())
    }

    /// The charge added.
    pub fn input(
        &mut self,
        deck: &[u8],
        memory: &mut Memory,
        part: u32,
        pairs: &[i32],
    ) -> Result<u32, Refusal> {
        let charge = self.pass_with_state(deck, memory)?;
        let part = part as usize;
        if part >= self.tables.parts {
            return Err(refuse(11));
        }
        let pairs = self.good_pairs(pairs).ok_or(refuse(12))?;
        let values = memory.values.as_chunks_mut::<CHANNELS>().0;
        let before = values[part];
        let changed = assign(&mut values[part], pairs);
        if !self.tables.within_limit(deck, part, &values[part]) {
            values[part] = before;
            return Err(refuse(17));
        }
        let (passed, seen) = (Passed { deck, tables: &self.tables, charges: &self.charges }, &mut self.seen);
        let first = memory.pending as usize;
        let mut queue = queue(&mut memory.pool, 0, first, charge);
        if passed.fire(&mut queue, seen, values, part, changed) {
            let added = queue.charge - charge;
            memory.pending = queue.close();
            return Ok(added);
        }
        let end = queue.end;
        queue.places[first..end].fill([0; PLACE]);
        values[part] = before;
        Err(refuse(13))
    }

    /// 1 to 32 pairs of known, different channels.
    fn good_pairs<'p>(&self, pairs: &'p [i32]) -> Option<&'p [[i32; 2]]> {
        let (list, rest) = pairs.as_chunks::<2>();
        if !rest.is_empty() || list.is_empty() || list.len() > CHANNELS {
            return None;
        }
        let mut seen = 0_u32;
        for pair in list {
            let channel = pair[0] as u32;
            if channel >= self.tables.channels as u32 || seen >> channel & 1 == 1 {
                return None;
            }
            seen |= 1 << channel;
        }
        Some(list)
    }

    /// Whether the update was applied, and the charge now pending.
    pub fn commit(&mut self, deck: &[u8], memory: &mut Memory, place: u32) -> Result<(bool, u32), Refusal> {
        let charge = self.pass_with_state(deck, memory)?;
        if place >= memory.pending {
            return Err(refuse(14));
        }
        let place = place as usize;
        let passed = Passed { deck, tables: &self.tables, charges: &self.charges };
        let mut queue = queue(&mut memory.pool, place, memory.pending as usize, charge);
        let update = queue.places[place];
        queue.charge -= state::charge(&self.tables, &self.charges, &update);
        queue.taken.end += 1;
        let values = memory.values.as_chunks_mut::<CHANNELS>().0;
        let applied = passed.commit(&mut queue, &mut self.seen, values, &update);
        let charge = queue.charge;
        memory.pending = queue.close();
        Ok((applied, charge))
    }

    /// The number of commits made, and whether nothing is pending then.
    pub fn settle(&mut self, deck: &[u8], memory: &mut Memory, budget: u32) -> Result<(u32, bool), Refusal> {
        self.pass_with_state(deck, memory)?;
        if budget > MOST_PLACES {
            return Err(refuse(16));
        }
        let passed = Passed { deck, tables: &self.tables, charges: &self.charges };
        let values = memory.values.as_chunks_mut::<CHANNELS>().0;
        // Nobody asks for the charge after a settle, and it only falls: it is not followed.
        let mut queue = queue(&mut memory.pool, 0, memory.pending as usize, 0);
        queue.capacity = u32::MAX;
        let mut commits = 0;
        while commits < budget && queue.taken.end < queue.end {
            let update = queue.places[queue.taken.end];
            queue.taken.end += 1;
            queue.charge = 0;
            passed.commit(&mut queue, &mut self.seen, values, &update);
            commits += 1;
        }
        memory.pending = queue.close();
        Ok((commits, memory.pending == 0))
    }

    /// Writes an old deck as a new one to the front of the buffer. The answer is the new deck's length.
    pub fn convert(&mut self, deck: &[u8], buffer: &mut [u8]) -> Result<u32, Refusal> {
        self.pass_as(deck, Form::Old)?;
        let conversion = Conversion::new(deck, &self.tables);
        if conversion.rules() > RULES {
            return Err(refuse(21));
        }
        self.converted.clear();
        conversion.write(&mut self.converted);
        let front = buffer.get_mut(..self.converted.len()).ok_or(refuse(22))?;
        front.copy_from_slice(&self.converted);
        Ok(self.converted.len() as u32)
    }
}

/// The pending updates of a good state, with nothing taken out yet; what will be stands at `place`.
fn queue(pool: &mut [i32], place: usize, pending: usize, charge: u32) -> Queue<'_> {
    let places = pool.as_chunks_mut::<PLACE>().0;
    let capacity = places.len() as u32;
    Queue { places, taken: place..place, end: pending, charge, capacity }
}
