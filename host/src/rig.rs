//! Rigs: a deck at work.

use crate::raw::{Memory, CHANNELS, PLACE};
use crate::{Deck, Refusal};

/// A deck at work: its values and the updates that wait to be committed.
///
/// ```
/// use reaction::{Deck, Rig};
///
/// let deck = Deck::check(include_bytes!("../../crates/replay/data/d.deck"))?;
/// let mut rig = Rig::start(deck, 100)?;
/// rig.input(0, &[(0, 4)])?;
/// // Any order will do: here the newest update comes first.
/// while let Some(last) = rig.pending().checked_sub(1) {
///     rig.commit(last)?;
/// }
/// assert_eq!(rig.value(1, 2), Some(5));
/// # Ok::<(), reaction::Refusal>(())
/// ```
#[derive(Clone, Debug, PartialEq, Eq)]
pub struct Rig {
    deck: Deck,
    memory: Memory,
}

/// What a commit did.
#[derive(Clone, Copy, Debug, PartialEq, Eq, Hash)]
pub struct Commit {
    /// Whether the update was applied; otherwise its part's limit would have failed, and it was discarded.
    pub applied: bool,
    /// The charge now pending: so many commits at most until nothing is pending.
    pub charge: u32,
}

/// What a settle did.
#[derive(Clone, Copy, Debug, PartialEq, Eq, Hash)]
pub struct Settle {
    /// The number of commits made.
    pub commits: u32,
    /// Whether nothing is pending now; otherwise the budget was used.
    pub settled: bool,
}

/// A pending update: values that channels of a part are to get.
#[derive(Clone, Copy, Debug, PartialEq, Eq, Hash)]
pub struct Update<'a> {
    numbers: &'a [i32],
}

impl Update<'_> {
    /// The part that it is for.
    ///
    /// ```
    /// # use reaction::{Deck, Rig};
    /// let deck = Deck::check(include_bytes!("../../crates/replay/data/d.deck"))?;
    /// let mut rig = Rig::start(deck, 2)?;
    /// rig.input(0, &[(0, 4)])?;
    /// assert_eq!(rig.pending_updates().map(|update| update.part()).collect::<Vec<_>>(), [1]);
    /// # Ok::<(), reaction::Refusal>(())
    /// ```
    pub fn part(&self) -> u32 {
        self.numbers.first().map_or(0, |&part| part as u32)
    }

    /// Channels and the values that they are to get, in order.
    ///
    /// ```
    /// # use reaction::{Deck, Rig};
    /// let deck = Deck::check(include_bytes!("../../crates/replay/data/d.deck"))?;
    /// let mut rig = Rig::start(deck, 2)?;
    /// rig.input(0, &[(0, 4)])?;
    /// let pairs = rig.pending_updates().flat_map(|update| update.pairs().collect::<Vec<_>>());
    /// assert_eq!(pairs.collect::<Vec<_>>(), [(1, 4)]);
    /// # Ok::<(), reaction::Refusal>(())
    /// ```
    pub fn pairs(&self) -> impl Iterator<Item = (u32, i32)> + '_ {
        let count = self.numbers.get(1).map_or(0, |&count| count as usize);
        let pairs = self.numbers.get(2..).unwrap_or_default().chunks_exact(2);
        pairs.take(count).map(|pair| (pair[0] as u32, pair[1]))
    }
}

impl Rig {
    /// The most pairs of an input.
    const PAIRS: usize = 32;

    /// Starts a deck with its opening values, nothing pending, and so many places for pending updates.
    ///
    /// ```
    /// # use reaction::{Deck, Rig};
    /// let deck = Deck::check(include_bytes!("../../crates/replay/data/d.deck"))?;
    /// assert_eq!(Rig::start(deck.clone(), 2)?.pending(), 0);
    /// assert_eq!(Rig::start(deck, 0).unwrap_err().number, 9);
    /// # Ok::<(), reaction::Refusal>(())
    /// ```
    pub fn start(deck: Deck, places: u16) -> Result<Rig, Refusal> {
        let mut memory = Memory::new(PLACE * usize::from(places));
        memory.start(deck.bytes()).result()?;
        Ok(Rig { deck, memory })
    }

    /// Goes on with memory that was saved: the values, the pending number and the pool of [`Rig::memory`]. The engine
    /// tests it, and refuses it by 9 or 10 where it is not memory for this deck. Values are not held to the limits,
    /// which a host that writes values itself may break.
    ///
    /// ```
    /// # use reaction::{Deck, Rig};
    /// let deck = Deck::check(include_bytes!("../../crates/replay/data/d.deck"))?;
    /// let mut rig = Rig::start(deck.clone(), 2)?;
    /// rig.input(0, &[(0, 4)])?;
    /// let mut saved = rig.memory().clone();
    /// assert_eq!(Rig::resume(deck.clone(), saved.clone())?, rig);
    /// // The pending update is for a part that the deck does not have.
    /// saved.pool[0] = 2;
    /// assert_eq!(Rig::resume(deck.clone(), saved.clone()).unwrap_err().number, 10);
    /// saved.pool.truncate(19);
    /// assert_eq!(Rig::resume(deck, saved).unwrap_err().number, 9);
    /// # Ok::<(), reaction::Refusal>(())
    /// ```
    pub fn resume(deck: Deck, mut memory: Memory) -> Result<Rig, Refusal> {
        // A settle without commits tests deck, pool and state and changes nothing.
        memory.settle(deck.bytes(), 0).result()?;
        Ok(Rig { deck, memory })
    }

    /// Sets channels of a part to values; rules fire for those that change. Returns the charge added.
    ///
    /// Values that would leave the part outside its limit are refused by 17, all of them: a control that is dragged
    /// stays where it was.
    ///
    /// ```
    /// # use reaction::{Deck, Rig};
    /// let deck = Deck::check(include_bytes!("../../crates/replay/data/d.deck"))?;
    /// let mut rig = Rig::start(deck, 2)?;
    /// assert_eq!(rig.input(0, &[(0, 4)]), Ok(2));
    /// assert_eq!(rig.input(2, &[(0, 4)]).unwrap_err().number, 11);
    /// assert_eq!(rig.input(0, &[(3, 4)]).unwrap_err().number, 12);
    /// // Part 1 keeps channel 2 below 10.
    /// assert_eq!(rig.input(1, &[(2, 9)]), Ok(0));
    /// assert_eq!(rig.input(1, &[(2, 10)]).unwrap_err().number, 17);
    /// assert_eq!(rig.value(1, 2), Some(9));
    /// # Ok::<(), reaction::Refusal>(())
    /// ```
    pub fn input(&mut self, part: u32, pairs: &[(u32, i32)]) -> Result<u32, Refusal> {
        // A list is refused for its length from one pair too many on, so no more of it is copied.
        let mut numbers = [0; 2 * (Rig::PAIRS + 1)];
        let mut length = 0;
        for (place, &(channel, value)) in numbers.chunks_exact_mut(2).zip(pairs) {
            // A number beyond 31 bits becomes negative, which is no channel either.
            place.copy_from_slice(&[channel as i32, value]);
            length += 2;
        }
        let [added, ..] = self.memory.input(self.deck.bytes(), part, &numbers[..length]).result()?;
        Ok(added)
    }

    /// Commits the pending update at a place; later ones move down.
    ///
    /// ```
    /// # use reaction::{Commit, Deck, Rig};
    /// let deck = Deck::check(include_bytes!("../../crates/replay/data/d.deck"))?;
    /// let mut rig = Rig::start(deck, 2)?;
    /// assert_eq!(rig.commit(0).unwrap_err().number, 14);
    /// rig.input(0, &[(0, 9)])?;
    /// assert_eq!(rig.commit(0), Ok(Commit { applied: true, charge: 1 }));
    /// // Part 1 keeps channel 2 below 10.
    /// assert_eq!(rig.commit(0), Ok(Commit { applied: false, charge: 0 }));
    /// # Ok::<(), reaction::Refusal>(())
    /// ```
    pub fn commit(&mut self, place: u32) -> Result<Commit, Refusal> {
        let [applied, charge, ..] = self.memory.commit(self.deck.bytes(), place).result()?;
        Ok(Commit { applied: applied == 1, charge })
    }

    /// Commits place 0 until nothing is pending or so many commits are made.
    ///
    /// ```
    /// # use reaction::{Deck, Rig, Settle};
    /// let deck = Deck::check(include_bytes!("../../crates/replay/data/d.deck"))?;
    /// let mut rig = Rig::start(deck, 2)?;
    /// rig.input(0, &[(0, 4)])?;
    /// assert_eq!(rig.settle(1), Ok(Settle { commits: 1, settled: false }));
    /// assert_eq!(rig.settle(9), Ok(Settle { commits: 1, settled: true }));
    /// assert_eq!(rig.settle(65_536).unwrap_err().number, 16);
    /// # Ok::<(), reaction::Refusal>(())
    /// ```
    pub fn settle(&mut self, budget: u32) -> Result<Settle, Refusal> {
        let [commits, settled, ..] = self.memory.settle(self.deck.bytes(), budget).result()?;
        Ok(Settle { commits, settled: settled == 1 })
    }

    /// The value of a channel of a part; none if the deck has no such part or channel.
    ///
    /// ```
    /// # use reaction::{Deck, Rig};
    /// let deck = Deck::check(include_bytes!("../../crates/replay/data/d.deck"))?;
    /// let mut rig = Rig::start(deck, 2)?;
    /// rig.input(0, &[(0, 4)])?;
    /// assert_eq!(rig.value(0, 0), Some(4));
    /// assert_eq!(rig.value(0, 3), None);
    /// # Ok::<(), reaction::Refusal>(())
    /// ```
    pub fn value(&self, part: u32, channel: u32) -> Option<i32> {
        if part >= self.deck.parts() || channel >= self.deck.channels() {
            return None;
        }
        self.memory.values.get(CHANNELS * part as usize + channel as usize).copied()
    }

    /// The number of pending updates.
    pub fn pending(&self) -> u32 {
        self.memory.pending
    }

    /// The pending updates, in the order of their places.
    ///
    /// ```
    /// # use reaction::{Deck, Rig};
    /// let deck = Deck::check(include_bytes!("../../crates/replay/data/d.deck"))?;
    /// let mut rig = Rig::start(deck, 2)?;
    /// rig.input(0, &[(0, 4)])?;
    /// for update in rig.pending_updates() {
    ///     println!("part {}: {:?}", update.part(), update.pairs().collect::<Vec<_>>());
    /// }
    /// assert_eq!(rig.pending_updates().len(), 1);
    /// # Ok::<(), reaction::Refusal>(())
    /// ```
    pub fn pending_updates(&self) -> impl ExactSizeIterator<Item = Update<'_>> {
        let places = self.memory.pool.chunks_exact(PLACE);
        places.take(self.memory.pending as usize).map(|numbers| Update { numbers })
    }

    /// The deck.
    pub fn deck(&self) -> &Deck {
        &self.deck
    }

    /// The value table and the pool as the engine has them.
    pub fn memory(&self) -> &Memory {
        &self.memory
    }
}
