//! The seven calls on memory of any content, as the archive has them.
//!
//! The functions [`check`], [`section`] and [`convert`] and those of [`Memory`] lend slices to the archive's
//! functions, whose declarations stand here too. The engine tests everything that it is lent, so a host may put any
//! numbers into a `Memory`, a pool of any length included.
//!
//! ```
//! use reaction::raw::{self, Memory};
//!
//! let deck = include_bytes!("../../crates/replay/data/d.deck");
//! assert_eq!(raw::check(deck).answer, [0, 3, 2, 2, 2]);
//! let mut memory = Memory::new(20);
//! memory.start(deck);
//! memory.pool[19] = 7;
//! assert_eq!(memory.settle(deck, 1).number, 10);
//! ```

use crate::Refusal;

/// Numbers of a value table.
pub const VALUES: usize = 512;
/// Channels of a part in a value table.
pub const CHANNELS: usize = 32;
/// Numbers of a place of the pool.
pub const PLACE: usize = 10;
/// Numbers of an answer.
pub const ANSWER: usize = 5;
/// Bytes of the longest new deck that can pass.
pub const LONGEST_DECK: usize = 25_987;
/// Bytes of the longest old deck that can pass the converter's check.
pub const LONGEST_OLD_DECK: usize = 42_883;

/// A part of a deck's bytes.
#[repr(C)]
#[derive(Clone, Copy, Debug)]
pub struct Stretch {
    /// The first byte, inside the deck that the call was given.
    pub bytes: *const u8,
    /// The number of bytes.
    pub length: usize,
}

// The archive's functions. Each returns the refusal's number, 0 when the call is accepted.
//
// Safety, for all of them: a pointer with a length points to so many numbers (with length 0 to any address),
// `answer` to 5, `values` to 512, the others to one; what is lent does not overlap, and nobody else writes
// it during the call. `stretch` points to one that is empty or whose bytes can be read. Nothing is asked of the
// numbers themselves.
unsafe extern "C" {
    /// Whether a deck passes. The answer: place; channels, rules, parts, largest charge of a carried rule.
    pub fn reaction_check(deck: *const u8, deck_length: usize, answer: *mut u32) -> u32;

    /// A section of a deck, from its count to its end; empty where refused. The answer: place; zeros.
    pub fn reaction_section(
        deck: *const u8,
        deck_length: usize,
        number: u32,
        stretch: *mut Stretch,
        answer: *mut u32,
    ) -> u32;

    /// The opening values, nothing pending, the pool all 0; where refused, the state is zeros and the pool as it
    /// was. The answer: place; zeros.
    pub fn reaction_start(
        deck: *const u8,
        deck_length: usize,
        pool: *mut i32,
        pool_length: usize,
        values: *mut i32,
        pending: *mut u32,
        answer: *mut u32,
    ) -> u32;

    /// Sets channels of a part: channel, value, channel, value; refused where that would leave the part outside its
    /// limit. The answer: place; charge added; zeros.
    pub fn reaction_input(
        deck: *const u8,
        deck_length: usize,
        pool: *mut i32,
        pool_length: usize,
        values: *mut i32,
        pending: *mut u32,
        part: u32,
        pairs: *const i32,
        pairs_length: usize,
        answer: *mut u32,
    ) -> u32;

    /// Commits a place. The answer: place; 1 applied or 0 discarded; charge now pending; zeros.
    pub fn reaction_commit(
        deck: *const u8,
        deck_length: usize,
        pool: *mut i32,
        pool_length: usize,
        values: *mut i32,
        pending: *mut u32,
        place: u32,
        answer: *mut u32,
    ) -> u32;

    /// Commits place 0 within a budget. The answer: place; commits made; 1 settled or 0 spent; zeros.
    pub fn reaction_settle(
        deck: *const u8,
        deck_length: usize,
        pool: *mut i32,
        pool_length: usize,
        values: *mut i32,
        pending: *mut u32,
        budget: u32,
        answer: *mut u32,
    ) -> u32;

    /// Writes an old deck as a new one to the front of the buffer, whose rest stays as it was; where refused, all of
    /// it does. The answer: place; the new deck's length; zeros.
    pub fn reaction_convert(
        deck: *const u8,
        deck_length: usize,
        buffer: *mut u8,
        buffer_length: usize,
        answer: *mut u32,
    ) -> u32;
}

/// The form of `reaction_commit` and `reaction_settle`.
type Numbered =
    unsafe extern "C" fn(*const u8, usize, *mut i32, usize, *mut i32, *mut u32, u32, *mut u32) -> u32;

/// What a call hands back besides memory.
#[derive(Clone, Copy, Debug, Default, PartialEq, Eq)]
pub struct Returned {
    /// The refusal's number, 0 when the call was accepted.
    pub number: u32,
    /// The refusal's place, then the four answer numbers of the call.
    pub answer: [u32; ANSWER],
}

impl Returned {
    /// The four answer numbers, or the refusal.
    ///
    /// ```
    /// use reaction::raw::Returned;
    ///
    /// assert_eq!(Returned { number: 0, answer: [0, 3, 2, 2, 2] }.result(), Ok([3, 2, 2, 2]));
    /// assert!(Returned { number: 9, answer: [0; 5] }.result().is_err());
    /// ```
    pub fn result(self) -> Result<[u32; ANSWER - 1], Refusal> {
        let [place, numbers @ ..] = self.answer;
        match self.number {
            0 => Ok(numbers),
            number => Err(Refusal { number, place }),
        }
    }
}

/// Whether a deck passes.
///
/// ```
/// let returned = reaction::raw::check(&[]);
/// assert_eq!((returned.number, returned.answer), (1, [0; 5]));
/// ```
pub fn check(deck: &[u8]) -> Returned {
    let mut answer = [0; ANSWER];
    // Safety: slice and array are lent whole and do not overlap.
    let number = unsafe { reaction_check(deck.as_ptr(), deck.len(), answer.as_mut_ptr()) };
    Returned { number, answer }
}

/// A section of a deck, which is a part of the slice; empty where refused.
///
/// ```
/// let deck = include_bytes!("../../crates/replay/data/d.deck");
/// assert_eq!(reaction::raw::section(deck, 0).1, &deck[..4]);
/// assert_eq!(reaction::raw::section(deck, 3).0.number, 15);
/// ```
pub fn section(deck: &[u8], number: u32) -> (Returned, &[u8]) {
    let mut answer = [0; ANSWER];
    let mut stretch = Stretch { bytes: deck.as_ptr(), length: 0 };
    // Safety: slice, array and stretch are lent whole and do not overlap.
    let refused =
        unsafe { reaction_section(deck.as_ptr(), deck.len(), number, &mut stretch, answer.as_mut_ptr()) };
    // The stretch is taken from the slice by its place there, so that nothing rests on its pointer.
    let start = (stretch.bytes as usize).wrapping_sub(deck.as_ptr() as usize);
    let bytes = deck.get(start..start.wrapping_add(stretch.length)).unwrap_or_default();
    (Returned { number: refused, answer }, bytes)
}

/// Writes an old deck as a new one to the front of a buffer, whose rest stays as it was; where refused, all of it does.
/// [`LONGEST_DECK`] bytes are enough for every deck.
///
/// ```
/// // Deck D has no default actions, so it comes out as it was.
/// let deck = include_bytes!("../../crates/replay/data/d.deck");
/// let mut buffer = [7; 80];
/// assert_eq!(reaction::raw::convert(deck, &mut buffer).answer, [0, 75, 0, 0, 0]);
/// assert_eq!((&buffer[..75], &buffer[75..]), (&deck[..], &[7; 5][..]));
/// assert_eq!(reaction::raw::convert(deck, &mut buffer[..74]).number, 22);
/// ```
pub fn convert(deck: &[u8], buffer: &mut [u8]) -> Returned {
    let mut answer = [0; ANSWER];
    // Safety: slices and array are lent whole and do not overlap.
    let number = unsafe {
        reaction_convert(deck.as_ptr(), deck.len(), buffer.as_mut_ptr(), buffer.len(), answer.as_mut_ptr())
    };
    Returned { number, answer }
}

/// What a host lends to a call: the state and a pool, with any numbers in them.
#[derive(Clone, Debug, PartialEq, Eq)]
pub struct Memory {
    /// The value table: channel c of part p at 32 p + c.
    pub values: [i32; VALUES],
    /// The pending number.
    pub pending: u32,
    /// The pool: ten numbers for each place.
    pub pool: Vec<i32>,
}

impl Memory {
    /// Zeros, with a pool of this length.
    ///
    /// ```
    /// assert_eq!(reaction::raw::Memory::new(20).pool, [0; 20]);
    /// ```
    pub fn new(pool_length: usize) -> Memory {
        Memory { values: [0; VALUES], pending: 0, pool: vec![0; pool_length] }
    }

    /// The opening values, nothing pending, the pool all 0. Where refused, the state becomes zeros and the pool
    /// stays as it was.
    ///
    /// ```
    /// let mut memory = reaction::raw::Memory::new(15);
    /// memory.values = [7; reaction::raw::VALUES];
    /// assert_eq!(memory.start(include_bytes!("../../crates/replay/data/d.deck")).number, 9);
    /// assert_eq!(memory.values, [0; reaction::raw::VALUES]);
    /// ```
    pub fn start(&mut self, deck: &[u8]) -> Returned {
        let mut answer = [0; ANSWER];
        // Safety: all that is lent is owned here or by the caller, whole, and does not overlap.
        let number = unsafe {
            reaction_start(
                deck.as_ptr(),
                deck.len(),
                self.pool.as_mut_ptr(),
                self.pool.len(),
                self.values.as_mut_ptr(),
                &mut self.pending,
                answer.as_mut_ptr(),
            )
        };
        Returned { number, answer }
    }

    /// Sets channels of a part: channel, value, channel, value. Where the part would be outside its limit with all
    /// of them set, nothing is.
    ///
    /// ```
    /// let deck = include_bytes!("../../crates/replay/data/d.deck");
    /// let mut memory = reaction::raw::Memory::new(20);
    /// memory.start(deck);
    /// assert_eq!(memory.input(deck, 0, &[0, 4]).answer, [0, 2, 0, 0, 0]);
    /// assert_eq!(memory.input(deck, 0, &[0]).number, 12);
    /// // Part 1 keeps channel 2 below 10.
    /// assert_eq!(memory.input(deck, 1, &[2, 10]).number, 17);
    /// ```
    pub fn input(&mut self, deck: &[u8], part: u32, pairs: &[i32]) -> Returned {
        let mut answer = [0; ANSWER];
        // Safety: as in `start`.
        let number = unsafe {
            reaction_input(
                deck.as_ptr(),
                deck.len(),
                self.pool.as_mut_ptr(),
                self.pool.len(),
                self.values.as_mut_ptr(),
                &mut self.pending,
                part,
                pairs.as_ptr(),
                pairs.len(),
                answer.as_mut_ptr(),
            )
        };
        Returned { number, answer }
    }

    /// Commits the update at a place.
    ///
    /// ```
    /// let deck = include_bytes!("../../crates/replay/data/d.deck");
    /// let mut memory = reaction::raw::Memory::new(20);
    /// memory.start(deck);
    /// assert_eq!(memory.commit(deck, 0).number, 14);
    /// ```
    pub fn commit(&mut self, deck: &[u8], place: u32) -> Returned {
        self.numbered(reaction_commit, deck, place)
    }

    /// Commits place 0 until nothing is pending or the budget is used.
    ///
    /// ```
    /// let deck = include_bytes!("../../crates/replay/data/d.deck");
    /// let mut memory = reaction::raw::Memory::new(20);
    /// memory.start(deck);
    /// memory.input(deck, 0, &[0, 4]);
    /// assert_eq!(memory.settle(deck, 9).answer, [0, 2, 1, 0, 0]);
    /// ```
    pub fn settle(&mut self, deck: &[u8], budget: u32) -> Returned {
        self.numbered(reaction_settle, deck, budget)
    }

    /// Calls a function that is given one number beside deck and memory.
    fn numbered(&mut self, call: Numbered, deck: &[u8], argument: u32) -> Returned {
        let mut answer = [0; ANSWER];
        // Safety: as in `start`.
        let number = unsafe {
            call(
                deck.as_ptr(),
                deck.len(),
                self.pool.as_mut_ptr(),
                self.pool.len(),
                self.values.as_mut_ptr(),
                &mut self.pending,
                argument,
                answer.as_mut_ptr(),
            )
        };
        Returned { number, answer }
    }
}
