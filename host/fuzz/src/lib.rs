//! Generated calls, valid and hostile, through engines and through the reference.
//!
//! Cases are decks with lists of calls: decks that pass, damaged and cut ones, decks with a fault in an
//! expression, old decks, states and pools that were written by hand or damaged, parts put outside their limit,
//! extreme numbers, wrong lengths and empty slices. After each call everything that was handed back is compared:
//! the returned number, the five answer numbers, the stretch, the whole buffer, all values, the pending number and
//! the whole pool. Calls on a converted deck are compared with the same calls on the old one as well.
#![warn(clippy::all)]
#![forbid(unsafe_code)]

mod cases;
mod compare;
mod step;
mod summary;

pub use compare::Difference;
pub use summary::Summary;

use bench::engines::Engine;
use compare::Comparison;
use reference::random::Random;

/// Makes at least so many calls, in whole cases; what they came to, or the first difference.
pub fn run(engines: Vec<Box<dyn Engine>>, calls: u64, seed: u64) -> Result<Summary, Difference> {
    let mut comparison = Comparison::new(engines);
    for number in 0.. {
        if comparison.summary.calls() >= calls {
            break;
        }
        cases::case(&mut comparison, seed, number)
            .map_err(|Difference(text)| Difference(format!("seed {seed}, case {number}\n{text}")))?;
    }
    Ok(comparison.summary)
}

/// The calls of a case with so many updates pending in a pool of so many places.
pub fn run_many(
    engines: Vec<Box<dyn Engine>>,
    pending: usize,
    places: usize,
    seed: u64,
) -> Result<Summary, Difference> {
    let mut comparison = Comparison::new(engines);
    cases::many(&mut comparison, &mut Random::new(seed), pending, places)?;
    Ok(comparison.summary)
}
