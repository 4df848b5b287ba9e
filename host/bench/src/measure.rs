//! How long a call takes.

use crate::cases::{Call, Case, Lent};
use crate::engines::Engine;
use reaction::raw::Returned;
use std::hint::black_box;
use std::time::Instant;

/// Calls are timed in batches on memory of about so many bytes in all, so that it stays in the cache.
const BATCH_BYTES: usize = 1 << 18;
const MOST_IN_BATCH: usize = 64;
/// Seconds that each engine is measured for, about, and the fewest and the most rounds.
const SECONDS: f64 = 0.25;
const ROUNDS: (usize, usize) = (5, 101);
/// A batch that takes longer than so many seconds is measured once.
const LONG: f64 = 1.0;

/// The engines, and where each works.
pub struct Measured {
    pub engine: Box<dyn Engine>,
    batch: Vec<Lent>,
}

impl Measured {
    pub fn new(engine: Box<dyn Engine>) -> Measured {
        Measured { engine, batch: Vec::new() }
    }

    /// Makes the call once on a copy of what the case lends.
    fn try_once(&mut self, case: &Case) -> (Returned, Lent) {
        let mut lent = case.lent.clone();
        let returned = case.call.make(self.engine.as_mut(), &case.deck, &mut lent);
        (returned, lent)
    }

    /// Seconds for one call, as the mean over a batch.
    fn sample(&mut self, case: &Case, batch: usize) -> f64 {
        self.batch.resize_with(batch, Lent::nothing);
        for lent in &mut self.batch {
            lent.clone_from(&case.lent);
        }
        let start = Instant::now();
        for lent in &mut self.batch {
            black_box(case.call.make(self.engine.as_mut(), black_box(&case.deck), lent));
        }
        start.elapsed().as_secs_f64() / batch as f64
    }
}

fn batch(case: &Case) -> usize {
    let Lent { memory, buffer } = &case.lent;
    let lent = match case.call {
        Call::Check => 0,
        Call::Convert => buffer.len(),
        _ => size_of_val(&memory.values) + size_of_val(&memory.pool[..]),
    };
    (BATCH_BYTES / lent.max(1)).clamp(1, MOST_IN_BATCH)
}

fn median(samples: &mut [f64]) -> f64 {
    samples.sort_by(f64::total_cmp);
    samples[samples.len() / 2]
}

/// Seconds for a call by each engine, the median of rounds in which they take turns. An error where they
/// do not answer alike, or not as the case says.
pub fn measure(case: &Case, engines: &mut [Measured]) -> Result<Vec<f64>, String> {
    let tried: Vec<_> = engines.iter_mut().map(|measured| measured.try_once(case)).collect();
    if tried.iter().any(|outcome| *outcome != tried[0] || outcome.0.result().err() != case.refused) {
        let answers: Vec<_> = tried.iter().map(|(returned, _)| returned).collect();
        return Err(format!("{}: the engines differ, or miss what the case says: {answers:?}", case.name));
    }
    let batch = batch(case);
    let mut samples: Vec<Vec<f64>> =
        engines.iter_mut().map(|measured| vec![measured.sample(case, batch)]).collect();
    let rounds = |first: f64| match first * batch as f64 {
        long if long > LONG => 0,
        once => ((SECONDS / once) as usize).clamp(ROUNDS.0, ROUNDS.1),
    };
    let rounds: Vec<usize> = samples.iter().map(|samples| rounds(samples[0])).collect();
    for round in 0..ROUNDS.1 {
        for (number, measured) in engines.iter_mut().enumerate().filter(|&(number, _)| round < rounds[number])
        {
            samples[number].push(measured.sample(case, batch));
        }
    }
    Ok(samples.iter_mut().map(|samples| median(samples)).collect())
}
