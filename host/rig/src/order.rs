//! In which order pending updates are committed.

use reference::random::Random;

/// Who picks the next place.
pub enum Order {
    Oldest,
    Newest,
    Random(Random),
}

impl Order {
    /// `oldest`, `newest`, or a seed.
    pub fn named(word: &str) -> Option<Order> {
        match word {
            "oldest" => Some(Order::Oldest),
            "newest" => Some(Order::Newest),
            seed => seed.parse().ok().map(Order::seeded),
        }
    }

    pub fn seeded(seed: u64) -> Order {
        Order::Random(Random::new(seed))
    }

    /// The place that is committed next, where so many updates are pending.
    pub fn next(&mut self, pending: u32) -> u32 {
        match self {
            Order::Oldest => 0,
            Order::Newest => pending.saturating_sub(1),
            Order::Random(random) => random.below(pending as usize) as u32,
        }
    }
}
