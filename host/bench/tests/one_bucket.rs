//! A pool made against the archive's hash, all updates in one bucket of its index: the answers are the reference's,
//! and the time does not grow with the square of their number. Times are the thread's own, and the least of many, so
//! that nothing else that the machine does counts.

use bench::decks::{figure, LAST};
use bench::engines::{Archive, Engine, Reference};
use reaction::raw::{Memory, PLACE};
use std::hint::black_box;
use std::time::Duration;

/// The factors of the last value in the hash of an update with one pair and with four: `hashOf` of
/// `crates/pool_index/specs/Hash.antt`.
const FACTOR_OF_ONE: u32 = 1_640_531_527;
const FACTOR_OF_FOUR: u32 = 86_028_121;
/// A hundred times as many updates take about a hundred times as long, and ten thousand times as long if each is
/// compared with all others. The limit is halfway.
const FEW: usize = 655;
const MANY: usize = 65_535;
const LIMIT: f64 = 1_000.0;
const RUNS: usize = 20;

#[repr(C)]
struct TimeSpec {
    seconds: i64,
    nanoseconds: i64,
}

/// POSIX, with the number that Linux has for the clock.
const CLOCK_THREAD_CPUTIME_ID: i32 = 3;

extern "C" {
    fn clock_gettime(clock: i32, time: *mut TimeSpec) -> i32;
}

/// How long this thread has run.
fn thread_time() -> Duration {
    let mut time = TimeSpec { seconds: 0, nanoseconds: 0 };
    // Safety: a time of the C library's layout is lent.
    assert_eq!(unsafe { clock_gettime(CLOCK_THREAD_CPUTIME_ID, &mut time) }, 0);
    Duration::new(time.seconds as u64, time.nanoseconds as u32)
}

/// What a piece of work comes to, and how long this thread ran for it.
fn timed<T>(work: impl FnOnce() -> T) -> (T, Duration) {
    let start = thread_time();
    let done = work();
    (done, thread_time() - start)
}

/// The least of so many times.
fn least(runs: usize, time: impl FnMut(usize) -> Duration) -> Duration {
    (0..runs).map(time).min().unwrap_or_default()
}

/// How many times as long as with few updates it takes with many.
fn growth(time: impl Fn(usize) -> Duration) -> f64 {
    let (few, many) = (time(FEW), time(MANY));
    println!("{FEW} updates {few:?}, {MANY} updates {many:?}");
    many.as_secs_f64() / few.as_secs_f64()
}

/// The number whose product with an odd one is 1, of 32 bits.
fn inverse(odd: u32) -> u32 {
    (0..5).fold(odd, |x, _| x.wrapping_mul(2_u32.wrapping_sub(odd.wrapping_mul(x))))
}

/// Values for which the hash goes up by 1: it takes a value as a number from 0 on.
fn values(factor: u32) -> impl Iterator<Item = i32> {
    let step = inverse(factor);
    (0..).map(move |number: u32| number.wrapping_mul(step).wrapping_sub(1 << 31) as i32)
}

/// Updates that differ in one value alone, the last of their pairs, and whose hashes follow one another.
fn pending(count: usize, pairs: usize) -> (Vec<u8>, Memory) {
    let deck = figure(4, 16, 1).encode().bytes;
    let mut memory = Memory::new(PLACE * MANY);
    Reference.start(&deck, &mut memory);
    let factor = if pairs == 1 { FACTOR_OF_ONE } else { FACTOR_OF_FOUR };
    let places = memory.pool.as_chunks_mut::<PLACE>().0.iter_mut();
    for (place, value) in places.take(count).zip(values(factor)) {
        place[1] = pairs as i32;
        for pair in 0..pairs {
            place[2 + 2 * pair] = i32::from(LAST) + pair as i32;
        }
        place[1 + 2 * pairs] = value;
    }
    memory.pending = count as u32;
    (deck, memory)
}

/// The least time of a commit of place 0 by the archive, whose result must be the reference's.
fn commit(count: usize, pairs: usize) -> Duration {
    let (deck, memory) = pending(count, pairs);
    let mut expected = memory.clone();
    let answer = Reference.commit(&deck, &mut expected, 0);
    assert_eq!(answer.number, 0);
    least(RUNS, |_| {
        let mut given = memory.clone();
        let (returned, time) = timed(|| Archive.commit(&deck, &mut given, 0));
        assert!(returned == answer && given == expected);
        time
    })
}

/// Compares each update with all before it.
fn compare_all(count: usize) -> Duration {
    let (_, memory) = pending(count, 1);
    let values: Vec<i32> = memory.pool.chunks(PLACE).take(count).map(|place| place[3]).collect();
    least(3, |_| {
        let (found, time) = timed(|| (0..count).any(|at| black_box(&values[..at]).contains(&values[at])));
        assert!(!found);
        time
    })
}

#[test]
fn time_is_not_quadratic() {
    for pairs in [1, 4] {
        let growth = growth(|count| commit(count, pairs));
        assert!(growth < LIMIT, "{pairs} pairs: {growth} times as long");
    }
}

/// The test above can fail.
#[test]
fn a_quadratic_time_is_found() {
    let growth = growth(compare_all);
    assert!(growth > LIMIT, "{growth} times as long");
}
