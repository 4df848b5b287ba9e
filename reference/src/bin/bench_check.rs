//! `bench_check CHECK_DECK CHECK_FILES OTHER DATA RUNS`: how long checking a deck takes, by the proved
//! programs CHECK_DECK and CHECK_FILES and by OTHER, this implementation's program, on stored decks in
//! the folder DATA. `scripts/bench_check` builds all of them and runs it.

use reference::engine::check_line;
use std::env;
use std::fs::{self, File};
use std::hint::black_box;
use std::io::{self, Write};
use std::path::{Path, PathBuf};
use std::process::{Command, ExitCode, Stdio};
use std::time::{Duration, Instant};

/// Name in the table and file. The first one costs no more than starting a program.
const DECKS: [(&str, &str); 4] = [
    ("no bytes", "p2.deck"),
    ("longest", "longest.deck"),
    ("charge beyond 2^64", "8-beyond-64-bits.deck"),
    ("as long, passes", "as-long.deck"),
];

fn main() -> ExitCode {
    let arguments: Vec<String> = env::args().skip(1).collect();
    let [ours, files, other, data, runs] = &arguments[..] else { return usage() };
    let Ok(runs) = runs.parse() else { return usage() };
    match processes([ours, other], Path::new(data), runs)
        .and_then(|()| one_process(files, Path::new(data), runs))
    {
        Ok(()) => ExitCode::SUCCESS,
        Err(error) => {
            eprintln!("bench_check: {error}");
            ExitCode::from(2)
        }
    }
}

fn usage() -> ExitCode {
    eprintln!("usage: bench_check CHECK_DECK CHECK_FILES OTHER DATA RUNS");
    ExitCode::from(2)
}

/// What runs took: the median by the clock, and the mean of user and system time.
struct Took {
    clock: f64,
    user: f64,
    system: f64,
}

/// A process for each deck, the two programs in turn.
fn processes(programs: [&str; 2], data: &Path, runs: usize) -> io::Result<()> {
    println!("A process for each deck, {runs} runs of each; microseconds.");
    println!("'More' is user and system time beyond that of no bytes: reading and checking.\n");
    println!(
        "{:20} {:>6}  {:10} {:>8} {:>8} {:>8} {:>8}",
        "deck", "bytes", "program", "clock", "user", "system", "more"
    );
    let mut least = [0.0; 2];
    for (row, (name, file)) in DECKS.into_iter().enumerate() {
        let file = data.join(file);
        let bytes = fs::metadata(&file)?.len();
        let took = in_turn(programs, &file, runs)?;
        for (index, program) in ["proved", "reference"].into_iter().enumerate() {
            let Took { clock, user, system } = took[index];
            if row == 0 {
                least[index] = user + system;
            }
            let more = user + system - least[index];
            println!("{name:20} {bytes:6}  {program:10} {clock:8.0} {user:8.0} {system:8.0} {more:8.0}");
        }
    }
    Ok(())
}

fn in_turn(programs: [&str; 2], file: &Path, runs: usize) -> io::Result<[Took; 2]> {
    let mut clocks = [Vec::new(), Vec::new()];
    let mut times = [[Duration::ZERO; 2]; 2];
    for _ in 0..runs {
        for (index, program) in programs.into_iter().enumerate() {
            let before = times_of_children();
            let start = Instant::now();
            let status = Command::new(program).stdin(File::open(file)?).stdout(Stdio::null()).status()?;
            clocks[index].push(start.elapsed());
            if !status.success() {
                return Err(io::Error::other(format!("{program}: {status}")));
            }
            let after = times_of_children();
            (0..2).for_each(|kind| times[index][kind] += after[kind] - before[kind]);
        }
    }
    Ok([0, 1].map(|index| {
        clocks[index].sort_unstable();
        let mean = |kind: usize| micros(times[index][kind]) / runs as f64;
        Took { clock: micros(clocks[index][runs / 2]), user: mean(0), system: mean(1) }
    }))
}

fn micros(time: Duration) -> f64 {
    time.as_secs_f64() * 1e6
}

/// Many decks in one process, so that starting it does not count: opening, reading, checking, printing.
fn one_process(files: &str, data: &Path, runs: usize) -> io::Result<()> {
    println!(
        "\nEach deck {runs} times in one process, with opening, reading and printing; microseconds a deck,"
    );
    println!("the least of five.\n");
    println!("{:20} {:>10} {:>10} {:>7}", "deck", "proved", "reference", "ratio");
    for (name, file) in DECKS {
        let path = data.join(file);
        let proved = least(|| proved(files, &path, runs))?;
        let other = least(|| other(&path, runs))?;
        let each = |time| micros(time) / runs as f64;
        println!("{name:20} {:10.2} {:10.2} {:7.2}", each(proved), each(other), each(proved) / each(other));
    }
    Ok(())
}

fn least(mut run: impl FnMut() -> io::Result<Duration>) -> io::Result<Duration> {
    (0..5).map(|_| run()).try_fold(Duration::MAX, |least, time| Ok(least.min(time?)))
}

fn proved(program: &str, file: &Path, runs: usize) -> io::Result<Duration> {
    let files: Vec<PathBuf> = vec![file.to_path_buf(); runs];
    let start = Instant::now();
    let status = Command::new(program).args(files).stdout(Stdio::null()).status()?;
    if status.success() {
        Ok(start.elapsed())
    } else {
        Err(io::Error::other(format!("{program}: {status}")))
    }
}

fn other(file: &Path, runs: usize) -> io::Result<Duration> {
    let mut sink = File::options().write(true).open("/dev/null")?;
    let start = Instant::now();
    for _ in 0..runs {
        let deck = fs::read(file)?;
        writeln!(sink, "{} {}", file.display(), black_box(check_line(&deck)))?;
    }
    Ok(start.elapsed())
}

/// User and system time of the children so far, by `getrusage`.
fn times_of_children() -> [Duration; 2] {
    extern "C" {
        fn getrusage(who: i32, usage: *mut [i64; 18]) -> i32;
    }
    const CHILDREN: i32 = -1;
    let mut usage = [0; 18];
    // SAFETY: on 64-bit Linux the structure has two times of two 8-byte numbers, then 14 numbers.
    unsafe { getrusage(CHILDREN, &mut usage) };
    let time =
        |at: usize| Duration::from_secs(usage[at] as u64) + Duration::from_micros(usage[at + 1] as u64);
    [time(0), time(2)]
}
