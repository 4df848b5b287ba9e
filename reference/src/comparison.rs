//! What the programs share that compare others on generated cases.

use std::collections::BTreeMap;
use std::fs::{self, File};
use std::io::{self, Write};
use std::process::{Command, ExitCode, Output, Stdio};
use std::thread::{sleep, spawn};
use std::time::Duration;
use std::{env, process};

/// Runs a comparison on the arguments of the program `name`: programs, named so in its usage, and COUNT SEED.
/// It answers the number of cases on which they differ.
pub fn run<const N: usize>(
    name: &str,
    programs: [&str; N],
    compare: fn([&str; N], u64, u64) -> io::Result<usize>,
) -> ExitCode {
    let arguments: Vec<String> = env::args().skip(1).collect();
    let Some((given, count, seed)) = parsed(&arguments) else {
        eprintln!("usage: {name} {} COUNT SEED", programs.join(" "));
        process::exit(2)
    };
    match compare(given, count, seed) {
        Ok(0) => ExitCode::SUCCESS,
        Ok(_) => ExitCode::FAILURE,
        Err(error) => {
            eprintln!("{name}: {error}");
            ExitCode::from(2)
        }
    }
}

fn parsed<const N: usize>(arguments: &[String]) -> Option<([&str; N], u64, u64)> {
    let (programs, numbers) = arguments.split_at_checked(N)?;
    let [count, seed] = numbers else { return None };
    let programs = programs.iter().map(String::as_str).collect::<Vec<_>>();
    Some((programs.try_into().ok()?, count.parse().ok()?, seed.parse().ok()?))
}

/// One case in fifty is fed in three pieces with pauses, so that it arrives in several reads.
pub fn is_fed_in_pieces(number: u64) -> bool {
    number % 50 == 7
}

/// What a program makes of standard input.
pub fn fed(command: &mut Command, input: Vec<u8>, in_pieces: bool) -> io::Result<Output> {
    let mut child = command.stdin(Stdio::piped()).stdout(Stdio::piped()).stderr(Stdio::piped()).spawn()?;
    let stdin = child.stdin.take();
    let pieces = if in_pieces { 3 } else { 1 };
    let feeder = spawn(move || {
        let Some(mut stdin) = stdin else { return };
        for piece in input.chunks(input.len().div_ceil(pieces).max(1)) {
            // A program may leave off reading where it has seen enough; one that ends too early shows in
            // what it printed.
            if stdin.write_all(piece).is_err() {
                return;
            }
            if in_pieces {
                sleep(Duration::from_millis(2));
            }
        }
    });
    let output = child.wait_with_output();
    let _ = feeder.join();
    output
}

/// What a program writes to standard output, and how it ends where that is not as it should.
pub fn said(output: &Output) -> String {
    let said = String::from_utf8_lossy(&output.stdout).into_owned();
    if output.status.success() && output.stderr.is_empty() {
        return said;
    }
    format!("{said}{} {}", output.status, String::from_utf8_lossy(&output.stderr))
}

/// What a program that replays says of a deck and a text that stand in files.
pub fn replayed(program: &str, deck: &str, text: &str, in_pieces: bool) -> io::Result<String> {
    let mut command = Command::new(program);
    command.arg(deck);
    let output = match in_pieces {
        true => fed(&mut command, fs::read(text)?, true)?,
        false => command.stdin(File::open(text)?).output()?,
    };
    Ok(said(&output))
}

/// Prints how often each kind of answer came.
pub fn print_counts(counts: &BTreeMap<String, usize>) {
    for (kind, count) in counts {
        println!("{count:10}  {kind}");
    }
}

/// Counts lines by their word, refusals by their number, and what is left in memory as one kind.
pub fn count_lines(printed: &str, kinds: &mut BTreeMap<String, usize>) {
    let mut memory = false;
    for line in printed.lines() {
        memory |= line.starts_with("pending ");
        let words = if line.starts_with("refused ") { 2 } else { 1 };
        let kind = if memory {
            "(memory)".to_string()
        } else {
            line.split(' ').take(words).collect::<Vec<_>>().join(" ")
        };
        *kinds.entry(kind).or_default() += 1;
    }
}

/// The first line that differs.
pub fn first_difference(one: &str, two: &str) -> String {
    let (mut ours, mut others) = (one.lines(), two.lines());
    let mut number = 0;
    loop {
        number += 1;
        let (a, b) = (ours.next(), others.next());
        if a != b || a.is_none() {
            return format!("line {number} of the output: {a:?}, and {b:?}");
        }
    }
}
