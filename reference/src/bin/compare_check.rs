//! `compare_check OURS OTHER COUNT SEED`: runs two programs that check a deck on COUNT generated
//! decks of all kinds and compares what they print. `scripts/compare_check` builds and runs it.
//!
//! Some decks are fed in pieces with pauses, so that they arrive in several reads.

use reference::comparison::{self, fed, is_fed_in_pieces, print_counts, said};
use reference::generate::any_kind;
use std::collections::BTreeMap;
use std::fs;
use std::io;
use std::process::{Command, ExitCode};

/// Where decks go that the two programs do not agree on, and how many of them.
const KEPT: &str = "target/compare_check";
const MOST_KEPT: usize = 20;

fn main() -> ExitCode {
    comparison::run("compare_check", ["OURS", "OTHER"], compare)
}

/// The number of decks on which the two differ.
fn compare([ours, other]: [&str; 2], count: u64, seed: u64) -> io::Result<usize> {
    let mut outcomes: BTreeMap<String, usize> = BTreeMap::new();
    let mut differences = 0;
    for number in 0..count {
        let (kind, deck) = any_kind(seed, number);
        let run = |program| fed(&mut Command::new(program), deck.clone(), is_fed_in_pieces(number));
        let (one, two) = (said(&run(ours)?), said(&run(other)?));
        *outcomes.entry(outcome(&two)).or_default() += 1;
        if one != two {
            differences += 1;
        }
        if one != two && differences <= MOST_KEPT {
            keep(&format!("{kind}-{seed}-{number}"), &deck, &one, &two)?;
        }
    }
    print_counts(&outcomes);
    println!("{count} decks, {differences} differences");
    Ok(differences)
}

/// `passed`, or `refused` and its number.
fn outcome(line: &str) -> String {
    let words = if line.starts_with("passed") { 1 } else { 2 };
    line.split_whitespace().take(words).collect::<Vec<_>>().join(" ")
}

fn keep(name: &str, deck: &[u8], ours: &str, other: &str) -> io::Result<()> {
    fs::create_dir_all(KEPT)?;
    fs::write(format!("{KEPT}/{name}.deck"), deck)?;
    println!("{KEPT}/{name}.deck: {ours:?}, and {other:?}");
    Ok(())
}
