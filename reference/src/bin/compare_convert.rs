//! `compare_convert OURS OTHER COUNT SEED`: runs two programs that convert a deck on COUNT generated old
//! decks of all kinds and compares the bytes that they write, or their refusals. `scripts/compare_convert`
//! builds and runs it.
//!
//! Some decks are fed in pieces with pauses, so that they arrive in several reads.

use reference::comparison::{self, fed, is_fed_in_pieces, print_counts};
use reference::generate::any_old_kind;
use std::collections::BTreeMap;
use std::fs;
use std::io;
use std::process::{Command, ExitCode, Output};

/// Where decks go that the two programs do not agree on, and how many of them.
const KEPT: &str = "target/compare_convert";
const MOST_KEPT: usize = 20;

fn main() -> ExitCode {
    comparison::run("compare_convert", ["OURS", "OTHER"], compare)
}

/// The number of decks on which the two differ.
fn compare([ours, other]: [&str; 2], count: u64, seed: u64) -> io::Result<usize> {
    let mut outcomes: BTreeMap<String, usize> = BTreeMap::new();
    let mut differences = 0;
    for number in 0..count {
        let (kind, deck) = any_old_kind(seed, number);
        let run = |program| fed(&mut Command::new(program), deck.clone(), is_fed_in_pieces(number));
        let (one, two) = (run(ours)?, run(other)?);
        *outcomes.entry(outcome(&deck, &two)).or_default() += 1;
        if one != two {
            differences += 1;
        }
        if one != two && differences <= MOST_KEPT {
            keep(&format!("{kind}-{seed}-{number}"), &deck, &one, &two)?;
        }
    }
    print_counts(&outcomes);
    println!("{count} old decks, {differences} differences");
    Ok(differences)
}

/// What became of a deck: the same bytes, others, or `refused` and its number.
fn outcome(deck: &[u8], output: &Output) -> String {
    if !output.stderr.is_empty() {
        let line = String::from_utf8_lossy(&output.stderr);
        return line.split_whitespace().take(2).collect::<Vec<_>>().join(" ");
    }
    if output.stdout == deck { "converted to itself" } else { "converted" }.to_string()
}

fn keep(name: &str, deck: &[u8], ours: &Output, other: &Output) -> io::Result<()> {
    fs::create_dir_all(KEPT)?;
    fs::write(format!("{KEPT}/{name}.deck"), deck)?;
    println!("{KEPT}/{name}.deck: {}, and {}", said(ours), said(other));
    let (one, two) = (&ours.stdout, &other.stdout);
    if let Some(at) = one.iter().zip(two).position(|(one, two)| one != two) {
        println!("    byte {at}: {}, and {}", one[at], two[at]);
    }
    Ok(())
}

fn said(output: &Output) -> String {
    let error = String::from_utf8_lossy(&output.stderr);
    format!("{} bytes, {:?}, {}", output.stdout.len(), error, output.status)
}
