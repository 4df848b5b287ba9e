//! `compare_replay OURS OTHER COUNT SEED`: runs two programs that replay calls on COUNT generated
//! decks and texts of calls and compares what they print. `scripts/compare_replay` builds and runs it.
//!
//! Deck and text n depend on the seed and n alone. Most decks pass, or do so once the text converts
//! them. Texts have damaged memory, updates written by hand, lines that can't be read, and pools from
//! none to the longest; some fill all 65,535 places. Some are fed in pieces with pauses, so that lines
//! are cut by a read.

use reference::comparison::{self, count_lines, first_difference, is_fed_in_pieces, print_counts, replayed};
use reference::generate::scripts::{full, script};
use reference::generate::{deck, numbered, old_deck, Kind, Size};
use std::collections::BTreeMap;
use std::fs;
use std::io;
use std::process::ExitCode;

/// Where the deck and the text stand that are tried, and those that the two do not agree on.
const FOLDER: &str = "target/compare_replay";
const MOST_KEPT: usize = 20;

fn main() -> ExitCode {
    comparison::run("compare_replay", ["OURS", "OTHER"], compare)
}

/// The number of texts on which the two differ.
fn compare([ours, other]: [&str; 2], count: u64, seed: u64) -> io::Result<usize> {
    fs::create_dir_all(FOLDER)?;
    let mut kinds: BTreeMap<String, usize> = BTreeMap::new();
    let mut differences = 0;
    for number in 0..count {
        let (kind, deck, text) = generated(seed, number);
        let name = format!("{FOLDER}/{}-{kind}-{seed}-{number}", std::process::id());
        let (deck_file, text_file) = (format!("{name}.deck"), format!("{name}.calls"));
        fs::write(&deck_file, &deck)?;
        fs::write(&text_file, &text)?;
        let one = replayed(ours, &deck_file, &text_file, is_fed_in_pieces(number))?;
        let two = replayed(other, &deck_file, &text_file, false)?;
        count_lines(&two, &mut kinds);
        if one != two {
            differences += 1;
            println!("{text_file}: {}", first_difference(&one, &two));
        }
        if one == two || differences > MOST_KEPT {
            fs::remove_file(deck_file)?;
            fs::remove_file(text_file)?;
        }
    }
    print_counts(&kinds);
    println!("{count} texts, {differences} differences");
    Ok(differences)
}

/// Decks that pass come most often, and old ones that must be converted; one text in 2,500 fills the
/// largest pool.
fn generated(seed: u64, number: u64) -> (&'static str, Vec<u8>, String) {
    let mut random = numbered(seed, number);
    if number % 2500 == 99 {
        let (deck, text) = full(&mut random);
        return ("full", deck, text);
    }
    let (name, deck) = match number % 10 {
        0..=3 => ("rich", deck(Kind::Rich, &mut random, Size::FULL)),
        4..=5 => ("valid", deck(Kind::Valid, &mut random, Size::FULL)),
        6 => ("heavy", deck(Kind::Heavy, &mut random, Size::FULL)),
        7..=8 => {
            let kind = random.pick(&[Kind::Rich, Kind::Rich, Kind::Valid, Kind::Heavy, Kind::Defaults]);
            ("old", old_deck(kind, &mut random, Size::FULL))
        }
        _ => {
            let (name, kind) = random.pick(&Kind::ALL);
            (name, deck(kind, &mut random, Size::FULL))
        }
    };
    let calls = random.between(5, 80);
    let text = script(&mut random, &deck, calls);
    (name, deck, text)
}
