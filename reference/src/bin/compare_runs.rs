//! `compare_runs OURS COUNT SEED`: compares what the program OURS replays on converted decks with what
//! the calls of this implementation do on the old decks, on COUNT generated old decks and texts of calls.
//! `scripts/compare_convert` builds and runs it.
//!
//! OURS is handed the old deck and a text that first converts it. This implementation has the calls take
//! the old deck as it is. All that is printed after `converted N` must be the same: answers, values,
//! pending number and pool.

use reference::comparison::{self, count_lines, first_difference, is_fed_in_pieces, print_counts, replayed};
use reference::conversion::convert_whole;
use reference::generate::scripts::old_script;
use reference::generate::{numbered, old_deck, Kind, Size};
use reference::random::Random;
use reference::script::replay_old;
use std::collections::BTreeMap;
use std::fs;
use std::io;
use std::process::ExitCode;

/// Where the deck and the text stand that are tried, and those on which there is a difference.
const FOLDER: &str = "target/compare_runs";
const MOST_KEPT: usize = 20;

fn main() -> ExitCode {
    comparison::run("compare_runs", ["OURS"], compare)
}

/// The number of texts on which the two differ.
fn compare([ours]: [&str; 1], count: u64, seed: u64) -> io::Result<usize> {
    fs::create_dir_all(FOLDER)?;
    let mut kinds: BTreeMap<String, usize> = BTreeMap::new();
    let mut differences = 0;
    for number in 0..count {
        let mut random = numbered(seed, number);
        let (old, length) = with_default_actions(&mut random);
        let calls = random.between(5, 80);
        let text = old_script(&mut random, &old, calls);
        let name = format!("{FOLDER}/{}-{seed}-{number}", std::process::id());
        let (deck_file, text_file) = (format!("{name}.deck"), format!("{name}.calls"));
        fs::write(&deck_file, &old)?;
        fs::write(&text_file, format!("convert 50000\n{text}"))?;
        let one = replayed(ours, &deck_file, &text_file, is_fed_in_pieces(number))?;
        let two = format!("converted {length}\n{}", replay_old(&old, text.as_bytes()));
        count_lines(&two, &mut kinds);
        if one != two {
            differences += 1;
            println!("{text_file}: {}", first_difference(&one, &two));
        }
        if one == two || differences > MOST_KEPT {
            fs::remove_file(deck_file)?;
            fs::remove_file(text_file)?;
        }
    }
    print_counts(&kinds);
    println!("{count} texts on old and converted decks, {differences} differences");
    Ok(differences)
}

/// An old deck that conversion changes, and the length of what it is converted to.
fn with_default_actions(random: &mut Random) -> (Vec<u8>, usize) {
    let kinds = [Kind::Rich, Kind::Rich, Kind::Rich, Kind::Valid, Kind::Heavy, Kind::Defaults];
    loop {
        let kind = random.pick(&kinds);
        let deck = old_deck(kind, random, Size::FULL);
        match convert_whole(&deck) {
            Ok(new) if new != deck => return (deck, new.len()),
            _ => {}
        }
    }
}
