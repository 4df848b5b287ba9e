//! The stored decks and texts have the lines that are written down for them, and stand as they are made.

use reference::conversion::convert_whole;
use reference::engine::check_line;
use reference::script::replay;
use reference::{stored, stored_replays};
use std::collections::BTreeSet;
use std::fs;
use std::path::Path;

#[test]
fn lines() {
    for stored in stored::all() {
        assert_eq!(check_line(&stored.deck), stored.line, "{}", stored.name);
    }
}

#[test]
fn converter_lines() {
    for stored in stored::all() {
        let line = match convert_whole(&stored.deck) {
            Ok(new) => format!("converted {}", new.len()),
            Err(refusal) => refusal.to_string(),
        };
        assert_eq!(line, stored.converter_line(), "{}", stored.name);
    }
}

#[test]
fn names_begin_with_the_refusal() {
    for stored in stored::all().iter().filter(|stored| !stored.name.starts_with('p')) {
        let first = stored.name.split('-').next().filter(|first| first.parse::<u32>().is_ok());
        let number = stored.line.strip_prefix("refused ").and_then(|rest| rest.split(' ').next());
        let too_long = stored.name.starts_with("longest-and");
        assert!(first == number || too_long, "{} {}", stored.name, stored.line);
    }
}

#[test]
fn every_refusal_of_check_and_of_the_converter_is_there() {
    let first_two = |line: &str| line.split(' ').take(2).collect::<Vec<_>>().join(" ");
    let seen: BTreeSet<String> = stored::all().iter().map(|stored| first_two(stored.line)).collect();
    for number in (1..=8).chain(18..=20) {
        assert!(seen.contains(&format!("refused {number}")), "{number}");
    }
    // Of decks that have a default action.
    let retired = |stored: &&stored::Stored| stored.line.starts_with("refused 20 ");
    let seen: BTreeSet<String> =
        stored::all().iter().filter(retired).map(|stored| first_two(&stored.converter_line())).collect();
    for number in (1..=8).chain([18, 19, 21]) {
        assert!(seen.contains(&format!("refused {number}")), "{number}");
    }
}

#[test]
fn files_are_as_they_are_made() {
    let crates = Path::new(env!("CARGO_MANIFEST_DIR")).join("../crates");
    let mut files = stored::files();
    files.extend(stored_replays::files());
    for (path, content) in &files {
        assert!(fs::read(crates.join(path)).is_ok_and(|found| found == *content), "{path}");
    }
    let decks = fs::read_dir(crates.join("check_files/data")).unwrap().count();
    assert_eq!(decks, stored::all().len());
    let replays = fs::read_dir(crates.join("replay_files/data")).unwrap().count();
    assert_eq!(replays, stored_replays::decks().len() + stored_replays::texts().len());
}

/// What is printed for a stored text.
fn printed(text: &stored_replays::StoredText) -> String {
    let decks = stored_replays::decks();
    let deck = decks.iter().find(|deck| deck.name == text.deck).unwrap();
    replay(&deck.deck, &text.text)
}

#[test]
fn answers() {
    for text in stored_replays::texts() {
        let printed = printed(&text);
        let memory = printed.find("pending ").unwrap();
        if let Some(answers) = &text.answers {
            assert_eq!(&printed[..memory], answers, "{}", text.name);
        }
    }
}

#[test]
fn every_answer_of_replay_is_there() {
    let all: String = stored_replays::texts().iter().map(printed).collect();
    let seen: BTreeSet<&str> =
        all.lines().map(|line| line.rsplit_once(' ').map_or(line, |(words, _)| words)).collect();
    for number in [1, 3, 5, 7].into_iter().chain(9..=22) {
        assert!(seen.contains(&*format!("refused {number}")), "{number}");
    }
    for word in ["converted", "started", "added", "applied", "discarded", "settled", "spent", "unreadable"] {
        assert!(seen.contains(word), "{word}");
    }
}
