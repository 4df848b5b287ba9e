//! Ways of breaking the tutorial's rig, and what is printed of each. `broken.txt` has them: after `==` a name, the lines that go
//! behind `-` and those that come behind `+`, and then what is printed.
//!
//! With RIG_WRITE set, what is printed now is written there.

use rig::loading::Loaded;
use std::path::Path;
use std::{env, fs};

const FACE: &str = include_str!("../../../examples/face/face.txt");

struct Way {
    name: String,
    goes: Vec<String>,
    comes: Vec<String>,
    printed: String,
}

fn ways(text: &str) -> Vec<Way> {
    let mut ways: Vec<Way> = Vec::new();
    for line in text.lines() {
        if let Some(name) = line.strip_prefix("== ") {
            ways.push(Way { name: name.into(), goes: vec![], comes: vec![], printed: String::new() });
            continue;
        }
        let Some(way) = ways.last_mut() else { continue };
        match line.get(..1) {
            Some("-") if way.printed.is_empty() => way.goes.push(line[1..].to_string()),
            Some("+") if way.printed.is_empty() => way.comes.push(line[1..].to_string()),
            _ => {
                way.printed += line;
                way.printed.push('\n');
            }
        }
    }
    ways
}

/// The face with some lines in the place of others.
fn broken(way: &Way) -> String {
    let lines: Vec<&str> = FACE.lines().collect();
    let goes: Vec<&str> = way.goes.iter().map(String::as_str).collect();
    let comes: Vec<&str> = way.comes.iter().map(String::as_str).collect();
    let found: Vec<usize> =
        (0..=lines.len() - goes.len()).filter(|&at| lines[at..at + goes.len()] == goes[..]).collect();
    assert_eq!(found.len(), 1, "{}: the lines that go stand there once", way.name);
    let rest = &lines[found[0] + goes.len()..];
    [&lines[..found[0]], &comes[..], rest].concat().join("\n") + "\n"
}

/// What `rig check face.txt` prints on standard error.
fn printed(text: String) -> String {
    let checked = Loaded::of_text("face.txt", text).and_then(|loaded| loaded.checked().map(|_| ()));
    checked.map_or_else(|stop| stop.message().to_string() + "\n", |()| "passed\n".to_string())
}

#[test]
fn each_way_is_told_at_its_line() {
    let file = Path::new(env!("CARGO_MANIFEST_DIR")).join("tests/broken.txt");
    let ways = ways(&fs::read_to_string(&file).expect("the stored ways"));
    assert!(ways.len() >= 25, "{} ways", ways.len());
    let mut written = String::new();
    for way in &ways {
        let now = printed(broken(way));
        written += &format!("== {}\n", way.name);
        way.goes.iter().for_each(|line| written += &format!("-{line}\n"));
        way.comes.iter().for_each(|line| written += &format!("+{line}\n"));
        written += &now;
        if env::var_os("RIG_WRITE").is_none() {
            assert_eq!(now, way.printed, "{}", way.name);
        }
    }
    if env::var_os("RIG_WRITE").is_some() {
        fs::write(file, written).expect("the stored ways are written");
    }
}

/// Each message names a line that the change touched, or one that the sentence is about.
#[test]
fn the_face_itself_passes() {
    assert_eq!(printed(FACE.to_string()), "passed\n");
}
