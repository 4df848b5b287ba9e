//! The refusals have the same numbers, names and words wherever they stand, and all that is handed out has one version.
//!
//! What the engine's crate `refusals` says is held to the header for C, its texts, this crate, the page of the formats
//! and the Python package.

use reaction::Refusal;
use std::fs;

/// A number with a name or with words.
type Named = (u32, String);

/// A file, by its path in the repository.
fn file(path: &str) -> String {
    let path = format!("{}/../{path}", env!("CARGO_MANIFEST_DIR"));
    fs::read_to_string(&path).unwrap_or_else(|error| panic!("{path}: {error}"))
}

/// What stands between two texts, the first of each.
fn between<'t>(text: &'t str, start: &str, end: &str) -> &'t str {
    let (_, rest) = text.split_once(start).unwrap_or_else(|| panic!("no {start:?}"));
    rest.split_once(end).unwrap_or_else(|| panic!("no {end:?} behind {start:?}")).0
}

/// A line without what it has to begin and end with.
fn stripped<'l>(line: &'l str, start: &str, end: &str) -> &'l str {
    let rest = line.strip_prefix(start).and_then(|rest| rest.strip_suffix(end));
    rest.unwrap_or_else(|| panic!("{line:?} is not {start:?}..{end:?}"))
}

fn number(text: &str) -> u32 {
    text.parse().unwrap_or_else(|_| panic!("{text:?} is no number"))
}

/// A name and a number, with this between them.
fn named(text: &str, separator: &str) -> Named {
    let (name, value) = text.split_once(separator).unwrap_or_else(|| panic!("no {separator:?} in {text:?}"));
    (number(value), name.to_string())
}

/// The names of the engine's code, in the spelling of constants: its enumeration has `DeckEnds` for `DECK_ENDS`.
fn names() -> Vec<Named> {
    let code = file("crates/refusals/src/lib.rt");
    let lines = between(&code, "pub enum Refusal {\n", "\n}").lines();
    let variants = lines.map(|line| named(stripped(line, "    ", ","), " = "));
    variants.map(|(number, name)| (number, as_constant(&name))).collect()
}

/// A name with `_` in front of each capital letter but the first, all in capitals.
fn as_constant(name: &str) -> String {
    let capital = |(at, letter): (usize, char)| at > 0 && letter.is_uppercase();
    let spelled = name.char_indices().map(|here| (if capital(here) { "_" } else { "" }, here.1));
    spelled.map(|(front, letter)| format!("{front}{}", letter.to_ascii_uppercase())).collect()
}

/// The words of this crate. It has none for the numbers around those of the refusals.
fn words() -> Vec<Named> {
    let words = |number| Refusal { number, place: 0 }.name();
    let last = names().len() as u32;
    assert_eq!([words(0), words(last + 1)], ["no refusal of the engine"; 2]);
    (1..=last).map(|number| (number, words(number).to_string())).collect()
}

/// The names of the header's enumeration.
fn header_names() -> Vec<Named> {
    let header = file("include/reaction.h");
    let lines = between(&header, "enum reaction_refusal {\n", "\n};").split(",\n");
    lines.map(|line| named(stripped(line, "    REACTION_", ""), " = ")).collect()
}

/// The words of the header's table, whose columns begin where those of its first line do.
fn header_words() -> Vec<Named> {
    let header = file("include/reaction.h");
    let (above, table) = header.split_once(" * Number  Refusal ").expect("a table");
    let head = &header[above.len()..].lines().next().expect("its first line");
    let [words, place] = ["Refusal", "Place"].map(|column| head.find(column).expect("a column"));
    let mut list: Vec<Named> = Vec::new();
    for line in table.lines().skip(1).take_while(|line| *line != " *") {
        let text = line[words..line.len().min(place)].trim();
        match (line[2..words].trim(), list.last_mut()) {
            // The words or the place of the line above go on here.
            ("", Some((_, words))) => *words = format!("{words} {text}").trim_end().to_string(),
            (first, _) => list.push((number(first), text.to_string())),
        }
    }
    list
}

/// The names and words of the C function, which has words for accepted calls and for unknown numbers besides.
fn text_names_and_words() -> Vec<(String, String)> {
    let text = file("include/reaction_text.h");
    let mut lines: Vec<&str> = between(&text, "switch (number) {\n", "\n    }\n").lines().collect();
    assert_eq!(lines.remove(0), r#"    case 0: return "accepted";"#);
    assert_eq!(lines.pop(), Some(r#"    default: return "no refusal of the engine";"#));
    let case = |line| stripped(line, "    case REACTION_", "\";").split_once(": return \"");
    lines.into_iter().filter_map(case).map(|(name, words)| (name.to_string(), words.to_string())).collect()
}

/// The names of the formats' table.
fn format_names() -> Vec<Named> {
    let page = file("docs/FORMAT.md");
    let table = between(&page, "\n## The refusals\n", "\nEvery call tests");
    let rows = table.lines().filter(|line| line.starts_with("| ") && !line.starts_with("| No. "));
    let row = |row: &str| {
        let mut fields = row.split(" | ");
        let [first, name] = [(); 2].map(|_| fields.next().expect("a field"));
        (number(stripped(first, "| ", "")), stripped(name, "`", "`").to_string())
    };
    rows.map(row).collect()
}

/// The lines of Python's tuple.
fn python_lines() -> Vec<String> {
    let python = file("host/python/reaction/refusals.py");
    between(&python, "REFUSALS = (\n", "\n)").lines().map(str::to_string).collect()
}

#[test]
fn the_names_are_the_same() {
    let names = names();
    assert!(names.iter().map(|(number, _)| *number).eq(1..=names.len() as u32), "{names:?}");
    assert_eq!(header_names(), names);
    assert_eq!(format_names(), names);
}

#[test]
fn the_words_are_the_same() {
    let words = words();
    assert_eq!(header_words(), words);
    let names = names().into_iter().map(|(_, name)| name);
    let expected: Vec<_> = names.zip(words.into_iter().map(|(_, words)| words)).collect();
    assert_eq!(text_names_and_words(), expected);
}

#[test]
fn python_has_names_and_words() {
    let line = |((number, name), (_, words)): (Named, Named)| format!("    ({number}, {name:?}, {words:?}),");
    let expected: Vec<String> = names().into_iter().zip(words()).map(line).collect();
    assert_eq!(python_lines(), expected);
}

#[test]
fn the_versions_are_the_same() {
    let header = file("include/reaction.h");
    let defined = |name: &str| between(&header, &format!("\n#define REACTION_VERSION{name} "), "\n");
    let version = env!("CARGO_PKG_VERSION");
    assert_eq!(defined(""), format!("{version:?}"));
    assert_eq!(["_MAJOR", "_MINOR", "_PATCH"].map(defined).join("."), version);
    for path in ["host/Cargo.toml", "host/bench/Cargo.toml", "host/fuzz/Cargo.toml", "host/rig/Cargo.toml"] {
        assert_eq!(between(&file(path), "\nversion = ", "\n"), format!("{version:?}"), "{path}");
    }
    let python = file("host/python/reaction/__init__.py");
    assert!(python.lines().any(|line| line == format!("__version__ = {version:?}")));
}
