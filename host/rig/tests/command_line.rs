//! The program as it is called: what it prints where, and its status.

use std::io::Write;
use std::path::{Path, PathBuf};
use std::process::{Command, Output, Stdio};
use std::{env, fs};

const FACE: &str = concat!(env!("CARGO_MANIFEST_DIR"), "/../../examples/face/face.txt");
const CALLS: &str = concat!(env!("CARGO_MANIFEST_DIR"), "/../../examples/face/face.calls");

/// Channels a and b; a rule with event a, the default action b = a and no other action; a part that carries it.
const OLD: &[u8] =
    b"\x02ab\x01\x01\x00\x01\x01\x02\x01\x00\x00\x01\x11\x00\x01\0\0\0\0\0\0\0\0\x01\x00\x01\x11";

fn rig(words: &[&str]) -> Output {
    Command::new(env!("CARGO_BIN_EXE_rig")).args(words).output().expect("rig runs")
}

fn status(output: &Output) -> i32 {
    output.status.code().unwrap_or(-1)
}

fn text(bytes: &[u8]) -> String {
    String::from_utf8_lossy(bytes).into_owned()
}

/// A folder of this test's own.
fn folder(name: &str) -> PathBuf {
    let folder = Path::new(env!("CARGO_TARGET_TMPDIR")).join(name);
    fs::create_dir_all(&folder).expect("a folder for the test");
    folder
}

fn written(folder: &Path, name: &str, content: &str) -> String {
    let file = folder.join(name);
    fs::write(&file, content).expect("a file for the test");
    file.to_string_lossy().into_owned()
}

#[test]
fn help_and_version() {
    let help = rig(&["--help"]);
    assert_eq!(status(&help), 0);
    for command in ["make", "text", "check", "convert", "graph", "run", "orders"] {
        assert!(text(&help.stdout).contains(&format!("rig {command} ")), "{command}");
    }
    assert_eq!(text(&rig(&["--version"]).stdout), format!("rig {}\n", env!("CARGO_PKG_VERSION")));
}

#[test]
fn wrong_use_has_status_2() {
    let wrong: [&[&str]; 13] = [
        &[],
        &["mak"],
        &["make"],
        &["make", FACE, FACE],
        &["make", "no-such-file"],
        &["check", "--trace", FACE],
        &["graph", FACE, "--svg"],
        &["run", FACE],
        &["run", FACE, CALLS, "--order", "sideways"],
        &["run", FACE, CALLS, "--trace", "--trace"],
        &["run", FACE, "no-such-file"],
        &["orders", FACE, CALLS, "--tries", "0"],
        &["orders", FACE, CALLS, "--tries", "many"],
    ];
    for words in wrong {
        let output = rig(words);
        assert_eq!(status(&output), 2, "{words:?}");
        assert!(output.stdout.is_empty() && !output.stderr.is_empty(), "{words:?}");
    }
}

#[test]
fn a_failed_make_writes_no_deck() {
    let folder = folder("failed_make");
    let ways = [
        "channel a b\n",
        "channel a b\nrule r\nwhen b\nset b = b\npart p\ncarries r\n",
        "nonsense",
        "\u{e9}",
    ];
    for (number, way) in ways.iter().enumerate() {
        let output = rig(&["make", &written(&folder, &format!("{number}.txt"), way)]);
        assert_eq!((status(&output), output.stdout.len()), (1, 0), "{way}");
        assert!(!output.stderr.is_empty());
    }
    let deck = rig(&["make", FACE]).stdout;
    let file = folder.join("face.deck");
    fs::write(&file, &deck).expect("the deck");
    let again = rig(&["make", &file.to_string_lossy()]);
    assert_eq!((status(&again), again.stdout.len()), (1, 0));
}

#[test]
fn texts_and_decks_say_the_same() {
    let folder = folder("same");
    let deck = rig(&["make", FACE]);
    assert_eq!(status(&deck), 0);
    let file = folder.join("face.deck");
    fs::write(&file, &deck.stdout).expect("the deck");
    let file = file.to_string_lossy();
    let as_text = rig(&["text", &file]);
    let again = rig(&["make", &written(&folder, "again.txt", &text(&as_text.stdout))]);
    assert_eq!(again.stdout, deck.stdout);
    // With its own names the text of a text is the text without comments.
    assert!(text(&rig(&["text", FACE]).stdout).contains("rule fold_left\n  when raise\n  everywhere\n"));
    assert_eq!(
        text(&rig(&["check", &file]).stdout),
        format!(
            "{file} passed: 7 channels, 5 rules, 5 parts.\n\
             From one rule that fires at most 5 commits follow. A pool of 10 places has room for any one input.\n"
        )
    );
}

#[test]
fn a_text_comes_from_standard_input() {
    let mut child = Command::new(env!("CARGO_BIN_EXE_rig"))
        .args(["make", "-"])
        .stdin(Stdio::piped())
        .stdout(Stdio::piped())
        .spawn()
        .expect("rig runs");
    let face = fs::read(FACE).expect("the face");
    child.stdin.take().expect("its standard input").write_all(&face).expect("the text is taken");
    assert_eq!(child.wait_with_output().expect("rig ends").stdout, rig(&["make", FACE]).stdout);
}

#[test]
fn refused_decks_are_told_by_their_fields() {
    let folder = folder("fields");
    let deck = rig(&["make", FACE]).stdout;
    let told = |name: &str, bytes: &[u8]| {
        let file = folder.join(name);
        fs::write(&file, bytes).expect("a deck");
        let output = rig(&["check", &file.to_string_lossy()]);
        assert_eq!((status(&output), output.stdout.len()), (1, 0));
        text(&output.stderr).split_once(": ").map(|(_, told)| told.to_string()).unwrap_or_default()
    };
    assert_eq!(
        told("short", &deck[..12]),
        "Refused by 1 at 12: the deck ends inside a field or expression. The bytes end in the kind of rule 0.\n"
    );
    let mut kind = deck.clone();
    kind[12] = 2;
    assert_eq!(
        told("kind", &kind),
        "Refused by 2 at 12: a number of the deck is out of its range, or a list does not rise. Byte 12 is in the kind \
         of rule 0.\n"
    );
    let mut longer = deck.clone();
    longer.push(1);
    assert_eq!(
        told("longer", &longer),
        format!(
            "Refused by 5 at {}: bytes follow the last section. Byte {} is in what follows the last part.\n",
            deck.len(),
            deck.len()
        )
    );
}

#[test]
fn old_decks_are_converted() {
    let old = folder("old").join("old.deck");
    fs::write(&old, OLD).expect("an old deck");
    let old = old.to_string_lossy();
    let refused = rig(&["check", &old]);
    assert_eq!(status(&refused), 1);
    assert!(text(&refused.stderr).contains("`rig convert` makes a new deck"), "{}", text(&refused.stderr));
    let converted = rig(&["convert", &old]);
    assert_eq!(status(&converted), 0);
    assert!(reaction::Deck::check(converted.stdout).is_ok());
    // A part that opens outside its limit: the old deck has no names, and its part is told by number.
    let mut outside = OLD.to_vec();
    let last = outside.len() - 1;
    outside[last] = 16;
    let file = folder("old").join("outside.deck");
    fs::write(&file, outside).expect("an old deck");
    let refused = rig(&["convert", &file.to_string_lossy()]);
    assert!(
        text(&refused.stderr).ends_with("Refused by 6 at 0: a part opens outside its limit. It is part 0.\n")
    );
    let short = rig(&["convert", FACE]);
    assert_eq!((status(&short), short.stdout.len()), (1, 0));
}

#[test]
fn a_run_shows_each_answer_and_what_is_left() {
    let run = rig(&["run", FACE, CALLS]);
    assert_eq!(status(&run), 1, "an input past the stop is refused");
    let printed = text(&run.stdout);
    assert!(printed.contains("input right_brow raise 60"), "{printed}");
    assert!(printed.contains("refused 17: "), "{printed}");
    assert!(text(&run.stderr).ends_with(": One call was refused.\n"), "{}", text(&run.stderr));
    // Another order, the same end.
    let newest = rig(&["run", FACE, CALLS, "--order", "newest"]);
    let left = |printed: &str| printed.split_once("left: ").map(|(_, left)| left.to_string());
    assert_eq!(left(&printed), left(&text(&newest.stdout)));
}

#[test]
fn frames_are_rows_and_lines() {
    let folder = folder("frames");
    let plot = folder.join("face.svg");
    let csv = rig(&["run", FACE, CALLS, "--csv", "--plot", &plot.to_string_lossy()]);
    let rows: Vec<String> = text(&csv.stdout).lines().map(String::from).collect();
    assert!(rows[0].starts_with("frame,forehead.side,forehead.raise,"), "{}", rows[0]);
    assert_eq!(rows.len(), 5, "the start, three settles, and the names");
    assert!(rows.iter().all(|row| row.split(',').count() == 1 + 7 * 5));
    let svg = fs::read_to_string(plot).expect("the plot");
    assert!(svg.starts_with("<svg ") && svg.ends_with("</svg>\n"));
    assert!(svg.contains(">left_brow.raise<") && !svg.contains(">left_brow.side<"));
}

#[test]
fn a_graph_is_text_for_graphviz() {
    let graph = text(&rig(&["graph", FACE]).stdout);
    assert!(graph.starts_with("digraph \"face\" {\n"), "{graph}");
    assert!(graph.contains("c1 -> c3 [label=\"fold_left\\ncharge 5\", style=dashed];"), "{graph}");
    assert!(!graph.contains("color=red"));
    // A cycle is drawn, though the deck does not pass.
    let face = fs::read_to_string(FACE).expect("the face");
    let cyclic = face.replace("set left_tone = neg left_fold", "set raise = neg left_fold");
    let folder = folder("graph");
    let graph = text(&rig(&["graph", &written(&folder, "cyclic.txt", &cyclic)]).stdout);
    assert!(graph.contains("c1 [label=\"raise\", color=red"), "{graph}");
    assert!(graph.contains("c2 [label=\"open\"];"), "{graph}");
}

#[test]
fn a_missing_dot_is_told() {
    let folder = folder("no_dot");
    let svg = folder.join("face.svg");
    let output = Command::new(env!("CARGO_BIN_EXE_rig"))
        .args(["graph", FACE, "--svg", &svg.to_string_lossy()])
        .env("PATH", &folder)
        .output()
        .expect("rig runs");
    assert_eq!(status(&output), 2);
    assert!(text(&output.stderr).contains("is not installed"), "{}", text(&output.stderr));
    assert!(!svg.exists());
    assert!(fs::read_dir(&folder).expect("the folder").next().is_none(), "nothing is left behind");
}

#[test]
fn calls_are_told_at_their_line() {
    let folder = folder("calls");
    for (line, told) in [
        ("input left_brwo raise 3", "There is no part `left_brwo`."),
        ("input left_brow rais 3", "There is no channel `rais`."),
        ("input left_brow raise 3.5", "The value `3.5` has a point: values are whole numbers."),
        ("input left_brow raise", "The last channel has no value."),
        ("input", "The line is `input PART CHANNEL VALUE ..`."),
        ("commit", "The line is `commit PLACE` or `commit PART.CHANNEL`."),
        ("commit -1", "`-1` is no whole number from 0 to 4294967295."),
        ("commit left_lid", "A pending update is named by its place or as PART.CHANNEL."),
        ("settle 1 2", "The line is `settle` or `settle BUDGET`."),
        ("start 700001", "A pool of at most 700000 numbers is lent, 10 for each place."),
        ("pool 0 1", "`pool` lines try damaged memory and old decks: `replay` has them."),
        ("comit 0", "`comit` is no call: the calls are start, input, commit, settle and section."),
    ] {
        let file = written(&folder, "one.calls", &format!("start # ready\n\n  {line}\n"));
        let output = rig(&["run", FACE, &file]);
        assert_eq!((status(&output), output.stdout.len()), (1, 0), "{line}");
        let message = text(&output.stderr);
        assert!(message.starts_with(&format!("{file}:3:")) && message.contains(told), "{line}: {message}");
    }
}

#[test]
fn a_commit_is_named_by_what_it_sets() {
    let folder = folder("named");
    let calls = "input left_brow raise 10\ncommit forehead.left_fold\ncommit forehead.right_fold\ncommit 9\n";
    let output = rig(&["run", FACE, &written(&folder, "named.calls", calls), "--trace"]);
    assert_eq!(
        text(&output.stdout),
        "start                       started\n\
         input left_brow raise 10    added 3\n\
         \x20   rule lift_lid at left_brow: left_lid open = 30\n\
         \x20   rule fold_left at left_brow: forehead left_fold = 20\n\
         commit forehead.left_fold   applied 2\n\
         \x20 commit forehead left_fold = 20: applied\n\
         \x20   rule darken_left at forehead: forehead left_tone = -20\n\
         commit forehead.right_fold  refused: no pending update sets that channel\n\
         commit 9                    refused 14: the place is not pending\n\
         left: 2 pending\n\
         \x20 forehead left_fold 20\n\
         \x20 left_brow raise 10\n"
    );
    assert_eq!(status(&output), 1);
}
