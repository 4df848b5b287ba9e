//! The texts of calls that are stored beside the proved `replay` for its tests. Most have the
//! answer of each line written down here; what is left in memory is computed.

use crate::deck::{Deck, Rule};
use crate::expression::{Number, Truth};
use crate::generate::scripts::script;
use crate::generate::{deck, Kind, Size};
use crate::random::Random;
use crate::script::replay;
use crate::stored::{assign, copy, deck_d, deck_d_with, deck_e, deck_e_with, deck_of, deck_of_33_rules};

/// A deck by its name.
pub struct NamedDeck {
    pub name: String,
    pub deck: Vec<u8>,
}

/// A text of calls for a deck.
pub struct StoredText {
    pub name: String,
    pub deck: String,
    pub text: Vec<u8>,
    /// The answers that were written down by hand, a line each.
    pub answers: Option<String>,
}

/// Lines of calls, each with ` => ` and its answer where it prints one.
const BY_HAND: [(&str, &str, &str); 25] = [
    ("p8", "d", "start 20 => started\ninput 0 0 4 => added 2\ncommit 0 => applied 1\ncommit 0 => applied 0\n"),
    ("p8-one-place", "d", "start 10 => started\ninput 0 0 4 => refused 13 0\n"),
    ("p9", "d", "start 20 => started\ninput 0 0 9 => added 2\ncommit 0 => applied 1\ncommit 0 => discarded 0\n"),
    (
        "p10",
        "d",
        "start 20 => started\ninput 0 0 4 => added 2\ncommit 0 => applied 1\ncommit 0 => applied 0\n\
         input 0 0 4 => added 0\nsettle 0 => settled 0\n",
    ),
    (
        "p11",
        "d",
        "start 20 => started\ninput 0 0 2147483647 => added 2\ncommit 0 => applied 1\ncommit 0 => discarded 0\n",
    ),
    ("refused-calls", "d", REFUSED_CALLS),
    ("refused-deck", "cut", REFUSED_DECK),
    ("refused-unknown-byte", "unknown-byte", REFUSED_UNKNOWN_BYTE),
    ("refused-wrong-type", "wrong-type", REFUSED_WRONG_TYPE),
    ("refused-wrong-end", "wrong-end", REFUSED_WRONG_END),
    ("damaged-memory", "d", DAMAGED_MEMORY),
    ("limit", "d", LIMIT),
    ("outside-by-hand", "d", OUTSIDE_BY_HAND),
    ("whole-part", "limits", WHOLE_PART),
    ("full-pool", "chain", FULL_POOL),
    ("settle", "chain", SETTLE),
    ("sections", "d", "section 0 => section 0 4\nsection 1 => section 4 33\nsection 2 => section 33 75\n"),
    ("convert", "e", CONVERT),
    ("convert-to-itself", "d", CONVERT_TO_ITSELF),
    ("convert-to-65-rules", "rules-65", CONVERT_TO_65_RULES),
    ("convert-to-64-rules", "rules-64", CONVERT_TO_64_RULES),
    ("convert-unknown-byte", "e-unknown-byte", CONVERT_UNKNOWN_BYTE),
    ("convert-longer", "e-longer", "convert 50000 => refused 5 65\nstart 20 => refused 20 7\n"),
    ("convert-cut", "cut", "convert 50000 => refused 1 74\nconvert 0 => refused 1 74\n"),
    ("convert-cyclic", "cyclic", "convert 50000 => refused 7 0\nstart 20 => refused 7 0\n"),
];

/// Deck E is taken once it is converted; state and pool stay as they are.
const CONVERT: &str = "\
start 30 => refused 20 7
start 15 => refused 20 7
input 2 0 4 => refused 20 7
commit 0 => refused 20 7
settle 65536 => refused 20 7
section 0 => refused 20 7
section 3 => refused 20 7
convert 0 => refused 22 0
convert 72 => refused 22 0
start 30 => refused 20 7
convert 50001 => unreadable
section 0 => refused 20 7
convert 80 => converted 73
section 0 => section 0 4
section 1 => section 4 38
section 2 => section 38 73
start 20 => started
input 0 0 4 => refused 13 0
start 30 => started
input 0 0 4 => added 3
commit 0 => applied 2
convert 72 => refused 22 0
input 0 0 4 => added 0
convert 73 => converted 73
commit 2 => refused 14 0
settle 9 => settled 2
convert 50000 => converted 73
";

/// A deck without default actions is converted to its own bytes.
const CONVERT_TO_ITSELF: &str = "\
convert 75 => converted 75
start 20 => started
input 0 0 4 => added 2
convert 74 => refused 22 0
commit 0 => applied 1
convert 76 => converted 75
commit 0 => applied 0
section 2 => section 33 75
";

const CONVERT_TO_65_RULES: &str = "\
start 20 => refused 20 6
convert 0 => refused 21 0
convert 50000 => refused 21 0
start 20 => refused 20 6
";

const CONVERT_TO_64_RULES: &str = "\
start 20 => refused 20 6
convert 722 => refused 22 0
convert 723 => converted 723
start 20 => started
input 0 0 1 => added 1
input 0 0 2 => added 1
input 0 0 3 => refused 13 0
settle 9 => settled 2
";

/// Refused as the old check refuses, however long the buffer is.
const CONVERT_UNKNOWN_BYTE: &str = "\
start 20 => refused 20 7
convert 50000 => refused 3 10
convert 0 => refused 3 10
start 20 => refused 20 7
";

const REFUSED_CALLS: &str = "\
input 0 0 4 => refused 9 0
start 0 => refused 9 0
start 9 => refused 9 0
start 15 => refused 9 0
start 655360 => refused 9 0
start 11 => refused 9 0
settle 0 => refused 9 0
start 20 => started
input 2 0 4 => refused 11 0
input 4294967295 => refused 11 0
input 0 => refused 12 0
input 0 0 => refused 12 0
input 0 0 1 1 => refused 12 0
input 0 0 1 0 1 => refused 12 0
input 0 3 1 => refused 12 0
input 0 -1 1 => refused 12 0
input 0 -2147483648 1 => refused 12 0
input 0 0 1 1 1 2 1 0 1 1 1 2 1 0 1 1 1 2 1 0 1 1 1 2 1 0 1 1 1 2 1 0 1 1 1 2 1 0 1 1 1 2 1 0 1 1 1 2 1 0 1 1 1 2 1 0 1 1 1 2 1 0 1 1 1 2 1 => refused 12 0
input 1 2 10 => refused 17 0
commit 0 => refused 14 0
input 0 0 1 => added 2
commit 1 => refused 14 0
commit 4294967295 => refused 14 0
input 1 0 1 => refused 13 0
section 3 => refused 15 0
section 4294967295 => refused 15 0
settle 65536 => refused 16 0
settle 4294967295 => refused 16 0
settle 65535 => settled 2
";

const REFUSED_DECK: &str = "\
start 20 => refused 1 74
input 0 0 4 => refused 1 74
commit 0 => refused 1 74
settle 65536 => refused 1 74
section 3 => refused 1 74
";

const REFUSED_UNKNOWN_BYTE: &str = "\
start 20 => refused 3 69
start 15 => refused 3 69
input 2 0 4 => refused 3 69
commit 0 => refused 3 69
settle 65536 => refused 3 69
section 0 => refused 3 69
section 3 => refused 3 69
";

const REFUSED_WRONG_TYPE: &str = "\
start 20 => refused 18 68
start 15 => refused 18 68
input 2 0 4 => refused 18 68
commit 0 => refused 18 68
settle 65536 => refused 18 68
section 0 => refused 18 68
section 3 => refused 18 68
";

const REFUSED_WRONG_END: &str = "\
start 20 => refused 19 74
start 15 => refused 19 74
input 2 0 4 => refused 19 74
commit 0 => refused 19 74
settle 65536 => refused 19 74
section 0 => refused 19 74
section 3 => refused 19 74
";

const DAMAGED_MEMORY: &str = "\
start 30 => started
value 3 1
settle 0 => refused 10 0
value 3 0
settle 0 => settled 0
value 64 -1
input 0 0 4 => refused 10 0
value 64 0
pending 4
commit 0 => refused 10 0
pending 1
commit 0 => refused 10 0
pool 0 1
pool 1 1
pool 3 5
settle 65536 => refused 16 0
settle 0 => spent 0
pool 2 3
settle 0 => refused 10 0
pool 2 -1
settle 0 => refused 10 0
pool 2 1
pool 4 1
settle 0 => refused 10 0
pool 4 0
settle 0 => spent 0
pending 2
settle 0 => refused 10 0
pool 10 1
pool 11 1
pool 12 1
pool 13 5
settle 0 => refused 10 0
pool 13 6
settle 0 => refused 10 0
pool 12 2
settle 0 => spent 0
pool 29 1
settle 0 => refused 10 0
pool 29 0
pool 30 1 => unreadable
pool 0 2
settle 0 => refused 10 0
pool 0 1
pending 4294967295
settle 0 => refused 10 0
pending 2
settle 65535 => settled 2
value 34 11
commit 0 => refused 14 0
input 1 0 1 => refused 17 0
value 34 9
input 1 0 1 => added 2
settle 9 => settled 2
";

/// Part 1 of deck D keeps c below 10, whatever the firing leads to.
const LIMIT: &str = "\
start 20 => started
input 1 2 9 => added 0
input 1 2 10 => refused 17 0
input 1 2 2147483647 => refused 17 0
input 1 2 -2147483648 => added 0
input 2 2 10 => refused 11 0
input 1 2 10 2 10 => refused 12 0
input 1 2 10 3 0 => refused 12 0
input 0 2 10 => added 0
input 1 1 20 => added 1
input 1 2 10 1 30 => refused 17 0
input 1 1 30 2 9 => added 1
input 1 1 40 2 10 => refused 17 0
input 1 1 40 2 9 => refused 13 0
commit 0 => discarded 1
settle 9 => settled 1
start 10 => started
input 1 0 4 2 10 => refused 17 0
input 1 0 4 2 9 => refused 13 0
input 1 0 0 2 9 => added 0
";

/// A good state whose part 1 is outside its limit: an input or a commit there brings it within, or
/// it changes nothing.
const OUTSIDE_BY_HAND: &str = "\
start 40 => started
value 34 12
settle 0 => settled 0
input 1 0 1 => refused 17 0
input 1 2 12 => refused 17 0
input 1 0 1 2 10 => refused 17 0
input 0 0 4 => added 2
commit 0 => discarded 0
input 1 2 3 => added 0
input 1 0 1 => added 2
settle 9 => settled 2
value 34 12
pool 0 1
pool 1 1
pool 2 2
pool 3 9
pending 1
input 1 1 0 => refused 17 0
commit 0 => applied 0
input 1 1 5 => added 1
commit 0 => applied 0
";

/// Limits on several channels, at the ends of the range too.
const WHOLE_PART: &str = "\
start 10 => started
input 0 0 12 1 -5 => added 0
input 0 1 -2 => refused 17 0
input 0 1 -3 => added 0
input 0 1 4 0 6 => refused 17 0
input 0 1 4 0 5 => added 0
input 0 2 1 1 5 => refused 17 0
input 0 0 2147483647 1 1 => refused 17 0
input 0 0 2147483647 1 -2147483648 => added 0
input 1 2 -2147483648 => refused 17 0
input 1 2 -2147483647 => added 0
input 1 2 2147483647 => added 0
input 1 0 100 1 100 => added 0
";

const FULL_POOL: &str = "\
start 50 => started
input 0 0 1 => added 5
input 0 0 2 => refused 13 0
commit 0 => applied 4
input 0 4 9 => added 0
input 0 0 2 => refused 13 0
settle 2 => spent 2
settle 2 => settled 2
input 0 0 2 => added 5
start 655350 => started
input 0 0 2 => added 5
input 0 0 3 => added 5
input 0 0 2 => added 0
settle 65535 => settled 10
";

const SETTLE: &str = "\
start 100 => started
settle 0 => settled 0
settle 5 => settled 0
input 0 0 7 => added 5
settle 0 => spent 0
settle 1 => spent 1
settle 1 => spent 1
settle 65536 => refused 16 0
settle 1 => spent 1
input 0 0 7 => added 0
settle 9 => settled 2
";

/// Lines that can't be read; the text around them shows that they change nothing.
#[rustfmt::skip]
const UNREADABLE: &[&[u8]] = &[
    b" ", b"\r", b"start", b"start ", b"start 700001", b"start -1", b"start 1 2", b"Start 10", b"start  10",
    b" start 10", b"start 10 ", b"start 10\r", b"start\t10", b"start +10", b"start 0x10", b"start 1e1", b"input",
    b"input ", b"input -1", b"input 4294967296", b"input 0 2147483648", b"input 0 1 -2147483649", b"input 0 --1",
    b"input 0 -", b"input 0 1  2", b"input 0 1 2 ", b"input 0 +1", b"input 0 1-2", b"input 0 0 -1-", b"commit",
    b"commit -0", b"commit 0 0", b"commit 4294967296", b"commit 18446744073709551616", b"commit x", b"settle",
    b"settle 1 1", b"section", b"section -1", b"section 0 1", b"value 1", b"value 1 2 3", b"value -1 2",
    b"value 512 1", b"pool 1", b"pool 1 2 3", b"pool 20 1", b"pending", b"pending -1", b"pending 1 1",
    b"pending 4294967296", b"jump 1", b"check", b"input 0 \xff 1", b"\xc3\xa9", b"commit \xd9\xa1", b"commit 0\x00",
    b"\x00start 10", b"\x00\x00\x00\x00\x00\x00\x00\x00start 10", b"commits 0", b"startstart 10", b"poo 1 2", b"0", b"-",
    b"convert", b"convert ", b"convert 50001", b"convert 4294967296", b"convert -1", b"convert 1 2", b"Convert 75",
    b"converted 75", b"convert  75", b"convert 75 ", b"convert x", b"conver 75",
];

/// All decks that the texts are for.
pub fn decks() -> Vec<NamedDeck> {
    let named = |name: &str, deck| NamedDeck { name: name.to_string(), deck };
    let default = Rule { default_action: vec![assign(2, Number::Own(0))], ..copy(0, 1) };
    let others = [copy(1, 3), copy(2, 4), copy(3, 4)];
    let old_chain = deck_of(5, [&[default][..], &others].concat(), &[&[0, 1, 2, 3]]);
    let chain = deck_of(5, [&[copy(0, 2), copy(0, 1)][..], &others].concat(), &[&[0, 1, 2, 3, 4]]);
    let mut decks = vec![
        named("d", deck_d()),
        named("cut", deck_d()[..74].to_vec()),
        named("unknown-byte", deck_d_with(&[(69, 3)])),
        named("wrong-type", deck_d_with(&[(68, 17)])),
        named("wrong-end", deck_d_with(&[(66, 7)])[..74].to_vec()),
        named("cyclic", deck_d_with(&[(12, 0)])),
        named("chain", chain.encode().bytes),
        named("old-chain", old_chain.encode().bytes),
        named("e", deck_e()),
        named("e-unknown-byte", deck_e_with(10, 7)),
        named("e-longer", [&deck_e()[..], &[0]].concat()),
        named("rules-65", deck_of_33_rules(32)),
        named("rules-64", deck_of_33_rules(31)),
        named("limits", limits().encode().bytes),
    ];
    for (name, kind, seed) in GENERATED {
        decks.push(named(name, deck(kind, &mut Random::new(seed), Size::FULL)));
    }
    decks
}

/// Part 0 keeps a + b below 10, and part 1 c above c - 1, which clamps at the least number.
fn limits() -> Deck {
    let own = |channel| Number::Own(channel).into();
    let mut deck = deck_of(3, Vec::new(), &[&[], &[]]);
    let (sum, one_less) =
        (Number::Sum(own(0), own(1)), Number::Difference(own(2), Number::Literal(1).into()));
    deck.parts[0].limit = Truth::Less(sum.into(), Number::Literal(10).into());
    deck.parts[1].limit = Truth::Less(one_less.into(), own(2));
    deck
}

/// Generated decks; each has a generated text under the same name.
const GENERATED: [(&str, Kind, u64); 8] = [
    ("rich-1", Kind::Rich, 1),
    ("rich-2", Kind::Rich, 2),
    ("rich-3", Kind::Rich, 3),
    ("valid-1", Kind::Valid, 4),
    ("heavy-1", Kind::Heavy, 12),
    ("damaged-1", Kind::Damaged, 6),
    ("defaults-1", Kind::Defaults, 7),
    ("defaults-2", Kind::Defaults, 26),
];

fn by_hand() -> impl Iterator<Item = StoredText> {
    BY_HAND.into_iter().map(|(name, deck, lines)| with_answers(name, deck, lines))
}

/// What is said of the chain of rules holds of the old one that is converted to it.
fn converted() -> [StoredText; 2] {
    [("old-full-pool", FULL_POOL), ("old-settle", SETTLE)].map(|(name, lines)| {
        with_answers(name, "old-chain", &format!("convert 50000 => converted 91\n{lines}"))
    })
}

fn with_answers(name: &str, deck: &str, lines: &str) -> StoredText {
    let halves = || lines.lines().map(|line| line.split_once(" => ").unwrap_or((line, "")));
    let text: String = halves().map(|(call, _)| format!("{call}\n")).collect();
    let said = halves().map(|(_, answer)| answer).filter(|answer| !answer.is_empty());
    let answers = said.map(|answer| format!("{answer}\n")).collect();
    StoredText {
        name: name.to_string(),
        deck: deck.to_string(),
        text: text.into_bytes(),
        answers: Some(answers),
    }
}

/// Lines that can't be read, long lines, empty lines, and texts that end without a newline.
fn odd_texts() -> Vec<StoredText> {
    let text = |name: &str, text: Vec<u8>, answers: String| StoredText {
        name: name.to_string(),
        deck: "d".to_string(),
        text,
        answers: Some(answers),
    };
    let unreadable = [&b"start 20\ninput 0 0 4\n"[..], &UNREADABLE.join(&b'\n'), b"\nsettle 9"].concat();
    let said = format!("started\nadded 2\n{}settled 2\n", "unreadable\n".repeat(UNREADABLE.len()));
    // The first list is longer than what one read brings.
    let (zeros, ones, some) = ("0".repeat(500), " 1".repeat(40_000), " 1".repeat(200));
    let long = format!(
        "start {zeros}20\ninput {zeros}0 -{zeros} {zeros}4\ninput 0{ones}\ninput 2{some}\ninput 0{some} x\n{zeros}\n"
    );
    let long_said = "started\nadded 2\nrefused 12 0\nrefused 11 0\nunreadable\nunreadable\n";
    vec![
        text("unreadable", unreadable, said),
        text("long-lines", long.into_bytes(), long_said.to_string()),
        text("no-text", Vec::new(), String::new()),
        text(
            "empty-lines",
            b"\n\n\nstart 10\n\n\ninput 1 0 3\n\n".to_vec(),
            "started\nrefused 13 0\n".to_string(),
        ),
        text("no-newline", b"start 20\ncommit 0".to_vec(), "started\nrefused 14 0\n".to_string()),
        text(
            "refused-start",
            b"start 20\ninput 0 0 4\nstart 3\n".to_vec(),
            "started\nadded 2\nrefused 9 0\n".to_string(),
        ),
    ]
}

fn generated() -> impl Iterator<Item = StoredText> {
    GENERATED.into_iter().map(|(name, kind, seed)| {
        let deck = deck(kind, &mut Random::new(seed), Size::FULL);
        StoredText {
            name: name.to_string(),
            deck: name.to_string(),
            text: script(&mut Random::new(seed), &deck, 40).into_bytes(),
            answers: None,
        }
    })
}

/// All stored texts, in the order in which they are replayed.
pub fn texts() -> Vec<StoredText> {
    let cyclic = StoredText {
        name: "refused-cyclic".to_string(),
        deck: "cyclic".to_string(),
        text: b"start 10\nsection 0\n".to_vec(),
        answers: Some("refused 7 0\nrefused 7 0\n".to_string()),
    };
    by_hand().chain(converted()).chain(odd_texts()).chain([cyclic]).chain(generated()).collect()
}

/// What stands beside the two programs, by paths below the folder `crates`: `replay` goes through
/// one text, and `replay_files` through the decks and texts that its arguments name.
pub fn files() -> Vec<(String, Vec<u8>)> {
    let decks = decks();
    let deck_of = |name: &str| decks.iter().find(|deck| deck.name == name).map_or(&[][..], |deck| &deck.deck);
    let mut files = Vec::new();
    let (mut names, mut printed) = (String::new(), String::new());
    for text in texts() {
        let said = replay(deck_of(&text.deck), &text.text);
        if text.name == "p8" {
            files.push(("replay/args".to_string(), b"d.deck\n".to_vec()));
            files.push(("replay/data/d.deck".to_string(), deck_of(&text.deck).to_vec()));
            files.push(("replay/stdin".to_string(), text.text.clone()));
            files.push(("replay/stdout".to_string(), said.clone().into_bytes()));
        }
        names += &format!("{}.deck\n{}.calls\n", text.deck, text.name);
        printed += &format!("{}.calls\n{said}", text.name);
        files.push((format!("replay_files/data/{}.calls", text.name), text.text));
    }
    files.push(("replay_files/args".to_string(), names.into_bytes()));
    files.push(("replay_files/stdout".to_string(), printed.into_bytes()));
    let data = |deck: &NamedDeck| (format!("replay_files/data/{}.deck", deck.name), deck.deck.clone());
    files.extend(decks.iter().map(data));
    files
}
