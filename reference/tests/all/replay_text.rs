//! The text of calls: what can be read, what can't, and what is printed.

use crate::common::{deck_d, deck_e, deck_e_with};
use reference::engine::Call;
use reference::script::{parse, replay, replay_old, Line};

#[test]
fn lines_that_can_be_read() {
    let input = |part, pairs: &[i32]| Line::Call(Call::Input { part, pairs: pairs.to_vec() });
    let cases: &[(&str, Line)] = &[
        ("start 0", Line::Start { length: 0 }),
        ("start 700000", Line::Start { length: 700_000 }),
        ("input 4", input(4, &[])),
        ("input 4294967295 1", input(u32::MAX, &[1])),
        ("input 0 -2147483648 2147483647", input(0, &[i32::MIN, i32::MAX])),
        ("input 0 0 -0", input(0, &[0, 0])),
        ("commit 007", Line::Call(Call::Commit { place: 7 })),
        ("commit 00000000000000000001", Line::Call(Call::Commit { place: 1 })),
        ("settle 4294967295", Line::Call(Call::Settle { budget: u32::MAX })),
        ("section 9", Line::Section { number: 9 }),
        ("convert 0", Line::Convert { length: 0 }),
        ("convert 050000", Line::Convert { length: 50_000 }),
        ("value 511 -1", Line::Value { index: 511, value: -1 }),
        ("pool 9 8", Line::Pool { index: 9, value: 8 }),
        ("pending 3", Line::Pending { number: 3 }),
    ];
    for (text, line) in cases {
        assert_eq!(parse(text.as_bytes()).as_ref(), Some(line), "{text}");
    }
}

#[rustfmt::skip]
const UNREADABLE: &[&[u8]] = &[
    b" ", b"\r", b"start", b"start ", b"start 700001", b"start -1", b"start 1 2", b"Start 10",
    b"start  10", b" start 10", b"start 10 ", b"start 10\r", b"start\t10", b"start +10", b"start 0x10",
    b"start 1e1", b"input", b"input ", b"input -1", b"input 4294967296", b"input 0 2147483648",
    b"input 0 1 -2147483649", b"input 0 --1", b"input 0 -", b"input 0 1  2", b"input 0 1 2 ",
    b"input 0 +1", b"input 0 1-2", b"commit", b"commit -0", b"commit 0 0", b"commit 4294967296",
    b"commit x", b"settle", b"settle 1 1", b"section", b"section -1", b"section 0 1", b"value 1",
    b"value 1 2 3", b"value -1 2", b"pool 1", b"pool 1 2 3", b"pending", b"pending -1", b"pending 1 1",
    b"pending 4294967296", b"jump 1", b"check", b"input 0 \xff 1", b"\xc3\xa9", b"commit \xd9\xa1",
    b"commit 0\x00", b"convert", b"convert ", b"convert 50001", b"convert 4294967346", b"convert -1",
    b"convert 1 2", b"converted 1", b"conver 1",
];

#[test]
fn lines_that_can_not_be_read() {
    for line in UNREADABLE {
        assert_eq!(parse(line), None, "{}", String::from_utf8_lossy(line));
    }
}

#[test]
fn what_is_not_parsed_is_unreadable_and_changes_nothing() {
    let text = b"value 512 1\npool 0 1\n\njump\nstart 10\npool 10 1\npool 9 0\nstart 700001\n \ncommit 0";
    let expected = "unreadable\nunreadable\nunreadable\nstarted\nunreadable\nunreadable\nunreadable\nrefused 14 0\npending 0\n";
    assert_eq!(replay(&deck_d(), text), expected);
}

#[test]
fn the_last_line_needs_no_newline() {
    let deck = deck_d();
    assert_eq!(replay(&deck, b""), "pending 0\n");
    assert_eq!(replay(&deck, b"\n\n"), "pending 0\n");
    assert_eq!(replay(&deck, b"section 1"), "section 4 33\npending 0\n");
    assert_eq!(replay(&deck, b"section 1\n"), "section 4 33\npending 0\n");
}

#[test]
fn a_whole_text() {
    let text =
        b"commit 0\nstart 30\ninput 0 0 4\nsettle 1\ncommit 0\nsettle 0\ninput 0 0 5\nsettle 0\nsettle 9\n\
        input 0 0 9\nsettle 1\ncommit 0\ninput 1 0 -3\nsection 2\nsection 3\nvalue 2 -7\nsettle 65536\n";
    let expected = "refused 9 0\nstarted\nadded 2\nspent 1\napplied 0\nsettled 0\nadded 2\nspent 0\nsettled 2\n\
        added 2\nspent 1\ndiscarded 0\nadded 2\nsection 33 75\nrefused 15 0\nrefused 16 0\n\
        pending 1\nvalue 0 9\nvalue 2 -7\nvalue 32 -3\nvalue 33 9\nvalue 34 6\npool 1 1\npool 2 1\npool 3 -3\n";
    assert_eq!(replay(&deck_d(), text), expected);
}

#[test]
fn a_refused_start_leaves_zeros_and_the_pool_as_lent() {
    let text = b"start 20\ninput 0 0 4\nstart 3\n";
    assert_eq!(
        replay(&deck_d(), text),
        "started\nadded 2\nrefused 9 0\npending 0\npool 0 7\npool 1 7\npool 2 7\n"
    );
    let cut = &deck_d()[..74];
    assert_eq!(
        replay(cut, b"start 10\nsection 0\nsettle 0\n").lines().take(4).collect::<Vec<_>>(),
        ["refused 1 74", "refused 1 74", "refused 1 74", "pending 0"]
    );
}

#[test]
fn a_deck_is_converted_under_state_and_pool_as_they_are() {
    let text = b"convert 72\nstart 30\nconvert 73\nstart 30\ninput 0 0 4\nconvert 80\nsettle 1\n";
    let memory = "pending 2\nvalue 0 4\nvalue 1 4\n\
        pool 0 1\npool 1 1\npool 2 2\npool 3 4\npool 11 1\npool 12 2\npool 13 4\n";
    let said = "refused 22 0\nrefused 20 7\nconverted 73\nstarted\nadded 3\nconverted 73\nspent 1\n";
    assert_eq!(replay(&deck_e(), text), format!("{said}{memory}"));
    assert_eq!(
        replay(&deck_e_with(10, 7), b"convert 73\nsettle 0\n"),
        "refused 3 10\nrefused 20 7\npending 0\n"
    );
    // The old deck itself, where the calls take old decks.
    let said = "started\nadded 3\nspent 1\n";
    assert_eq!(replay_old(&deck_e(), b"start 30\ninput 0 0 4\nsettle 1\n"), format!("{said}{memory}"));
}

#[test]
fn what_a_line_prints_is_what_is_read() {
    for text in [
        "start 30",
        "input 0 1 -2 3",
        "input 5",
        "commit 8",
        "settle 9",
        "section 2",
        "convert 73",
        "value 3 -4",
        "pool 5 6",
        "pending 7",
    ] {
        assert_eq!(parse(text.as_bytes()).unwrap().to_string(), text);
    }
}
