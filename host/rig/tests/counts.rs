//! Counts and charges beyond their range, each told at its line.

use rig::loading::Loaded;

/// What `rig check` prints of a text.
fn printed(text: &str) -> String {
    let checked =
        Loaded::of_text("rig.txt", text.to_string()).and_then(|loaded| loaded.checked().map(|_| ()));
    checked.map_or_else(|stop| stop.message().to_string(), |()| "passed".to_string())
}

/// So many lines, each made from its number.
fn lines(count: usize, line: impl Fn(usize) -> String) -> String {
    (0..count).map(|number| line(number) + "\n").collect()
}

#[test]
fn channels_rules_and_parts_are_counted() {
    let channels = |count| lines(count, |number| format!("channel a c{number}"));
    let rules = |count| lines(count, |number| format!("rule r{number}\nwhen c0"));
    let parts = |count| lines(count, |number| format!("part p{number}"));
    assert_eq!(printed(&(channels(32) + &rules(64) + &parts(16))), "passed");
    let first = |text: String| printed(&text).lines().next().map(String::from).unwrap_or_default();
    assert_eq!(first(channels(33) + &parts(1)), "rig.txt:33:1: There are more than 32 channels.");
    assert_eq!(first(channels(1) + &rules(65) + &parts(1)), "rig.txt:130:1: There are more than 64 rules.");
    assert_eq!(first(channels(1) + &parts(17)), "rig.txt:18:1: There are more than 16 parts.");
    assert_eq!(first(parts(1)), "rig.txt:1:1: The text has no channel: a deck has 1 to 32.");
    assert_eq!(first(String::new()), "rig.txt:1:1: The text has no channel: a deck has 1 to 32.");
}

#[test]
fn events_and_bytes_are_counted() {
    let channels = lines(9, |number| format!("channel a c{number}"));
    let rule =
        |events: &str, value: &str| format!("{channels}rule r\nwhen {events}\nset c8 = {value}\npart p\n");
    assert_eq!(printed(&rule("c0 c1 c2 c3 c4 c5 c6 c7", "0")), "passed");
    let message = printed(&rule("c0 c1 c2 c3 c4 c5 c6 c7 c8", "0"));
    assert!(message.starts_with("rig.txt:11:30: A rule has 1 to 8 events, and here are 9."), "{message}");
    // 64 bytes are allowed: ten sums of two bytes and a channel each, and 31 more.
    let long = |negations: usize| "neg ".repeat(negations) + "c0";
    assert_eq!(printed(&rule("c0", &long(62))), "passed");
    let message = printed(&rule("c0", &long(63)));
    assert!(message.contains("with `c0` it has more than 64 bytes"), "{message}");
}

/// Rules in a chain, each going to all other parts.
fn cascade(rules: usize) -> String {
    let carried: Vec<String> = (0..rules).map(|number| format!("r{number}")).collect();
    lines(rules + 1, |number| format!("channel a c{number}"))
        + &lines(rules, |number| {
            format!("rule r{number}\nwhen c{number}\neverywhere\nset c{} = c{number}", number + 1)
        })
        + &lines(16, |number| format!("part p{number}\ncarries {}", carried.join(" ")))
}

#[test]
fn a_charge_is_told_by_its_chain() {
    assert_eq!(printed(&cascade(4)), "passed");
    assert_eq!(
        printed(&cascade(5)),
        "rig.txt:7:6: The charge of rule r0 at part p0 is 813,615, above 65,535: so many commits could follow when it fires.\n\
         \x20   rule r0\n\
         \x20        ^^\n\
         \x20   rule r0 at part p0: charge 813,615, 15 updates, the costliest of 54,241 at part p1\n\
         \x20   rule r1 at part p1: charge 54,240, 15 updates, the costliest of 3,616 at part p0\n\
         \x20   rule r2 at part p0: charge 3,615, 15 updates, the costliest of 241 at part p1\n\
         \x20   rule r3 at part p1: charge 240, 15 updates, the costliest of 16 at part p0\n\
         \x20   rule r4 at part p0: charge 15, 15 updates, the costliest of 1 at part p1"
    );
}
