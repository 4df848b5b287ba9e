//! The same inputs under many orders.

use rig::calls::calls;
use rig::loading::Loaded;
use rig::order::Order;
use rig::orders::{attempt, attempts, report};
use rig::run::{run, Script};

/// Two senders of one channel: who is committed last decides.
const TUG: &str = "\
channel s side
channel p pull
channel k knot

rule tug
  when pull
  everywhere
  if = far.side 0
  set knot = pull

part rope
part left
  open side 1
  carries tug
part right
  open side 2
  carries tug
";

fn script(text: &str, lines: &str) -> Script {
    let loaded = Loaded::of_text("rig.txt", text.to_string()).expect("a text");
    let (deck, readable) =
        (loaded.checked().expect("a deck that passes"), loaded.readable().expect("a deck"));
    let lines = calls(lines, &readable.names).expect("calls");
    Script { deck, readable, lines }
}

#[test]
fn a_difference_is_told_with_two_orders() {
    let script = script(TUG, "start 100\ninput left pull 3\ninput right pull 5\ninput rope side 7\nsettle\n");
    let tries = attempts(&script, 20);
    assert!(tries.iter().all(|tried| tried.settled && tried.commits == 2 && tried.added == 2));
    let told = report(&script, &tries);
    assert!(told.starts_with("20 orders, 20 of them settled.\nThe most commits were 2"), "{told}");
    assert!(told.contains("the bound by charge is 2.\n"), "{told}");
    assert!(told.contains("  rope.knot: 5 in order oldest, 3 in order newest\n"), "{told}");
    assert!(told.contains("part at commit 1:\n  oldest: rope knot = 3\n  newest: rope knot = 5\n"), "{told}");
}

#[test]
fn a_run_shows_what_an_order_did() {
    let script = script(TUG, "start 100\ninput left pull 3\ninput right pull 5\nsettle\n");
    for seed in ["oldest", "newest", "1", "2", "3", "4"] {
        let tried = attempt(&script, seed);
        let ran = run(&script, Order::named(seed), true);
        let knot = tried.values[2];
        assert!(ran.answers.contains(&format!("  rope knot {knot}\n")), "{}", ran.answers);
    }
}

#[test]
fn the_same_values_are_told_too() {
    let face = include_str!("../../../examples/face/face.txt");
    let calls = include_str!("../../../examples/face/face.calls");
    let script = script(face, calls);
    let tries = attempts(&script, 50);
    assert!(
        report(&script, &tries).ends_with("All orders left the same values.\n"),
        "{}",
        report(&script, &tries)
    );
    assert!(tries.iter().all(|tried| tried.commits <= tried.added));
}

#[test]
fn commit_lines_are_left_out_where_an_order_is_asked_for() {
    let script = script(TUG, "start 100\ninput left pull 3\ncommit 0\ncommit 5\nsettle\n");
    let tries = attempts(&script, 3);
    assert!(tries.iter().all(|tried| tried.refused.is_empty()));
    assert!(report(&script, &tries).contains("2 `commit` lines were left out: the orders decide.\n"));
}
