//! The pictures in `docs/pictures` are what the commands beside them make. Graphviz draws a graph from its text, which is kept too.

use rig::calls::calls;
use rig::graph::dot;
use rig::loading::Loaded;
use rig::plot::plot;
use rig::run::{run, Script};
use std::fs;
use std::path::PathBuf;

fn file(name: &str) -> String {
    let path = PathBuf::from(env!("CARGO_MANIFEST_DIR")).join("../..").join(name);
    fs::read_to_string(&path).unwrap_or_else(|error| panic!("{}: {error}", path.display()))
}

fn loaded(name: &str) -> Loaded {
    Loaded::of_text(name, file(name)).expect("a text")
}

#[test]
fn the_graphs_are_those_of_the_texts() {
    for name in ["leg", "face"] {
        let readable = loaded(&format!("examples/{name}/{name}.txt")).readable().expect("a deck");
        assert_eq!(dot(&readable, name), file(&format!("docs/pictures/{name}-graph.dot")), "{name}");
        // The picture was drawn of this graph: it has every channel and rule.
        let picture = file(&format!("docs/pictures/{name}-graph.svg"));
        for channel in &readable.names.channels {
            assert!(picture.contains(&format!(">{channel}<")), "{name}: {channel}");
        }
    }
}

#[test]
fn the_plot_is_that_of_the_walk() {
    let loaded = loaded("examples/leg/leg.txt");
    let (deck, readable) =
        (loaded.checked().expect("a deck that passes"), loaded.readable().expect("a deck"));
    let lines = calls(&file("examples/leg/walk-oldest-first.calls"), &readable.names).expect("calls");
    let ran = run(&Script { deck, readable, lines }, None, false);
    assert_eq!(plot(&ran.frames), file("docs/pictures/leg-walk.svg"));
}
