//! `rig`: the riggers' program. Decks as text, refusals in words, graphs, runs and orders, all on the proved archive.

fn main() -> std::process::ExitCode {
    rig::command::main()
}
