//! Reads a deck from standard input and prints one line.

use reference::deck::Deck;
use std::io::{self, Read, Write};

fn main() -> io::Result<()> {
    // One byte more than the longest deck that can pass already shows the fault.
    let mut deck = Vec::new();
    io::stdin().take(Deck::BYTES as u64 + 1).read_to_end(&mut deck)?;
    writeln!(io::stdout(), "{}", reference::engine::check_line(&deck))
}
