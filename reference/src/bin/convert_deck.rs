//! Reads an old deck from standard input and writes the new deck's bytes to standard output. Where it
//! is refused, nothing goes there, and `refused NUMBER PLACE` to standard error.

use reference::conversion::convert_whole;
use reference::deck::Deck;
use std::io::{self, Read, Write};

fn main() -> io::Result<()> {
    // One byte more than the longest deck that can pass already shows the fault.
    let mut deck = Vec::new();
    io::stdin().take(Deck::OLD_BYTES as u64 + 1).read_to_end(&mut deck)?;
    match convert_whole(&deck) {
        Ok(new) => io::stdout().write_all(&new),
        Err(refusal) => writeln!(io::stderr(), "{refusal}"),
    }
}
