//! `stored_decks CRATES`: writes the stored decks and texts of calls, and what the proved programs
//! must print for them, beside those programs, in the folder `crates` of the repository.
//!
//! `stored_decks converter` prints a line for each stored deck with what the converter answers:
//! `NAME.deck converted LENGTH` or `NAME.deck refused NUMBER PLACE`.

use reference::{stored, stored_replays};
use std::io::Write;
use std::path::Path;
use std::process::ExitCode;
use std::{env, fs, io};

fn main() -> ExitCode {
    let arguments: Vec<_> = env::args_os().skip(1).collect();
    let [crates] = &arguments[..] else {
        eprintln!("usage: stored_decks CRATES|converter");
        return ExitCode::from(2);
    };
    let done = match crates.to_str() {
        Some("converter") => io::stdout().write_all(stored::converter_lines().as_bytes()),
        _ => write_all(Path::new(crates)),
    };
    match done {
        Ok(()) => ExitCode::SUCCESS,
        Err(error) => {
            eprintln!("stored_decks: {error}");
            ExitCode::FAILURE
        }
    }
}

fn write_all(crates: &Path) -> io::Result<()> {
    for program in ["check_files", "replay", "replay_files"] {
        fs::create_dir_all(crates.join(program).join("data"))?;
    }
    let files = stored::files().into_iter().chain(stored_replays::files());
    files.into_iter().try_for_each(|(path, content)| fs::write(crates.join(path), content))
}
