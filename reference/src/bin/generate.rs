//! `generate decks|old|scripts KIND COUNT SEED DIR`: writes generated decks, old decks, or decks with
//! scripts, into a folder, and beside them what the programs print for them.

use reference::conversion::convert_whole;
use reference::engine::check_line;
use reference::generate::{deck, old_deck, scripts::script, Kind, Size};
use reference::random::Random;
use reference::script::replay;
use std::path::Path;
use std::process::ExitCode;
use std::{env, fs, io};

#[derive(Clone, Copy)]
enum What {
    Decks,
    Old,
    Scripts,
}

struct Wanted {
    what: What,
    name: String,
    kind: Kind,
    count: usize,
    seed: u64,
    folder: String,
}

fn wanted() -> Option<Wanted> {
    let arguments: Vec<String> = env::args().skip(1).collect();
    let [what, name, count, seed, folder] = <[String; 5]>::try_from(arguments).ok()?;
    Some(Wanted {
        what: match what.as_str() {
            "decks" => What::Decks,
            "old" => What::Old,
            "scripts" => What::Scripts,
            _ => return None,
        },
        kind: Kind::named(&name)?,
        name,
        count: count.parse().ok()?,
        seed: seed.parse().ok()?,
        folder,
    })
}

fn main() -> ExitCode {
    let Some(wanted) = wanted() else {
        let kinds: Vec<&str> = Kind::ALL.iter().map(|&(name, _)| name).collect();
        eprintln!("usage: generate decks|old|scripts KIND COUNT SEED DIR\nkinds: {}", kinds.join(" "));
        return ExitCode::from(2);
    };
    match write_all(&wanted) {
        Ok(()) => ExitCode::SUCCESS,
        Err(error) => {
            eprintln!("generate: {error}");
            ExitCode::FAILURE
        }
    }
}

fn write_all(wanted: &Wanted) -> io::Result<()> {
    fs::create_dir_all(&wanted.folder)?;
    let mut random = Random::new(wanted.seed);
    for number in 1..=wanted.count {
        let path = Path::new(&wanted.folder).join(format!("{}-{number:05}", wanted.name));
        write_one(wanted, &mut random, &path)?;
    }
    Ok(())
}

fn write_one(wanted: &Wanted, random: &mut Random, path: &Path) -> io::Result<()> {
    let deck = match wanted.what {
        What::Old => old_deck(wanted.kind, random, Size::FULL),
        What::Decks | What::Scripts => deck(wanted.kind, random, Size::FULL),
    };
    fs::write(path.with_extension("deck"), &deck)?;
    match wanted.what {
        What::Decks => fs::write(path.with_extension("line"), check_line(&deck) + "\n"),
        What::Old => match convert_whole(&deck) {
            Ok(new) => fs::write(path.with_extension("new"), new),
            Err(refusal) => fs::write(path.with_extension("line"), format!("{refusal}\n")),
        },
        What::Scripts => {
            let calls = random.between(5, 60);
            let text = script(random, &deck, calls);
            fs::write(path.with_extension("calls"), &text)?;
            fs::write(path.with_extension("out"), replay(&deck, text.as_bytes()))
        }
    }
}
