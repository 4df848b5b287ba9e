//! Has the kit prove generated cases of the definitions by computing them.
//!
//! `antt_cases REPOSITORY DIR SEED COUNT` copies the crates of the repository that have the
//! definitions to DIR, which must not exist yet, writes the cases as crates over them, and has those
//! checked. What the kit keeps of checks in the repository it takes over by itself. DIR must lie
//! outside of the repository, where no other crate's files may stand. Status 1: a case is not proved.

mod definitions;
mod render;

use definitions::{Definitions, Header};
use reference::cases::{generate, Case, Size};
use std::collections::BTreeMap;
use std::fs;
use std::io;
use std::path::{Path, PathBuf};
use std::process::{exit, Command};

/// How many cases a crate of cases has.
const CASES_OF_A_CRATE: usize = 125;

const USAGE: &str = "usage: antt_cases REPOSITORY DIR SEED COUNT";

struct Request {
    repository: PathBuf,
    scratch: PathBuf,
    seed: u64,
    count: usize,
}

impl Request {
    fn from_arguments() -> Option<Request> {
        let arguments: Vec<String> = std::env::args().skip(1).collect();
        let [repository, scratch, seed, count] = &arguments[..] else { return None };
        Some(Request {
            repository: repository.into(),
            scratch: scratch.into(),
            seed: seed.parse().ok()?,
            count: count.parse().ok()?,
        })
    }
}

fn main() {
    let Some(request) = Request::from_arguments() else {
        eprintln!("{USAGE}");
        exit(2);
    };
    match prove(&request) {
        Ok(true) => println!("{} cases proved", request.count),
        Ok(false) => {
            println!("not every case is proved");
            exit(1);
        }
        Err(error) => {
            eprintln!("antt_cases: {error}");
            exit(2);
        }
    }
}

fn prove(request: &Request) -> io::Result<bool> {
    let cases = generate(request.seed, request.count, &Size::SMALL);
    print_counts(&cases);
    let definitions = Definitions::read(&request.repository)?;
    let header = definitions.header(render::HEADER)?;
    let used = definitions.lines_of(&header.crates);
    fs::create_dir(&request.scratch)?;
    for name in used.keys() {
        copy_crate(&request.repository, &request.scratch, name)?;
    }
    let names = write_crates(&request.scratch, &header, &cases)?;
    let imported = Vec::from_iter(header.crates).join(" ");
    let lines = used.values().map(|line| line.to_string());
    let lines = lines.chain(names.iter().map(|name| format!("{name}: {imported}")));
    fs::write(request.scratch.join("crates.txt"), lines.collect::<Vec<_>>().join("\n") + "\n")?;
    for name in &names {
        if !is_proved(&request.scratch.join("crates").join(name))? {
            return Ok(false);
        }
    }
    Ok(true)
}

/// Has the kit check a crate of cases and, before it, those below. What it says is shown where it fails.
fn is_proved(folder: &Path) -> io::Result<bool> {
    let output = Command::new("rt").arg("check").current_dir(folder).output()?;
    let said = String::from_utf8_lossy(&output.stdout);
    let verdict = said.lines().rfind(|line| line.starts_with("logic=")).unwrap_or_default();
    let proved = output.status.success() && verdict.starts_with("logic=proved ");
    if !proved {
        print!("{said}{}", String::from_utf8_lossy(&output.stderr));
    }
    Ok(proved)
}

/// A crate's files, but for what the kit keeps of its checks.
fn copy_crate(repository: &Path, scratch: &Path, name: &str) -> io::Result<()> {
    let inside = Path::new("crates").join(name);
    let (from, to) = (repository.join(&inside), scratch.join(&inside));
    for part in ["src", "specs", "proofs"] {
        if from.join(part).exists() {
            copy(&from.join(part), &to.join(part))?;
        }
    }
    Ok(())
}

fn write_crates(scratch: &Path, header: &Header, cases: &[Case]) -> io::Result<Vec<String>> {
    let mut names = Vec::new();
    for (index, cases) in cases.chunks(CASES_OF_A_CRATE).enumerate() {
        let name = format!("cases{index}");
        let folder = scratch.join("crates").join(&name);
        fs::create_dir_all(folder.join("src"))?;
        fs::create_dir_all(folder.join("specs"))?;
        fs::write(folder.join("src/lib.rt"), "// Generated cases: see specs/.\n#![tactic(auto)]\n")?;
        fs::write(folder.join("specs/Lib.antt"), "pub mod Cases\n")?;
        let theorems = cases
            .iter()
            .enumerate()
            .map(|(at, case)| render::theorems(&format!("case-{}", index * CASES_OF_A_CRATE + at), case));
        fs::write(folder.join("specs/Cases.antt"), header.text.clone() + &theorems.collect::<String>())?;
        names.push(name);
    }
    Ok(names)
}

/// What kinds of cases there are, and how often each refusal occurs.
fn print_counts(cases: &[Case]) {
    let mut kinds = BTreeMap::new();
    let mut refusals = BTreeMap::new();
    for case in cases {
        *kinds.entry(kind(case)).or_insert(0) += 1;
        for refusal in case.refusals() {
            *refusals.entry(refusal.number).or_insert(0) += 1;
        }
    }
    println!("cases: {kinds:?}");
    println!("refusals: {refusals:?}");
}

fn kind(case: &Case) -> &'static str {
    match case {
        Case::Check { .. } => "check",
        Case::Section { .. } => "section",
        Case::Convert { .. } => "convert",
        Case::Start { .. } => "start",
        Case::Run { .. } => "list of calls",
        Case::Memory { .. } => "call on any memory",
    }
}

/// A file, or a folder with all that is in it.
fn copy(from: &Path, to: &Path) -> io::Result<()> {
    if from.is_dir() {
        fs::create_dir_all(to)?;
        return fs::read_dir(from)?.try_for_each(|entry| {
            let name = entry?.file_name();
            copy(&from.join(&name), &to.join(&name))
        });
    }
    to.parent().map_or(Ok(()), fs::create_dir_all)?;
    fs::copy(from, to).map(drop)
}
