//! `fuzz CALLS SEED [plain]`: makes so many generated calls through the archive, through `reference/` and,
//! with the word `plain`, through the benchmark's plain engine, and compares them. Ends with 1 on a
//! difference, or if an answer or a refusal never came: 20,000 calls are enough for all.
#![warn(clippy::all)]

use bench::engines::{Archive, Engine};
use bench::plain;
use fuzz::{run, Difference};
use std::env;
use std::process::ExitCode;

fn main() -> ExitCode {
    let arguments: Vec<String> = env::args().skip(1).collect();
    let words: Vec<&str> = arguments.iter().map(String::as_str).collect();
    let mut engines: Vec<Box<dyn Engine>> = vec![Box::new(Archive)];
    let (calls, seed) = match words[..] {
        [calls, seed] => (calls, seed),
        [calls, seed, "plain"] => {
            engines.push(Box::new(plain::Engine::new()));
            (calls, seed)
        }
        _ => return usage(),
    };
    let (Ok(calls), Ok(seed)) = (calls.parse(), seed.parse()) else { return usage() };
    match run(engines, calls, seed) {
        Ok(summary) => {
            println!("{summary}, 0 differences");
            let missing = summary.missing();
            if missing.is_empty() {
                return ExitCode::SUCCESS;
            }
            println!("never came: {}", missing.join(", "));
        }
        Err(Difference(text)) => println!("{text}1 difference"),
    }
    ExitCode::FAILURE
}

fn usage() -> ExitCode {
    eprintln!("usage: fuzz CALLS SEED [plain]");
    ExitCode::from(2)
}
