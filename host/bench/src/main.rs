//! `bench [GROUP]`: how long the calls take by the archive, the plain engine and the reference, as Markdown
//! tables. GROUP: only groups whose name has this text in it. `scripts/bench_host` builds and runs it.
#![warn(clippy::all)]

use bench::cases::{groups, Group};
use bench::engines::{Archive, Reference};
use bench::measure::{measure, Measured};
use bench::plain;
use std::env;
use std::process::ExitCode;

fn main() -> ExitCode {
    let wanted = env::args().nth(1).unwrap_or_default();
    let mut engines = [
        Measured::new(Box::new(Archive)),
        Measured::new(Box::new(plain::Engine::new())),
        Measured::new(Box::new(Reference)),
    ];
    for group in groups().iter().filter(|group| group.name.contains(&wanted)) {
        if let Err(difference) = print(group, &mut engines) {
            eprintln!("bench: {difference}");
            return ExitCode::FAILURE;
        }
    }
    ExitCode::SUCCESS
}

/// Measures a group and prints its table.
fn print(group: &Group, engines: &mut [Measured; 3]) -> Result<(), String> {
    let [archive, plain, reference] = engines.each_ref().map(|measured| measured.engine.name());
    println!("### {}\n", group.name);
    print!("| | {archive} | {plain} | {reference} | {archive}/{plain} | {archive}/{reference} ");
    println!("| {archive}, for each {} |", group.unit);
    println!("|---|{}", "---:|".repeat(6));
    for case in &group.cases {
        let times = measure(case, engines)?;
        let cells: Vec<String> = times.iter().map(|&time| duration(time)).collect();
        let (one, two) = (times[0] / times[1], times[0] / times[2]);
        let each = duration(times[0] / case.size as f64);
        println!("| {} | {} | {one:.2} | {two:.2} | {each} |", case.name, cells.join(" | "));
    }
    println!();
    Ok(())
}

/// Three digits and a unit.
fn duration(seconds: f64) -> String {
    let (value, unit) = match seconds {
        s if s < 1e-6 => (s * 1e9, "ns"),
        s if s < 1e-3 => (s * 1e6, "µs"),
        s if s < 1.0 => (s * 1e3, "ms"),
        s => (s, "s"),
    };
    let digits = if value < 10.0 { 2 } else { usize::from(value < 100.0) };
    format!("{value:.digits$} {unit}")
}
