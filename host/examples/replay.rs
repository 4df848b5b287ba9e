//! A host that is driven by a text of calls, one a line, as the program `replay` is; it prints an answer for each and what is
//! left in memory. Of the lines it knows `start LENGTH`, `input PART CHANNEL VALUE ..`, `commit PLACE` and `settle BUDGET`.
//!
//!     replay DECK < CALLS
//!     replay                   prints which archive it is linked with

use reaction::raw::Memory;
use reaction::Refusal;
use std::process::ExitCode;
use std::{env, fs, io};

/// Makes the call of a line. None where the line is not one of the four.
fn call(deck: &[u8], memory: &mut Memory, line: &str) -> Option<Result<String, Refusal>> {
    let mut words = line.split(' ');
    let (word, number) = (words.next()?, words.next()?.parse().ok()?);
    let pairs: Vec<i32> = words.map(|word| word.parse().ok()).collect::<Option<_>>()?;
    Some(match (word, pairs.len()) {
        ("start", 0) => {
            // The length counts numbers, ten for each place of the pool.
            *memory = Memory::new(number as usize);
            memory.start(deck).result().map(|_| "started".into())
        }
        ("input", _) => {
            memory.input(deck, number, &pairs).result().map(|[charge, ..]| format!("added {charge}"))
        }
        ("commit", 0) => memory.commit(deck, number).result().map(|[applied, charge, ..]| match applied {
            1 => format!("applied {charge}"),
            // The part's limit would have failed.
            _ => format!("discarded {charge}"),
        }),
        ("settle", 0) => memory.settle(deck, number).result().map(|[commits, settled, ..]| match settled {
            1 => format!("settled {commits}"),
            _ => format!("spent {commits}"),
        }),
        _ => return None,
    })
}

/// Goes through the lines of standard input.
fn replay(deck: &[u8]) -> io::Result<()> {
    let mut memory = Memory::new(0);
    for line in io::stdin().lines() {
        let line = line?;
        if line.is_empty() {
            continue;
        }
        match call(deck, &mut memory, &line) {
            Some(Ok(answer)) => println!("{answer}"),
            Some(Err(Refusal { number, place })) => println!("refused {number} {place}"),
            None => return Err(io::Error::other(format!("not a line of a call: {line}"))),
        }
    }
    println!("pending {}", memory.pending);
    for (name, numbers) in [("value", &memory.values[..]), ("pool", &memory.pool[..])] {
        for (index, number) in numbers.iter().enumerate().filter(|(_, &number)| number != 0) {
            println!("{name} {index} {number}");
        }
    }
    Ok(())
}

fn main() -> ExitCode {
    let Some(file) = env::args_os().nth(1) else {
        println!("{}", reaction::ARCHIVE);
        return ExitCode::SUCCESS;
    };
    match fs::read(file).and_then(|deck| replay(&deck)) {
        Ok(()) => ExitCode::SUCCESS,
        Err(error) => {
            eprintln!("replay: {error}");
            ExitCode::FAILURE
        }
    }
}
