//! A leg that walks: the knee bends step by step, and what follows is committed, the newest update first.
//!
//!     walk DECK        DECK: the bytes of the deck examples/leg/leg.txt

use reaction::{Deck, Refusal, Rig};
use std::process::ExitCode;
use std::{env, fs};

/// Parts of the left leg.
const KNEE: u32 = 1;
const ANKLE: u32 = 2;
const THIGH: u32 = 3;
const CALF: u32 = 4;

/// Channels.
const BEND: u32 = 2;
const TILT: u32 = 3;
const BULGE: u32 = 4;

/// Enters a bend of a part and commits until nothing is pending.
fn bend(rig: &mut Rig, part: u32, degrees: i32) -> Result<(), Refusal> {
    rig.input(part, &[(BEND, degrees)])?;
    let (mut applied, mut discarded) = (0, 0);
    while let Some(last) = rig.pending().checked_sub(1) {
        match rig.commit(last)?.applied {
            true => applied += 1,
            // The part's limit would have failed.
            false => discarded += 1,
        }
    }
    let value = |part, channel| rig.value(part, channel).unwrap_or(0);
    let (thigh, calf, ankle) = (value(THIGH, BULGE), value(CALF, BULGE), value(ANKLE, TILT));
    print!("bend {degrees}: {applied} applied, {discarded} discarded; ");
    println!("thigh bulges {thigh}, calf {calf}; ankle tilts {ankle}");
    Ok(())
}

fn walk(bytes: Vec<u8>) -> Result<(), Refusal> {
    let deck = Deck::check(bytes)?;
    println!("{} channels, {} rules, {} parts", deck.channels(), deck.rules(), deck.parts());
    let mut rig = Rig::start(deck, 40)?;
    for degrees in [10, 35, 55] {
        bend(&mut rig, KNEE, degrees)?;
    }
    // The deck has no part 99.
    if let Err(Refusal { number, place }) = bend(&mut rig, 99, 10) {
        println!("input: refused {number} {place}");
    }
    Ok(())
}

fn main() -> ExitCode {
    let Some(Ok(bytes)) = env::args_os().nth(1).map(fs::read) else {
        eprintln!("usage: walk DECK");
        return ExitCode::from(2);
    };
    match walk(bytes) {
        Ok(()) => ExitCode::SUCCESS,
        Err(refusal) => {
            println!("{refusal}");
            ExitCode::FAILURE
        }
    }
}
