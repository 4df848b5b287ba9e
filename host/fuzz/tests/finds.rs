//! A short run reaches everything, and finds engines that are wrong.

use bench::engines::{Archive, Engine};
use bench::plain;
use fuzz::{run, run_many, Difference};
use reaction::raw::{Memory, Returned};

#[test]
fn a_short_run_reaches_everything() {
    let engines: Vec<Box<dyn Engine>> = vec![Box::new(Archive), Box::new(plain::Engine::new())];
    let summary = run(engines, 20_000, 1).expect("no difference");
    assert_eq!(summary.missing(), Vec::<String>::new());
    assert!(summary.calls() >= 20_000);
}

/// All places are in use with the plain engine alone: the archive takes seconds for such a call.
#[test]
fn many_pending_updates() {
    run_many(vec![Box::new(Archive), Box::new(plain::Engine::new())], 1000, 1002, 1).expect("no difference");
    run_many(vec![Box::new(plain::Engine::new())], 65_535, 65_535, 1).expect("no difference");
}

#[test]
fn a_run_that_is_too_short_misses_something() {
    let summary = run(vec![Box::new(Archive)], 10, 1).expect("no difference");
    assert!(!summary.missing().is_empty());
}

/// What a wrong engine gets wrong.
#[derive(Clone, Copy, Debug)]
enum Fault {
    Number,
    Answer,
    Value,
    Pending,
    Pool,
    Stretch,
    Buffer,
}

/// The plain engine with one fault in what it hands back.
struct Wrong(plain::Engine, Fault);

impl Wrong {
    fn spoil(&self, returned: Returned, memory: &mut Memory) -> Returned {
        let mut returned = returned;
        match self.1 {
            Fault::Number => returned.number += 1,
            Fault::Answer => returned.answer[4] += 1,
            Fault::Value => memory.values[511] += 1,
            Fault::Pending => memory.pending += 1,
            Fault::Pool => memory.pool.iter_mut().last().into_iter().for_each(|number| *number += 1),
            Fault::Stretch | Fault::Buffer => {}
        }
        returned
    }
}

impl Engine for Wrong {
    fn name(&self) -> &'static str {
        "wrong"
    }

    fn check(&mut self, deck: &[u8]) -> Returned {
        Engine::check(&mut self.0, deck)
    }

    fn section<'d>(&mut self, deck: &'d [u8], number: u32) -> (Returned, &'d [u8]) {
        let (returned, stretch) = Engine::section(&mut self.0, deck, number);
        match self.1 {
            Fault::Stretch => (returned, &stretch[stretch.len().min(1)..]),
            _ => (returned, stretch),
        }
    }

    fn start(&mut self, deck: &[u8], memory: &mut Memory) -> Returned {
        Engine::start(&mut self.0, deck, memory)
    }

    fn input(&mut self, deck: &[u8], memory: &mut Memory, part: u32, pairs: &[i32]) -> Returned {
        Engine::input(&mut self.0, deck, memory, part, pairs)
    }

    fn commit(&mut self, deck: &[u8], memory: &mut Memory, place: u32) -> Returned {
        let returned = Engine::commit(&mut self.0, deck, memory, place);
        self.spoil(returned, memory)
    }

    fn settle(&mut self, deck: &[u8], memory: &mut Memory, budget: u32) -> Returned {
        Engine::settle(&mut self.0, deck, memory, budget)
    }

    fn convert(&mut self, deck: &[u8], buffer: &mut [u8]) -> Returned {
        let returned = Engine::convert(&mut self.0, deck, buffer);
        if let (Fault::Buffer, Some(last)) = (self.1, buffer.last_mut()) {
            *last ^= 1;
        }
        returned
    }
}

const FAULTS: [Fault; 7] =
    [Fault::Number, Fault::Answer, Fault::Value, Fault::Pending, Fault::Pool, Fault::Stretch, Fault::Buffer];

#[test]
fn each_fault_is_found() {
    for fault in FAULTS {
        let wrong = Wrong(plain::Engine::new(), fault);
        let Err(Difference(text)) = run(vec![Box::new(wrong)], 2000, 1) else {
            panic!("{fault:?} not found")
        };
        for said in ["seed 1, case ", "\ndeck ", "\nwrong: ", "\nreference: "] {
            assert!(text.contains(said), "{said:?} is missing in\n{text}");
        }
    }
}
