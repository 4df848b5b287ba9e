//! Scripts of calls for `replay`.

use super::calls::{any, bad_length, buffer_length, damage, hand_written, restored, Known};
use crate::deck::Form;
use crate::engine::{Answer, Call};
use crate::random::Random;
use crate::refusal::DEFAULT_ACTION;
use crate::script::{Host, Line};

/// Lines that are none of those that `replay` knows.
const UNREADABLE: [&str; 15] = [
    "commit",
    "commit -1",
    "commit 4294967296",
    "commit 0 0",
    "settle x",
    "input",
    "input 0 1 2147483648",
    "value 512 1",
    "start 700001",
    "start",
    "jump 3",
    "pending 1 ",
    "convert",
    "convert 50001",
    "convert 73 0",
];

/// Writes lines and goes through them, so that later ones fit what is in memory.
struct Writer<'a> {
    random: &'a mut Random,
    known: Known,
    /// The largest charge of a rule, or 0 for a deck that doesn't pass.
    charge: usize,
    host: Host<'a>,
    text: String,
}

/// A text of about so many calls for a deck. One with default actions is mostly converted first.
pub fn script(random: &mut Random, deck: &[u8], calls: usize) -> String {
    let mut writer = Writer::new(random, deck, Host::new(deck));
    if writer.random.chance(10) {
        writer.call();
    }
    let retired = crate::check(deck).is_err_and(|refusal| refusal.number == DEFAULT_ACTION);
    let conversions = if retired { writer.random.below(4) } else { 0 };
    for _ in 0..conversions {
        writer.convert();
    }
    writer.write(calls)
}

/// A text of about so many calls on an old deck, and none that shows its bytes.
pub fn old_script(random: &mut Random, deck: &[u8], calls: usize) -> String {
    Writer::new(random, deck, Host::old(deck)).write(calls)
}

impl<'a> Writer<'a> {
    fn new(random: &'a mut Random, deck: &[u8], host: Host<'a>) -> Writer<'a> {
        let mut writer = Writer { random, known: Known::of(deck), charge: 0, host, text: String::new() };
        writer.see_charge();
        writer
    }

    fn write(mut self, calls: usize) -> String {
        self.start();
        for _ in 0..calls {
            self.step();
        }
        self.text
    }

    fn see_charge(&mut self) {
        let passed = self.host.form.check(&self.host.deck);
        self.charge = passed.map_or(0, |passed| passed.charge as usize);
    }

    fn line(&mut self, line: Line) {
        self.host.perform(&line);
        self.text.push_str(&line.to_string());
        self.text.push('\n');
    }

    fn step(&mut self) {
        match self.random.below(100) {
            0..=3 => self.start(),
            4..=7 => self.damage(),
            8..=11 => self.hand_write(),
            // Sections and conversions show a deck's bytes.
            12..=14 | 17 | 18 if self.host.form == Form::Old => self.call(),
            12..=14 => {
                let number = self.random.pick(&[0, 1, 2, 3, 4, u32::MAX]);
                self.line(Line::Section { number });
            }
            15 => {
                let text = self.random.pick(&UNREADABLE);
                self.text.push_str(text);
                self.text.push('\n');
            }
            16 => self.text.push('\n'),
            17 | 18 => self.convert(),
            _ => self.call(),
        }
    }

    /// A pool that is tight, roomy, as large as can be, or of a bad length.
    fn start(&mut self) {
        let small = self.random.between(1, 4);
        let roomy = self.random.between(10, (8 * self.charge).clamp(20, 65_535));
        let places = match self.random.below(40) {
            0 if self.charge > 0 => 65_535,
            1..=4 => return self.bad_start(),
            5..=7 => small,
            8..=13 => self.charge.clamp(1, 65_535),
            14..=16 => self.random.between(1, self.charge.max(2)),
            _ => roomy,
        };
        self.line(Line::Start { length: 10 * places as u32 });
    }

    /// A start that is refused; mostly another follows.
    fn bad_start(&mut self) {
        let length = bad_length(self.random);
        self.line(Line::Start { length });
        if self.random.chance(80) {
            self.start();
        } else {
            self.call();
        }
    }

    fn convert(&mut self) {
        let length = buffer_length(self.random, &self.host.deck);
        self.line(Line::Convert { length });
        self.see_charge();
    }

    fn call(&mut self) {
        let call = any(self.random, &self.known, &self.host);
        self.line(Line::Call(call));
    }

    /// Damages memory, calls, and mostly repairs it.
    fn damage(&mut self) {
        let line = damage(self.random, &self.known, &self.host);
        let Some(repair) = restored(&line, &self.host) else { return };
        self.line(line);
        self.call();
        if self.random.chance(80) {
            self.line(repair);
        } else {
            self.call();
            self.start();
        }
    }

    /// Writes updates by hand, calls, and starts again where that made the state a bad one.
    fn hand_write(&mut self) {
        for _ in 0..self.random.between(1, 3) {
            for line in hand_written(self.random, &self.known, &self.host) {
                self.line(line);
            }
        }
        self.call();
        if self.random.chance(60) && self.refuses() {
            self.start();
        }
    }

    /// Whether memory is now such that a settle of nothing is refused.
    fn refuses(&self) -> bool {
        let answer = self.host.clone().call(&Call::Settle { budget: 0 });
        matches!(answer, Answer::Refused(_))
    }
}

/// A deck with a text that fills all 65,535 places by hand, and then calls: inputs that find no
/// room, one of them outside its limit too, commits anywhere, settles, and damage deep in the pool.
/// Channels 2 of deck D start no rule.
pub fn full(random: &mut Random) -> (Vec<u8>, String) {
    let places = 65_535;
    let mut text = format!("start {}\n", 10 * places);
    for place in 0..places {
        let (part, value) = (random.below(2), if place % 2 == 0 { place as i32 } else { -(place as i32) });
        for (offset, number) in [part as i32, 1, 2, value].into_iter().enumerate().filter(|&(_, n)| n != 0) {
            text += &format!("pool {} {number}\n", 10 * place + offset);
        }
    }
    text += &format!("pending {places}\n");
    let number = 10 * random.below(places) + random.below(10);
    let place = random.below(places);
    for line in [
        "input 0 0 4".to_string(),
        format!("commit {place}"),
        format!("commit {}", places - 2),
        "input 1 0 5 2 10".to_string(),
        "input 1 0 5".to_string(),
        format!("settle {}", random.below(20)),
        format!("pool {number} {}", random.pick(&[-1, 0, 1, 2, 3, 7])),
        "settle 1".to_string(),
        format!("pending {}", random.pick(&[0, 1, 65_535, 65_536])),
        "settle 1".to_string(),
    ] {
        text += &line;
        text.push('\n');
    }
    (crate::stored::deck_d(), text)
}
