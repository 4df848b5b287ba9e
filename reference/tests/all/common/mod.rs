//! What several tests share.

pub mod model;

use model::holds;
use reference::deck::{Deck, Form};
use reference::expression::Truth;
use reference::generate::calls::Known;
use reference::generate::{deck, old_deck, Kind, Size};
use reference::random::Random;
use reference::script::Host;
pub use reference::stored::{
    assign, copy, deck_d, deck_d_with, deck_e, deck_e_converted, deck_e_with, deck_of, deck_of_33_rules,
    deck_with_condition,
};

/// A host after an accepted start with so many places.
pub fn fresh(deck: &[u8], places: usize) -> Host<'_> {
    started(Host::new(deck), places)
}

/// A host that takes old decks, after such a start.
pub fn fresh_old(deck: &[u8], places: usize) -> Host<'_> {
    started(Host::old(deck), places)
}

fn started(mut host: Host, places: usize) -> Host {
    assert_eq!(host.start(10 * places), Ok(()));
    host
}

/// Places for a deck whose largest charge is this: mostly enough for some inputs, now and then too few.
fn places(random: &mut Random, charge: u32) -> usize {
    let charge = charge as usize;
    let least = if random.chance(20) { 1 } else { charge.max(1) };
    random.between(least, (6 * charge).clamp(2, 65_535))
}

/// What a list of generated calls needs: a deck that passes, read and known, and a number of places.
pub struct Setup {
    pub form: Form,
    pub bytes: Vec<u8>,
    pub deck: Deck,
    pub known: Known,
    pub places: usize,
}

impl Setup {
    pub fn new(random: &mut Random, kinds: &[Kind], size: Size, most_places: usize) -> Setup {
        let kind = random.pick(kinds);
        let bytes = deck(kind, random, size);
        Setup::of(Form::New, random, bytes, most_places)
    }

    /// Of an old deck.
    pub fn old(random: &mut Random, kinds: &[Kind], size: Size, most_places: usize) -> Setup {
        let kind = random.pick(kinds);
        let bytes = old_deck(kind, random, size);
        Setup::of(Form::Old, random, bytes, most_places)
    }

    pub fn of(form: Form, random: &mut Random, bytes: Vec<u8>, most_places: usize) -> Setup {
        let (deck, _) = form.read(&bytes).unwrap();
        let places = places(random, form.check(&bytes).unwrap().charge).min(most_places);
        Setup { form, known: Known::of(&bytes), bytes, deck, places }
    }

    pub fn fresh(&self) -> Host<'_> {
        match self.form {
            Form::Old => fresh_old(&self.bytes, self.places),
            Form::New => fresh(&self.bytes, self.places),
        }
    }
}

/// For each channel those that there is a way to by one or more edges, in another manner than `graph` finds
/// them: by paths over a growing set of channels in between.
pub fn ways(edges: &[u32; Deck::CHANNELS]) -> [u32; Deck::CHANNELS] {
    let mut ways = *edges;
    for between in 0..Deck::CHANNELS {
        for from in 0..Deck::CHANNELS {
            if ways[from] >> between & 1 == 1 {
                ways[from] |= ways[between];
            }
        }
    }
    ways
}

/// The line of the old check.
pub fn old_check_line(deck: &[u8]) -> String {
    Form::Old.check(deck).map_or_else(|refusal| refusal.to_string(), |passed| passed.to_string())
}

/// Whether every part is within its limit in this table of values.
pub fn parts_within(deck: &Deck, values: &[i32]) -> bool {
    deck.parts.iter().zip(values.chunks(32)).all(|(part, values)| holds(&part.limit, values, &[]))
}

/// A part's values with the pairs of an input set.
pub fn with_pairs(values: &[i32], pairs: &[i32]) -> Vec<i32> {
    let mut values = values.to_vec();
    pairs.chunks(2).for_each(|pair| values[pair[0] as usize] = pair[1]);
    values
}

/// Whether one step of some channel of these pairs leads over an edge of the limit.
pub fn is_at_edge(limit: &Truth, values: &[i32], pairs: &[i32]) -> bool {
    let here = holds(limit, values, &[]);
    let beside = |pair: &[i32], step: i32| with_pairs(values, &[pair[0], pair[1].saturating_add(step)]);
    pairs.chunks(2).any(|pair| [-1, 1].into_iter().any(|step| holds(limit, &beside(pair, step), &[]) != here))
}
