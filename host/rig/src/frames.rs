//! The values over the frames of a run. A frame ends with each settle.

use crate::calls::Call;
use crate::host::Answer;
use crate::loading::Readable;
use reaction::raw::{Memory, CHANNELS};
use std::fmt::Write;

/// A channel of a part, by name, with its values frame by frame.
pub struct Track {
    pub name: String,
    pub values: Vec<i32>,
}

pub struct Frames {
    pub tracks: Vec<Track>,
    /// Where the values of each track stand in a value table.
    places: Vec<usize>,
    /// Whether something happened since the last frame.
    open: bool,
}

impl Frames {
    pub fn new(readable: &Readable) -> Frames {
        let names = &readable.names;
        let (mut tracks, mut places) = (Vec::new(), Vec::new());
        for (part, part_name) in names.parts.iter().enumerate() {
            for (channel, channel_name) in names.channels.iter().enumerate() {
                tracks.push(Track { name: format!("{part_name}.{channel_name}"), values: Vec::new() });
                places.push(CHANNELS * part + channel);
            }
        }
        Frames { tracks, places, open: false }
    }

    /// Takes note of a call: a start and every settle end a frame.
    pub fn after(&mut self, call: &Call, answer: &Answer, memory: &Memory) {
        self.open = true;
        if matches!(call, Call::Settle { .. }) || *answer == Answer::Started {
            self.end(memory);
        }
    }

    /// What came behind the last settle is a frame too.
    pub fn finish(&mut self, memory: &Memory) {
        if self.open {
            self.end(memory);
        }
    }

    fn end(&mut self, memory: &Memory) {
        self.open = false;
        for (track, &place) in self.tracks.iter_mut().zip(&self.places) {
            track.values.push(memory.values[place]);
        }
    }

    /// The number of frames, that of the start among them.
    pub fn count(&self) -> usize {
        self.tracks.first().map_or(0, |track| track.values.len())
    }

    /// A row for each frame, frame 0 being the start.
    pub fn csv(&self) -> String {
        let mut text = "frame".to_string();
        for track in &self.tracks {
            // Writing into a string cannot fail. Names have no commas and no quotes.
            let _ = write!(text, ",{}", track.name);
        }
        for frame in 0..self.count() {
            let _ = write!(text, "\n{frame}");
            for track in &self.tracks {
                let _ = write!(text, ",{}", track.values[frame]);
            }
        }
        text + "\n"
    }
}
