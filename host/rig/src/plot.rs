//! The channels over the frames, as SVG.

use crate::frames::{Frames, Track};
use std::fmt::Write;

/// The picture in pixels: its width, the height of the field, and the margins around that.
const WIDTH: f64 = 900.0;
const FIELD: f64 = 380.0;
const LEFT: f64 = 64.0;
const TOP: f64 = 24.0;
const RIGHT: f64 = 230.0;
const BOTTOM: f64 = 48.0;
/// The height of a line of the legend.
const LINE: f64 = 16.0;

/// Colours that are told apart on white, also in print; further tracks are dashed.
const COLOURS: [&str; 8] =
    ["#1b6ca8", "#c1440e", "#2e7d32", "#7b1fa2", "#b8860b", "#00838f", "#ad1457", "#5d4037"];

/// The tracks that move, over the frames.
pub fn plot(frames: &Frames) -> String {
    let moving: Vec<&Track> = frames.tracks.iter().filter(|track| moves(track)).collect();
    let scale = Scale::of(&moving, frames.count());
    let height = TOP + FIELD.max(LINE * moving.len() as f64) + BOTTOM;
    let mut svg = format!(
        "<svg xmlns=\"http://www.w3.org/2000/svg\" width=\"{WIDTH}\" height=\"{height}\" \
         viewBox=\"0 0 {WIDTH} {height}\" font-family=\"sans-serif\" font-size=\"12\">\n\
         <rect width=\"100%\" height=\"100%\" fill=\"white\"/>\n"
    );
    svg += &scale.axes();
    for (index, track) in moving.iter().enumerate() {
        svg += &scale.line(track, index);
    }
    if moving.is_empty() {
        svg += &label(LEFT + 12.0, TOP + 20.0, "start", "no channel moved");
    }
    svg + "</svg>\n"
}

fn moves(track: &Track) -> bool {
    track.values.windows(2).any(|pair| pair[0] != pair[1])
}

/// Frames and values to pixels.
struct Scale {
    frames: usize,
    low: f64,
    high: f64,
    step: f64,
}

impl Scale {
    fn of(tracks: &[&Track], frames: usize) -> Scale {
        let values = || tracks.iter().flat_map(|track| track.values.iter().map(|&value| f64::from(value)));
        let (low, high) = (values().fold(0.0, f64::min), values().fold(0.0, f64::max));
        let step = nice_step((high - low).max(1.0) / 6.0);
        Scale {
            frames,
            low: (low / step).floor() * step,
            high: ((high / step).ceil() * step).max(low + step),
            step,
        }
    }

    fn x(&self, frame: usize) -> f64 {
        LEFT + (WIDTH - LEFT - RIGHT) * frame as f64 / (self.frames.max(2) - 1) as f64
    }

    fn y(&self, value: f64) -> f64 {
        TOP + FIELD * (self.high - value) / (self.high - self.low)
    }

    /// Lines with numbers at nice values, and the frames below.
    fn axes(&self) -> String {
        let mut svg = String::new();
        let (left, right) = (LEFT, WIDTH - RIGHT);
        let count = ((self.high - self.low) / self.step).round() as i64;
        for index in 0..=count {
            let value = self.low + self.step * index as f64;
            let (y, colour) = (self.y(value), if value == 0.0 { "#555" } else { "#ddd" });
            // Writing into a string cannot fail.
            let _ = writeln!(svg, "<path d=\"M{left} {y:.1}H{right}\" stroke=\"{colour}\"/>");
            svg += &label(left - 8.0, y + 4.0, "end", &format!("{value}"));
        }
        let every = nice_step(self.frames as f64 / 12.0).max(1.0) as usize;
        for frame in (0..self.frames).step_by(every) {
            svg += &label(self.x(frame), TOP + FIELD + 20.0, "middle", &frame.to_string());
        }
        svg + &label((left + right) / 2.0, TOP + FIELD + 40.0, "middle", "frame")
    }

    /// A track, and its line in the legend.
    fn line(&self, track: &Track, index: usize) -> String {
        let colour = COLOURS[index % COLOURS.len()];
        let dashes = match index / COLOURS.len() {
            0 => String::new(),
            round => format!(" stroke-dasharray=\"{} 3\"", 9 / round.min(4)),
        };
        let points: Vec<String> = track
            .values
            .iter()
            .enumerate()
            .map(|(frame, &value)| format!("{:.1},{:.1}", self.x(frame), self.y(value.into())))
            .collect();
        let style = format!("fill=\"none\" stroke=\"{colour}\" stroke-width=\"1.6\"{dashes}");
        let (x, y) = (WIDTH - RIGHT + 16.0, TOP + 6.0 + LINE * index as f64);
        format!(
            "<polyline points=\"{}\" {style}/>\n<path d=\"M{x} {y:.1}h24\" {style}/>\n{}",
            points.join(" "),
            label(x + 30.0, y + 4.0, "start", &track.name)
        )
    }
}

/// The least of 1, 2, 5, 10, 20, 50 … that is not below this.
fn nice_step(least: f64) -> f64 {
    let mut power = 1.0;
    loop {
        for digit in [1.0, 2.0, 5.0] {
            if digit * power >= least {
                return digit * power;
            }
        }
        power *= 10.0;
    }
}

fn label(x: f64, y: f64, anchor: &str, text: &str) -> String {
    let text = text.replace('&', "&amp;").replace('<', "&lt;");
    format!("<text x=\"{x:.1}\" y=\"{y:.1}\" text-anchor=\"{anchor}\" fill=\"#333\">{text}</text>\n")
}
