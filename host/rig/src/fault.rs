//! What is wrong in a text, and where.

/// A stretch of a line: its number from 1 on, and characters of it from 0 on.
#[derive(Clone, Copy, Debug, PartialEq, Eq)]
pub struct Spot {
    pub line: usize,
    pub column: usize,
    pub width: usize,
}

/// Why a text cannot be taken, in a sentence.
#[derive(Clone, Debug, PartialEq, Eq)]
pub struct Fault {
    pub spot: Spot,
    pub sentence: String,
}

impl Fault {
    /// The fault as it is shown: file, line and column, the sentence, then the line with a mark under the spot.
    pub fn shown(&self, file: &str, text: &str) -> String {
        let Spot { line, column, .. } = self.spot;
        let head = format!("{file}:{line}:{}: {}", column + 1, self.sentence);
        match marked(text, self.spot) {
            Some(marked) => format!("{head}\n{marked}"),
            None => head,
        }
    }
}

/// A line of a text with a mark under the spot. Tabs stay tabs, so that the mark stands right at any width of them.
pub fn marked(text: &str, spot: Spot) -> Option<String> {
    let line = text.lines().nth(spot.line.checked_sub(1)?)?;
    let blank = |letter: char| if letter == '\t' { '\t' } else { ' ' };
    let mut blanks: String = line.chars().take(spot.column).map(blank).collect();
    // Behind the end of the line, where a word is missing.
    blanks.extend((blanks.chars().count()..spot.column).map(|_| ' '));
    Some(format!("    {line}\n    {blanks}{}", "^".repeat(spot.width.max(1))))
}
