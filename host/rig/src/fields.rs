//! Which field of a deck a byte is in, as far as the bytes can be read.

/// A walk over the fields up to an offset. Counts are taken as they are, in range or not.
struct Walk<'a> {
    bytes: &'a [u8],
    at: usize,
    wanted: usize,
}

/// The field that has this offset, or whose first byte should stand there; none where the walk does not come so far.
pub fn field_at(bytes: &[u8], offset: usize) -> Option<String> {
    let mut walk = Walk { bytes, at: 0, wanted: offset };
    walk.deck().err()
}

/// A field that has the offset ends the walk.
type Step<T> = Result<T, String>;

impl Walk<'_> {
    /// A field of so many bytes.
    fn field(&mut self, length: usize, name: impl FnOnce() -> String) -> Step<()> {
        let end = self.at + length;
        if self.wanted < end || end > self.bytes.len() {
            return Err(name());
        }
        self.at = end;
        Ok(())
    }

    fn count(&mut self, name: impl FnOnce() -> String) -> Step<usize> {
        self.field(1, name)?;
        Ok(self.bytes[self.at - 1].into())
    }

    fn expression(&mut self, name: &str) -> Step<()> {
        let length = self.count(|| format!("the length of {name}"))?;
        self.field(length, || name.to_string())
    }

    fn deck(&mut self) -> Step<()> {
        let channels = self.count(|| "the number of channels".to_string())?;
        self.field(channels, || "the labels of the channels".to_string())?;
        let rules = self.count(|| "the number of rules".to_string())?;
        for number in 0..rules {
            self.rule(number)?;
        }
        let parts = self.count(|| "the number of parts".to_string())?;
        for number in 0..parts {
            self.part(number, channels)?;
        }
        Err("what follows the last part".to_string())
    }

    fn rule(&mut self, number: usize) -> Step<()> {
        let events = self.count(|| format!("the number of events of rule {number}"))?;
        self.field(events, || format!("the events of rule {number}"))?;
        let defaults = self.count(|| format!("the count of the default action of rule {number}"))?;
        self.assignments(defaults, &format!("the default action of rule {number}"))?;
        self.field(1, || format!("the kind of rule {number}"))?;
        self.expression(&format!("the condition of rule {number}"))?;
        let assignments = self.count(|| format!("the number of assignments of rule {number}"))?;
        self.assignments(assignments, &format!("the action of rule {number}"))
    }

    fn assignments(&mut self, count: usize, action: &str) -> Step<()> {
        for index in 0..count {
            self.field(1, || format!("target {index} of {action}"))?;
            self.expression(&format!("value {index} of {action}"))?;
        }
        Ok(())
    }

    fn part(&mut self, number: usize, channels: usize) -> Step<()> {
        self.field(4 * channels, || format!("the opening values of part {number}"))?;
        let carried = self.count(|| format!("the number of rules that part {number} carries"))?;
        self.field(carried, || format!("the rules that part {number} carries"))?;
        self.expression(&format!("the limit of part {number}"))
    }
}
