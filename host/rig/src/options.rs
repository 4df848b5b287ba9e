//! The words behind a command: files and options.

/// Files in their order, and options with their values.
#[derive(Clone, Debug, Default, PartialEq, Eq)]
pub struct Options<'a> {
    pub files: Vec<&'a str>,
    flags: Vec<&'a str>,
    values: Vec<(&'a str, &'a str)>,
}

impl<'a> Options<'a> {
    /// Reads the words. None where an option is unknown, stands twice or lacks its value.
    pub fn read(words: &[&'a str], flags: &[&str], valued: &[&str]) -> Option<Options<'a>> {
        let mut options = Options::default();
        let mut words = words.iter().copied();
        while let Some(word) = words.next() {
            let twice = options.has(word) || options.value(word).is_some();
            match word {
                _ if twice => return None,
                _ if flags.contains(&word) => options.flags.push(word),
                _ if valued.contains(&word) => options.values.push((word, words.next()?)),
                // `-` alone is standard input.
                _ if word.starts_with('-') && word != "-" => return None,
                _ => options.files.push(word),
            }
        }
        Some(options)
    }

    pub fn has(&self, flag: &str) -> bool {
        self.flags.contains(&flag)
    }

    pub fn value(&self, option: &str) -> Option<&'a str> {
        self.values.iter().find(|(known, _)| *known == option).map(|&(_, value)| value)
    }
}
