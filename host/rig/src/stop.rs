//! Why the program ends before its work is done.

/// What is said on standard error, with its status.
#[derive(Clone, Debug, PartialEq, Eq)]
pub enum Stop {
    /// A text, a deck or a call was refused: status 1.
    Refused(String),
    /// The program was not called as it can be, or a file is not there: status 2.
    Misused(String),
}

impl Stop {
    pub const REFUSED: u8 = 1;
    pub const MISUSED: u8 = 2;

    pub fn status(&self) -> u8 {
        match self {
            Stop::Refused(_) => Stop::REFUSED,
            Stop::Misused(_) => Stop::MISUSED,
        }
    }

    pub fn message(&self) -> &str {
        match self {
            Stop::Refused(message) | Stop::Misused(message) => message,
        }
    }
}
