//! Why a command did not do its work, and the exit status that says so.

use lukhtari::Refusal;

#[derive(Debug)]
pub enum Failure {
    // The library refused a call.
    Refused(String),
    // The command line is not one of those that the help shows.
    Usage(String),
    // A file could not be read or written.
    File(String),
}

impl Failure {
    // A refusal with its number, what it is about and its reason in words.
    pub fn refused(subject: &str, refusal: Refusal, reason: &str) -> Failure {
        let number = refusal.number;
        Failure::Refused(format!("{subject}: refused {number}: {reason}"))
    }

    pub fn status(&self) -> u8 {
        match self {
            Failure::Refused(_) => 1,
            Failure::Usage(_) | Failure::File(_) => 2,
        }
    }

    // The text for standard error.
    pub fn text(&self) -> String {
        match self {
            Failure::Refused(text) | Failure::File(text) => text.clone(),
            Failure::Usage(text) => format!("{text}; --help shows the usage"),
        }
    }
}

pub fn usage<T>(text: impl Into<String>) -> Result<T, Failure> {
    Err(Failure::Usage(text.into()))
}
