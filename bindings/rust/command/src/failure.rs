//! How a command ends where it does not answer.
use std::fmt;

/// What went wrong, in words for a person.
#[derive(Debug, PartialEq)]
pub enum Failure {
    /// The library, or a rule of the documents, refuses what is asked.
    Refused(String),
    /// The words behind the command are wrong.
    Use(String),
    /// Something can't be read or written.
    File(String),
}

impl Failure {
    /// The status that the program ends with.
    pub fn status(&self) -> i32 {
        match self {
            Failure::Refused(_) => 1,
            Failure::Use(_) | Failure::File(_) => 2,
        }
    }
}

impl fmt::Display for Failure {
    fn fmt(&self, f: &mut fmt::Formatter) -> fmt::Result {
        let (Failure::Refused(words) | Failure::Use(words) | Failure::File(words)) = self;
        f.write_str(words)
    }
}
