//! Failures of questions on a file.

use ctfd_read::error::Error;
use std::fmt::{self, Display};
use std::io;

/// Why a question has no answer.
#[derive(Debug)]
pub enum Failure {
    /// A name is unknown; another file may have it.
    Unknown(String),
    /// Something is refused; the text is a line for the user.
    Refused(String),
    /// The output cannot be written.
    Unwritten(io::Error),
}

impl Display for Failure {
    fn fmt(&self, to: &mut fmt::Formatter<'_>) -> fmt::Result {
        match self {
            Failure::Unknown(line) | Failure::Refused(line) => line.fmt(to),
            Failure::Unwritten(error) => error.fmt(to),
        }
    }
}

/// The result of a question.
pub type Outcome<T> = Result<T, Failure>;

impl Failure {
    /// A refusal by the library; `what` names the file.
    pub fn of_library(what: impl Display, refusal: ctfd::Refusal) -> Failure {
        Failure::Refused(refusal_text(what, refusal))
    }
}

/// The message for a refusal by the library, with advice.
pub fn refusal_text(what: impl Display, ctfd::Refusal { fault, place }: ctfd::Refusal) -> String {
    match place {
        0 => format!("{what}: {fault}: {}", fault.advice()),
        _ => format!("{what}: {fault} at {place}: {}", fault.advice()),
    }
}

impl From<Error> for Failure {
    fn from(error: Error) -> Failure {
        Failure::Refused(error.0)
    }
}

impl From<io::Error> for Failure {
    fn from(error: io::Error) -> Failure {
        Failure::Unwritten(error)
    }
}
