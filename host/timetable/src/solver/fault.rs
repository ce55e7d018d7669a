//! Why there is no answer.

use crate::engine::Refusal;
use std::fmt;

/// What stands in the way.
#[derive(Clone, Debug, PartialEq, Eq)]
pub enum Fault {
    /// The engine refuses the instance, the bound, the model or the proof.
    Refused(Refusal),
    /// A solver's output or proof cannot be used; in words.
    Other(String),
    /// A file cannot be read or written, or a program cannot be run; in words.
    Failed(String),
    /// It was asked to stop.
    Stopped,
}

impl From<Refusal> for Fault {
    fn from(refusal: Refusal) -> Fault {
        Fault::Refused(refusal)
    }
}

impl fmt::Display for Fault {
    fn fmt(&self, out: &mut fmt::Formatter) -> fmt::Result {
        match self {
            Fault::Refused(Refusal { number, value }) => write!(out, "refused {number} {value}"),
            Fault::Other(words) | Fault::Failed(words) => out.write_str(words),
            Fault::Stopped => out.write_str("stopped"),
        }
    }
}
