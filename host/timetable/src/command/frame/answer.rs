//! What a subcommand answers, and why it may not.

use super::json::Json;
use crate::engine::Refusal;
use crate::solver;
use std::path::PathBuf;

/// The exit status of an accepted call.
pub const ACCEPTED: u8 = 0;
/// The exit status of a refusal, and of `same` where two timetables differ.
pub const REFUSED: u8 = 1;
/// The exit status of wrong usage, or of a file that cannot be read or written.
pub const FAILED: u8 = 2;

/// An accepted call.
#[derive(Default)]
pub struct Answer {
    /// What is printed.
    pub report: Vec<u8>,
    /// The same for the flag `--json`.
    pub json: Option<Json>,
    /// The bytes that the call makes. They go to the file of the option `--out`;
    /// without that option they are printed if there is no report.
    pub product: Option<Vec<u8>>,
    /// Further files, written together with the product.
    pub files: Vec<(PathBuf, Vec<u8>)>,
    /// What is said on standard error beside it.
    pub remarks: String,
    pub status: u8,
}

impl Answer {
    /// A report: a line for the verdict, if there is one, and a line for each
    /// name with its number; in JSON the verdict has the name `answer`.
    pub fn report(verdict: Option<&str>, numbers: &[(&str, u64)]) -> Answer {
        let mut report = String::new();
        let mut fields = Vec::new();
        if let Some(verdict) = verdict {
            report += &format!("{verdict}\n");
            fields.push(("answer", Json::from(verdict)));
        }
        for &(name, number) in numbers {
            report += &format!("{name} {number}\n");
            fields.push((name, Json::from(number)));
        }
        Answer {
            report: report.into_bytes(),
            json: Some(Json::object(fields)),
            ..Answer::default()
        }
    }

    /// Bytes for the file of the option `--out`, or else for standard output.
    pub fn product(bytes: Vec<u8>) -> Answer {
        Answer {
            product: Some(bytes),
            ..Answer::default()
        }
    }

    /// Text for standard output.
    pub fn text(text: String) -> Answer {
        Answer {
            report: text.into_bytes(),
            ..Answer::default()
        }
    }
}

/// Why there is no answer.
#[derive(Debug)]
pub enum Fault {
    /// The engine refuses: exit status 1.
    Refused {
        refusal: Refusal,
        /// The operand that earned it, where the refusal's number does not tell.
        operand: Option<&'static str>,
    },
    /// An input is not what it should be, in words: exit status 1.
    Rejected(String),
    /// The words of the call are wrong; the usage is told with it: exit status 2.
    Usage(String),
    /// A file cannot be read or written, or a program cannot be run: exit status 2.
    Failed(String),
}

impl From<Refusal> for Fault {
    fn from(refusal: Refusal) -> Self {
        Fault::Refused {
            refusal,
            operand: None,
        }
    }
}

impl From<solver::Fault> for Fault {
    fn from(fault: solver::Fault) -> Self {
        match fault {
            solver::Fault::Refused(refusal) => Fault::from(refusal),
            solver::Fault::Other(words) => Fault::Rejected(words),
            solver::Fault::Failed(words) => Fault::Failed(words),
            solver::Fault::Stopped => Fault::Failed("stopped".to_string()),
        }
    }
}
