//! What an import says of the items of a file.

use super::xml::{Element, XmlError};
use std::fmt;

/// What became of an item that is not carried exactly.
#[derive(Clone, Copy, Debug, PartialEq, Eq)]
pub enum Fate {
    /// Something that it implies is carried, and nothing more than it says.
    Weakened,
    Dropped,
}

/// An item that is not carried exactly.
#[derive(Clone, Debug, PartialEq, Eq)]
pub struct Remark {
    pub line: usize,
    pub item: String,
    pub fate: Fate,
    pub reason: String,
}

impl fmt::Display for Remark {
    fn fmt(&self, out: &mut fmt::Formatter) -> fmt::Result {
        let fate = match self.fate {
            Fate::Weakened => "weakened",
            Fate::Dropped => "dropped",
        };
        let Remark {
            line, item, reason, ..
        } = self;
        write!(out, "{line}: {fate}: {item}: {reason}")
    }
}

/// Why a file cannot be imported at all: it is damaged, or over a limit.
#[derive(Clone, Debug, PartialEq, Eq)]
pub struct Fault {
    pub line: usize,
    pub column: Option<usize>,
    pub message: String,
}

impl Fault {
    /// A fault of the element.
    pub fn at(element: &Element, message: impl Into<String>) -> Fault {
        Fault {
            line: element.line,
            column: None,
            message: message.into(),
        }
    }
}

impl From<XmlError> for Fault {
    fn from(error: XmlError) -> Fault {
        Fault {
            line: error.line,
            column: Some(error.column),
            message: error.message,
        }
    }
}

impl fmt::Display for Fault {
    fn fmt(&self, out: &mut fmt::Formatter) -> fmt::Result {
        match self.column {
            Some(column) => write!(out, "{}:{column}: {}", self.line, self.message),
            None => write!(out, "{}: {}", self.line, self.message),
        }
    }
}

/// Why an item is not carried.
pub enum Refused {
    /// The engine has no counterpart for it.
    NoCounterpart(String),
    /// The file is damaged here.
    Fault(Fault),
}

impl From<Fault> for Refused {
    fn from(fault: Fault) -> Refused {
        Refused::Fault(fault)
    }
}

impl Refused {
    pub fn because<T>(reason: impl Into<String>) -> Result<T, Refused> {
        Err(Refused::NoCounterpart(reason.into()))
    }
}

/// The number in a child's text, which fits 32 bits.
pub fn number(element: &Element, field: &str) -> Result<usize, Fault> {
    let text = element.field(field);
    match text.parse::<u32>() {
        Ok(number) => Ok(number as usize),
        Err(_) => {
            let child = element.child(field).unwrap_or(element);
            let message = format!("'{text}' is no number for {field} of {}", element.name);
            Err(Fault::at(child, message))
        }
    }
}
