//! What is wrong with a text, and where.

use std::fmt::{self, Display, Formatter};

/// A place of a text: line and column count from 1, columns in characters.
#[derive(Clone, Copy, Debug, PartialEq, Eq)]
pub struct Place {
    pub line: usize,
    pub column: usize,
}

#[derive(Clone, Debug, PartialEq, Eq)]
pub struct TextFault {
    pub line: usize,
    pub column: usize,
    /// What was expected there, or what breaks a rule.
    pub message: String,
}

impl TextFault {
    pub(super) fn at(place: Place, message: impl Into<String>) -> TextFault {
        TextFault {
            line: place.line,
            column: place.column,
            message: message.into(),
        }
    }

    /// The line of `text` that is at fault, with a mark below the column.
    pub fn excerpt(&self, text: &str) -> String {
        let line = text.lines().nth(self.line - 1).unwrap_or_default();
        // A tab stays one, so that the mark stands below its column.
        let before = line.chars().take(self.column - 1);
        let indent: String = before.map(|c| if c == '\t' { '\t' } else { ' ' }).collect();
        format!("  {line}\n  {indent}^")
    }
}

impl Display for TextFault {
    fn fmt(&self, out: &mut Formatter) -> fmt::Result {
        let TextFault {
            line,
            column,
            message,
        } = self;
        write!(out, "line {line}, column {column}: {message}")
    }
}
