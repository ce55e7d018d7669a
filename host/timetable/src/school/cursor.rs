//! Reading the words of one statement in turn.

use super::fault::{Place, TextFault};
use super::words::{Statement, Word};
use std::ops::RangeInclusive;

pub struct Cursor<'a> {
    statement: &'a Statement,
    at: usize,
}

impl<'a> Cursor<'a> {
    /// After the statement's first word.
    pub fn after_first(statement: &'a Statement) -> Self {
        Cursor { statement, at: 1 }
    }

    pub fn peek(&self) -> Option<&'a Word> {
        self.statement.words.get(self.at)
    }

    /// Where the next word stands, or where the statement ends.
    pub fn place(&self) -> Place {
        self.peek().map_or(self.statement.end, |word| word.place)
    }

    /// Passes the word `word` of the language, if it is next.
    pub fn passes(&mut self, word: &str) -> bool {
        let next = self.peek().is_some_and(|next| next.is(word));
        self.at += usize::from(next);
        next
    }

    pub fn expect(&mut self, word: &str) -> Result<(), TextFault> {
        match self.passes(word) {
            true => Ok(()),
            false => Err(self.expected(&format!("'{word}'"))),
        }
    }

    /// A name, which `what` says more of.
    pub fn name(&mut self, what: &str) -> Result<&'a Word, TextFault> {
        self.next_name().ok_or_else(|| self.expected(what))
    }

    /// The next word, if it can be a name.
    pub fn next_name(&mut self) -> Option<&'a Word> {
        let word = self.peek().filter(|word| word.is_name())?;
        self.at += 1;
        Some(word)
    }

    /// One or more names, each of which `what` says more of.
    pub fn names(&mut self, what: &str) -> Result<Vec<&'a Word>, TextFault> {
        let mut names = vec![self.name(what)?];
        while let Some(name) = self.next_name() {
            names.push(name);
        }
        Ok(names)
    }

    /// A number within `limits`, which `what` says more of.
    pub fn number(&mut self, what: &str, limits: RangeInclusive<u32>) -> Result<u32, TextFault> {
        let (least, most) = (limits.start(), limits.end());
        let wanted = format!("{what} from {least} to {most}");
        let word = self.peek().filter(|word| !word.quoted);
        let value = word.and_then(|word| decimal(&word.text));
        match value.filter(|value| limits.contains(value)) {
            Some(value) => {
                self.at += 1;
                Ok(value)
            }
            None => Err(self.expected(&wanted)),
        }
    }

    /// What `read` makes of the next word, which `what` says more of.
    pub fn read<T>(&mut self, what: &str, read: fn(&str) -> Option<T>) -> Result<T, TextFault> {
        let word = self.peek().filter(|word| !word.quoted);
        match word.and_then(|word| read(&word.text)) {
            Some(found) => {
                self.at += 1;
                Ok(found)
            }
            None => Err(self.expected(what)),
        }
    }

    /// Nothing may follow.
    pub fn end(&self) -> Result<(), TextFault> {
        match self.peek() {
            None => Ok(()),
            Some(_) => Err(self.expected("the end of the statement")),
        }
    }

    /// The fault that something else is next than `what`.
    pub fn expected(&self, what: &str) -> TextFault {
        let found = match self.peek() {
            Some(word) => format!("'{}'", word.text),
            None => "the end of the statement".to_string(),
        };
        TextFault::at(self.place(), format!("expected {what}, found {found}"))
    }
}

/// A number in decimal digits.
fn decimal(text: &str) -> Option<u32> {
    let digits = text.bytes().all(|byte| byte.is_ascii_digit());
    text.parse().ok().filter(|_| digits)
}
