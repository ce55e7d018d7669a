//! The words of a text and its statements.
//!
//! A statement begins at the start of a line; a line that begins with a space
//! or a tab continues the statement before it. `#` before a word begins a comment.

use super::fault::{Place, TextFault};
use crate::instance::{FieldFacts, KINDS};

/// A word, or a name in quotes, which is never a word of the language.
#[derive(Clone, Debug, PartialEq, Eq)]
pub struct Word {
    pub text: String,
    pub quoted: bool,
    pub place: Place,
}

impl Word {
    /// Whether it is the word `word` of the language.
    pub fn is(&self, word: &str) -> bool {
        !self.quoted && self.text == word
    }

    /// Whether it can stand for a name.
    pub fn is_name(&self) -> bool {
        self.quoted || !is_reserved(&self.text)
    }
}

#[derive(Clone, Debug, PartialEq, Eq)]
pub struct Statement {
    /// At least one.
    pub words: Vec<Word>,
    /// Just after the last word.
    pub end: Place,
}

/// The words that no unquoted name may be, beside those that end a list of names
/// in a constraint.
const RESERVED: &[&str] = &[
    "all", "and", "at", "between", "each", "exactly", "except", "hard", "in", "is", "least",
    "most", "none", "periods", "takes", "to", "weight", "with",
];

fn is_reserved(word: &str) -> bool {
    let mut pairs = KINDS.iter().flat_map(|facts| facts.fields.windows(2));
    let ends_list = |pair: &[FieldFacts]| pair[0].sort.is_list() && pair[1].lead == word;
    RESERVED.contains(&word) || pairs.any(ends_list)
}

/// `name` as it stands in a text: in quotes where it must.
pub fn written(name: &str) -> String {
    let plain = |c: char| !c.is_whitespace() && !c.is_control() && !matches!(c, '"' | ',' | '\\');
    if !name.is_empty() && name.chars().all(plain) && !name.starts_with('#') && !is_reserved(name) {
        return name.to_string();
    }
    let mut quoted = String::from('"');
    for c in name.chars() {
        match c {
            '"' | '\\' => quoted.extend(['\\', c]),
            '\n' => quoted += "\\n",
            '\r' => quoted += "\\r",
            _ => quoted.push(c),
        }
    }
    quoted + "\""
}

/// The statements of `text`.
pub fn statements(text: &str) -> Result<Vec<Statement>, TextFault> {
    let mut statements: Vec<Statement> = Vec::new();
    for (index, line) in text.split('\n').enumerate() {
        let line = if index == 0 {
            line.trim_start_matches('\u{feff}')
        } else {
            line
        };
        let mut scanner = Scanner::over(line, index + 1);
        let mut words = Vec::new();
        while let Some(word) = scanner.word()? {
            words.push(word);
        }
        if words.is_empty() {
            continue;
        }
        let end = scanner.last_end;
        match statements.last_mut() {
            Some(statement) if line.starts_with([' ', '\t']) => {
                statement.words.extend(words);
                statement.end = end;
            }
            None if line.starts_with([' ', '\t']) => {
                let message = "expected a statement at the start of a line; \
                               a line that begins with a space continues one";
                return Err(TextFault::at(words[0].place, message));
            }
            _ => statements.push(Statement { words, end }),
        }
    }
    Ok(statements)
}

/// Walks over one line.
struct Scanner<'a> {
    rest: std::iter::Peekable<std::str::Chars<'a>>,
    place: Place,
    /// Just after the last word.
    last_end: Place,
}

impl<'a> Scanner<'a> {
    fn over(line: &'a str, number: usize) -> Self {
        let place = Place {
            line: number,
            column: 1,
        };
        Scanner {
            rest: line.chars().peekable(),
            place,
            last_end: place,
        }
    }

    fn next(&mut self) -> Option<char> {
        let c = self.rest.next()?;
        self.place.column += 1;
        Some(c)
    }

    /// The next word of the line, if there is one.
    fn word(&mut self) -> Result<Option<Word>, TextFault> {
        while self
            .rest
            .peek()
            .is_some_and(|c| c.is_whitespace() || *c == ',')
        {
            self.next();
        }
        let place = self.place;
        let (text, quoted) = match self.rest.peek() {
            None | Some('#') => return Ok(None),
            Some('"') => (self.quoted()?, true),
            Some(_) => (self.plain(), false),
        };
        self.last_end = self.place;
        Ok(Some(Word {
            text,
            quoted,
            place,
        }))
    }

    fn plain(&mut self) -> String {
        let mut text = String::new();
        while let Some(&c) = self.rest.peek() {
            if c.is_whitespace() || matches!(c, ',' | '"') {
                break;
            }
            text.push(c);
            self.next();
        }
        text
    }

    fn quoted(&mut self) -> Result<String, TextFault> {
        let open = self.place;
        self.next();
        let mut text = String::new();
        loop {
            let place = self.place;
            match self.next() {
                None => return Err(TextFault::at(open, "expected a closing quote on this line")),
                Some('"') if text.is_empty() => {
                    return Err(TextFault::at(open, "expected a name between the quotes"))
                }
                Some('"') => return Ok(text),
                Some('\\') => match self.next() {
                    Some(c @ ('"' | '\\')) => text.push(c),
                    Some('n') => text.push('\n'),
                    Some('r') => text.push('\r'),
                    _ => {
                        let message = "expected \\\", \\\\, \\n or \\r after a backslash in quotes";
                        return Err(TextFault::at(place, message));
                    }
                },
                Some(c) => text.push(c),
            }
        }
    }
}

#[cfg(test)]
mod tests {
    use super::*;

    fn texts(text: &str) -> Vec<Vec<String>> {
        let statements = statements(text).expect("a text");
        let words = |statement: Statement| statement.words.into_iter().map(|word| word.text);
        statements.into_iter().map(|s| words(s).collect()).collect()
    }

    #[test]
    fn a_line_that_begins_with_a_space_continues() {
        let text = "a b # c\n\n  d, \"e f\"\r\n# g\nh#i\n";
        assert_eq!(texts(text), [vec!["a", "b", "d", "e f"], vec!["h#i"]]);
    }

    #[test]
    fn a_name_is_read_as_it_is_written() {
        for name in [
            "a",
            "a b",
            "in",
            "a,b",
            "#1",
            "C#",
            "say \"x\"",
            "\\",
            "é",
            "a\nb",
            "\t",
        ] {
            let read = statements(&format!("x {}", written(name))).expect("a text");
            assert_eq!(read[0].words[1].text, name);
            assert!(read[0].words[1].is_name());
        }
    }

    #[test]
    fn places_count_characters() {
        let fault = statements("é \"b").expect_err("no closing quote");
        assert_eq!((fault.line, fault.column), (1, 3));
    }
}
