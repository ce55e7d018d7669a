//! A small XML reader: elements with their attributes, text and line.
//!
//! It reads what school files hold: UTF-8, one root, comments, CDATA, the five
//! named entities and character references. A document type is skipped if it
//! has no declarations of its own. Everything else is an error with its line
//! and column, both counted from 1, a column being a character.

use std::fmt;

/// An element nested deeper than this is refused, so that no file can exhaust the stack.
const DEEPEST: usize = 64;

/// Where reading stopped, and why.
#[derive(Debug, Clone, PartialEq, Eq)]
pub struct XmlError {
    pub line: usize,
    pub column: usize,
    pub message: String,
}

impl fmt::Display for XmlError {
    fn fmt(&self, out: &mut fmt::Formatter) -> fmt::Result {
        write!(out, "{}:{}: {}", self.line, self.column, self.message)
    }
}

/// An element of the file.
#[derive(Debug, Default, PartialEq, Eq)]
pub struct Element {
    pub name: String,
    /// The line of its opening tag.
    pub line: usize,
    pub attributes: Vec<(String, String)>,
    pub children: Vec<Element>,
    /// Its own text, entities resolved, without that of its children.
    pub text: String,
}

impl Element {
    /// The first child of this name.
    pub fn child(&self, name: &str) -> Option<&Element> {
        self.children.iter().find(|child| child.name == name)
    }

    /// Every child of this name, in order.
    pub fn all<'a>(&'a self, name: &'a str) -> impl Iterator<Item = &'a Element> {
        self.children.iter().filter(move |child| child.name == name)
    }

    /// The text of the first child of this name, spaces around it cut off; empty if there is
    /// none.
    pub fn field(&self, name: &str) -> &str {
        self.verbatim(name).trim()
    }

    /// The text of the first child of this name with all its spaces; empty if there is none.
    pub fn verbatim(&self, name: &str) -> &str {
        self.child(name).map_or("", |child| child.text.as_str())
    }

    /// The value of an attribute.
    pub fn attribute(&self, name: &str) -> Option<&str> {
        let found = self.attributes.iter().find(|(known, _)| known == name);
        found.map(|(_, value)| value.as_str())
    }
}

/// Reads a whole file and gives its root element.
pub fn read(bytes: &[u8]) -> Result<Element, XmlError> {
    let text = match std::str::from_utf8(bytes) {
        Ok(text) => text,
        Err(error) => {
            let valid = std::str::from_utf8(&bytes[..error.valid_up_to()]).unwrap_or("");
            return Err(Reader::at_end_of(valid).error("a byte that is not UTF-8"));
        }
    };
    let mut reader = Reader::over(text.strip_prefix('\u{feff}').unwrap_or(text));
    reader.skip_between_elements()?;
    let root = reader.elements()?;
    reader.skip_between_elements()?;
    match reader.rest().is_empty() {
        true => Ok(root),
        false => Err(reader.error("text after the root element")),
    }
}

/// A file, and how far it is read.
#[derive(Clone, Copy)]
struct Reader<'a> {
    text: &'a str,
    /// The offset of what is left.
    at: usize,
    line: usize,
    /// The offset at which the line begins.
    line_start: usize,
}

/// An opening tag as read.
enum Tag {
    Open(Element),
    /// `<name/>`.
    Empty(Element),
}

impl<'a> Reader<'a> {
    fn over(text: &'a str) -> Reader<'a> {
        Reader {
            text,
            at: 0,
            line: 1,
            line_start: 0,
        }
    }

    /// A reader that stands at the end of `text`.
    fn at_end_of(text: &'a str) -> Reader<'a> {
        let mut reader = Reader::over(text);
        reader.advance(text.len());
        reader
    }

    /// What is left of the file.
    fn rest(&self) -> &'a str {
        &self.text[self.at..]
    }

    fn error(&self, message: &str) -> XmlError {
        XmlError {
            line: self.line,
            column: self.text[self.line_start..self.at].chars().count() + 1,
            message: message.to_string(),
        }
    }

    /// Goes on by `length` bytes, which end between two characters, and gives them.
    fn advance(&mut self, length: usize) -> &'a str {
        let passed = &self.rest()[..length];
        if let Some(last) = passed.rfind('\n') {
            self.line += passed.bytes().filter(|&byte| byte == b'\n').count();
            self.line_start = self.at + last + 1;
        }
        self.at += length;
        passed
    }

    fn skip_spaces(&mut self) {
        let rest = self.rest();
        let kept = rest.trim_start_matches([' ', '\t', '\r', '\n']);
        self.advance(rest.len() - kept.len());
    }

    /// Passes `word` if it stands here.
    fn passes(&mut self, word: &str) -> bool {
        let here = self.rest().starts_with(word);
        if here {
            self.advance(word.len());
        }
        here
    }

    fn expect(&mut self, word: &str) -> Result<(), XmlError> {
        match self.passes(word) {
            true => Ok(()),
            false => Err(self.error(&format!("'{word}' is expected"))),
        }
    }

    /// Passes everything up to `end`, and `end`; gives what stands before it.
    fn until(&mut self, end: &str, what: &str) -> Result<&'a str, XmlError> {
        match self.rest().find(end) {
            Some(at) => {
                let before = self.advance(at);
                self.advance(end.len());
                Ok(before)
            }
            None => Err(self.error(&format!("{what} does not end"))),
        }
    }

    /// Passes a comment or an instruction, if one stands here.
    fn passes_remark(&mut self) -> Result<bool, XmlError> {
        let start = *self;
        let (end, what) = match () {
            () if self.passes("<!--") => ("-->", "this comment"),
            () if self.passes("<?") => ("?>", "this instruction"),
            () => return Ok(false),
        };
        match self.until(end, what) {
            Ok(_) => Ok(true),
            Err(error) => Err(start.error(&error.message)),
        }
    }

    /// Passes what may stand before and after the root element.
    fn skip_between_elements(&mut self) -> Result<(), XmlError> {
        loop {
            self.skip_spaces();
            if self.rest().starts_with("<!DOCTYPE") {
                let start = *self;
                let declaration = self.until(">", "this document type")?;
                if declaration.contains('[') {
                    return Err(start.error("a document type with declarations is not read"));
                }
            } else if !self.passes_remark()? {
                return Ok(());
            }
        }
    }

    /// The element that begins here, with all that it holds.
    fn elements(&mut self) -> Result<Element, XmlError> {
        let mut open = match self.tag()? {
            Tag::Empty(root) => return Ok(root),
            Tag::Open(root) => vec![root],
        };
        loop {
            let Some(inner) = open.last_mut() else {
                return Err(self.error("an element is expected"));
            };
            inner.text += &self.characters()?;
            if self.passes("</") {
                let Some(closed) = self.closing(&mut open)? else {
                    continue;
                };
                return Ok(closed);
            }
            match self.tag()? {
                Tag::Empty(element) => inner.children.push(element),
                Tag::Open(element) => open.push(element),
            }
            if open.len() > DEEPEST {
                return Err(self.error(&format!("elements are nested deeper than {DEEPEST}")));
            }
        }
    }

    /// The rest of a closing tag: the innermost element moves into the one around it, or
    /// is the root.
    fn closing(&mut self, open: &mut Vec<Element>) -> Result<Option<Element>, XmlError> {
        let start = *self;
        let name = self.name()?;
        self.skip_spaces();
        self.expect(">")?;
        let Some(element) = open.pop() else {
            return Err(start.error("no element is open"));
        };
        if element.name != name {
            return Err(start.error(&format!(
                "'</{}>' is expected, for the element of line {}",
                element.name, element.line
            )));
        }
        match open.last_mut() {
            Some(around) => {
                around.children.push(element);
                Ok(None)
            }
            None => Ok(Some(element)),
        }
    }

    /// The text up to the next tag.
    fn characters(&mut self) -> Result<String, XmlError> {
        let mut text = String::new();
        loop {
            let plain = self.rest().find(['<', '&']);
            let Some(length) = plain else {
                self.advance(self.rest().len());
                return Err(self.error("the file ends inside an element"));
            };
            text += self.advance(length);
            if self.rest().starts_with('&') {
                text.push(self.reference()?);
            } else if self.passes("<![CDATA[") {
                text += self.until("]]>", "this CDATA section")?;
            } else if !self.passes_remark()? {
                return Ok(text);
            }
        }
    }

    /// The opening tag that begins here.
    fn tag(&mut self) -> Result<Tag, XmlError> {
        let line = self.line;
        if !self.passes("<") {
            return Err(self.error("an element is expected"));
        }
        let mut element = Element {
            name: self.name()?.to_string(),
            line,
            ..Element::default()
        };
        loop {
            self.skip_spaces();
            if self.passes("/>") {
                return Ok(Tag::Empty(element));
            }
            if self.passes(">") {
                return Ok(Tag::Open(element));
            }
            let start = *self;
            let (name, value) = self.pair()?;
            if element.attribute(&name).is_some() {
                return Err(start.error(&format!("a second attribute '{name}'")));
            }
            element.attributes.push((name, value));
        }
    }

    /// An attribute with its value.
    fn pair(&mut self) -> Result<(String, String), XmlError> {
        let name = self.name()?.to_string();
        self.skip_spaces();
        self.expect("=")?;
        self.skip_spaces();
        let quote = match () {
            () if self.passes("\"") => '"',
            () if self.passes("'") => '\'',
            () => return Err(self.error("a value in quotation marks is expected")),
        };
        let mut value = String::new();
        loop {
            let Some(length) = self.rest().find([quote, '&', '<']) else {
                return Err(self.error("this value does not end"));
            };
            value += self.advance(length);
            match self.rest().chars().next() {
                Some('&') => value.push(self.reference()?),
                Some('<') => return Err(self.error("'<' in a value is written '&lt;'")),
                _ => {
                    self.advance(1);
                    return Ok((name, value));
                }
            }
        }
    }

    /// The name of an element or attribute.
    fn name(&mut self) -> Result<&'a str, XmlError> {
        let ends = |c: char| !(c.is_alphanumeric() || matches!(c, '_' | '-' | '.' | ':'));
        let length = self.rest().find(ends).unwrap_or(self.rest().len());
        let first = self.rest().chars().next();
        match first.is_some_and(|c| c.is_alphabetic() || c == '_') {
            true => Ok(self.advance(length)),
            false => Err(self.error("a name is expected")),
        }
    }

    /// The character that `&...;` stands for.
    fn reference(&mut self) -> Result<char, XmlError> {
        const LONGEST: usize = 10;
        let start = *self;
        let end = self
            .rest()
            .bytes()
            .take(LONGEST)
            .position(|byte| byte == b';');
        let Some(end) = end else {
            return Err(start.error("'&' begins no reference; written for itself it is '&amp;'"));
        };
        let whole = self.advance(end + 1);
        let name = &whole[1..end];
        let named = match name {
            "lt" => Some('<'),
            "gt" => Some('>'),
            "amp" => Some('&'),
            "quot" => Some('"'),
            "apos" => Some('\''),
            _ => None,
        };
        let number = match name
            .strip_prefix('#')
            .map(|digits| (digits, digits.strip_prefix('x')))
        {
            Some((_, Some(digits))) => u32::from_str_radix(digits, 16).ok(),
            Some((digits, None)) => digits.parse().ok(),
            None => None,
        };
        let character = named.or_else(|| number.and_then(char::from_u32));
        character.ok_or_else(|| start.error(&format!("'{whole}' stands for no character")))
    }
}

/// `text` as it is written inside an element or a value.
pub fn escape(text: &str) -> String {
    let mut escaped = String::with_capacity(text.len());
    for character in text.chars() {
        match character {
            '<' => escaped += "&lt;",
            '>' => escaped += "&gt;",
            '&' => escaped += "&amp;",
            '"' => escaped += "&quot;",
            _ => escaped.push(character),
        }
    }
    escaped
}

#[cfg(test)]
mod tests {
    use super::*;

    #[test]
    fn elements_have_text_attributes_and_lines() {
        let file = "\u{feff}<?xml version=\"1.0\"?>\n<!DOCTYPE a>\n<a b='1 &lt; 2'>\n \
                    <!-- no --><c>x &amp; <![CDATA[<y>]]></c>\n <d/>&#65;&#x42;\n</a>\n";
        let root = read(file.as_bytes()).unwrap();
        assert_eq!((root.name.as_str(), root.line), ("a", 3));
        assert_eq!(root.attribute("b"), Some("1 < 2"));
        assert_eq!(root.field("c"), "x & <y>");
        assert_eq!(root.child("d").unwrap().line, 5);
        assert_eq!(root.text.trim(), "AB");
    }

    #[test]
    fn faults_have_line_and_column() {
        let cases: [(&[u8], usize, usize, &str); 12] = [
            (b"", 1, 1, "an element is expected"),
            (
                b"<a>\n <b></a>",
                2,
                7,
                "'</b>' is expected, for the element of line 2",
            ),
            (b"<a>\n", 2, 1, "the file ends inside an element"),
            (b"<a></a> x", 1, 9, "text after the root element"),
            (b"<a>\xff</a>", 1, 4, "a byte that is not UTF-8"),
            (b"<a b=1/>", 1, 6, "a value in quotation marks is expected"),
            (b"<a b='1' b='2'/>", 1, 10, "a second attribute 'b'"),
            (b"<a>&nbsp;</a>", 1, 4, "'&nbsp;' stands for no character"),
            (
                b"<a>b & c, and more</a>",
                1,
                6,
                "'&' begins no reference; written for itself it is '&amp;'",
            ),
            (b"<a>\n<!-- x</a>", 2, 1, "this comment does not end"),
            (
                b"<!DOCTYPE a [<!ENTITY b 'c'>]><a/>",
                1,
                1,
                "a document type with declarations is not read",
            ),
            ("<a>é<1/></a>".as_bytes(), 1, 6, "a name is expected"),
        ];
        for (bytes, line, column, message) in cases {
            let message = message.to_string();
            assert_eq!(
                read(bytes),
                Err(XmlError {
                    line,
                    column,
                    message
                })
            );
        }
    }

    #[test]
    fn deep_nesting_is_refused() {
        let deep = "<a>".repeat(1_000_000);
        assert!(read(deep.as_bytes())
            .unwrap_err()
            .message
            .contains("nested deeper"));
    }

    #[test]
    fn no_damage_panics() {
        let file =
            b"<?xml version='1.0'?><a b=\"&#65;\"><!-- c --><d>&lt;<![CDATA[e]]></d><f/></a>";
        for cut in 0..file.len() {
            let _ = read(&file[..cut]);
            for byte in [0, b'<', b'>', b'&', b';', b'"', 0x80, 0xc3] {
                let mut damaged = file.to_vec();
                damaged[cut] = byte;
                let _ = read(&damaged);
            }
        }
    }

    #[test]
    fn escaped_text_reads_back() {
        let text = "a < b & \"c\" > 'd'";
        let root = read(format!("<a b=\"{0}\">{0}</a>", escape(text)).as_bytes()).unwrap();
        assert_eq!(
            (root.text.as_str(), root.attribute("b")),
            (text, Some(text))
        );
    }
}
