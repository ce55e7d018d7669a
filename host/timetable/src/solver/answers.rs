//! What solvers print, read as a model.
//!
//! | form | who prints it |
//! |---|---|
//! | `v 1 -2 3 0`, over many lines | most solvers; clasp prints such a block for each better model |
//! | `v 1 -2 3` without the 0 | z3 |
//! | `v 0110`, a bit for each variable | solvers of the newer MaxSAT form |
//! | `SAT`, then `1 -2 3 0` | minisat's result file |
//! | `(define-fun k!1 () Bool true)` | z3 with `-model` on "p wcnf" |
//!
//! The last block counts; one that is cut short only if there is no whole one.
//!
//! Lines `v` of literals, over variables of the model alone, are for the engine to
//! read (`engine::solver_text`); here they are found, and the other forms are read.

use super::Fault;
use std::ops::Range;

/// What a solver says.
#[derive(Clone, Debug, PartialEq, Eq)]
pub enum Answer {
    Model(Found),
    Unsatisfiable,
    /// No model, and no word that there is none.
    Unknown,
}

/// A model in a solver's output.
#[derive(Clone, Debug, PartialEq, Eq)]
pub struct Found {
    /// A byte, 0 or 1, for each variable; a variable that is not named has 0.
    pub model: Vec<u8>,
    /// Its lines, if they are for the engine: lines `v` of literals, none of a tail.
    pub lines: Option<Vec<u8>>,
    /// Where its lines begin in the output.
    at: usize,
    /// Whether every variable is named.
    all_named: bool,
}

/// Reads the output of a solver over a formula whose first `variables`
/// variables are the model's. Variables after them are passed over.
pub fn read(output: &[u8], variables: usize) -> Result<Answer, Fault> {
    let mut reading = Reading::new(variables);
    for line in lines(output) {
        reading.line(line)?;
    }
    Ok(reading.end())
}

/// The lines of an output, each with the byte that ends it.
fn lines(output: &[u8]) -> impl Iterator<Item = &[u8]> {
    output.split_inclusive(|&byte| byte == b'\n')
}

/// The part of an output that the engine is to read, if a line begins with v: the
/// whole output, or the lines of a model that is not all of it. None for bits and
/// where variables of a tail are named, which the engine takes for faults, and where
/// the solver says that there is no model.
pub fn for_engine(output: &[u8], variables: usize) -> Option<Range<usize>> {
    let begins_with = |kinds: &'static [u8]| move |line: &[u8]| kinds.contains(&line[0]);
    if !lines(output).any(begins_with(b"v")) {
        return None;
    }
    let whole = Some(0..output.len());
    let mut reading = Reading::new(variables);
    for line in lines(output) {
        if reading.line(line).is_err() {
            return whole;
        }
    }
    reading.blocks.end(false);
    let complete = reading.blocks.complete;
    let alone = reading.blocks.count == 1 && lines(output).all(begins_with(b"csov"));
    match reading.end() {
        Answer::Unsatisfiable => None,
        Answer::Model(found) if complete => match found.lines {
            Some(_) if alone => whole,
            // The engine reads one model, and lines c, s, o and v. But clasp prints each
            // better model after the last one's 0, and other lines may come with a model.
            Some(lines) => Some(found.at..found.at + lines.len()),
            None if found.all_named => None,
            None => whole,
        },
        _ => whole,
    }
}

/// A solver's output that is read while it comes.
pub struct Reading {
    blocks: Blocks,
    /// How many bytes have come.
    length: usize,
    unsatisfiable: bool,
    /// Whether a line of bare numbers would be one of values: as the first
    /// line, and after the word that there is a model.
    bare: bool,
}

impl Reading {
    pub fn new(variables: usize) -> Reading {
        Reading {
            blocks: Blocks::new(variables),
            length: 0,
            unsatisfiable: false,
            bare: true,
        }
    }

    /// Reads a further line, with the byte that ends it. Gives a model if the line
    /// ends one.
    pub fn line(&mut self, bytes: &[u8]) -> Result<Option<&Found>, Fault> {
        let at = self.length;
        self.length += bytes.len();
        let line = String::from_utf8_lossy(bytes.trim_ascii());
        let models = self.blocks.models;
        match Line::of(&line) {
            Line::Values(words) => {
                self.blocks.block.keep(bytes, at);
                self.blocks.values(words)?;
            }
            Line::Bare(words) if self.bare => {
                self.blocks.block.literals = false;
                self.blocks.values(words)?;
            }
            Line::Defined(text) => {
                self.blocks.block.literals = false;
                self.blocks.defined(text)?;
            }
            kind => {
                self.unsatisfiable |= matches!(kind, Line::Unsatisfiable);
                self.blocks.end(false);
            }
        }
        self.bare = match Line::of(&line) {
            Line::Satisfiable => true,
            Line::Bare(_) => self.bare,
            _ => self.bare && line.is_empty(),
        };
        match self.blocks.models > models {
            true => Ok(self.blocks.whole.as_ref()),
            false => Ok(None),
        }
    }

    /// What the whole output says.
    pub fn end(mut self) -> Answer {
        self.blocks.end(false);
        match self.blocks.whole.or(self.blocks.cut) {
            Some(found) => Answer::Model(found),
            None if self.unsatisfiable => Answer::Unsatisfiable,
            None => Answer::Unknown,
        }
    }
}

/// The model in a solver's output, or why there is none.
pub fn model(output: &[u8], variables: usize) -> Result<Vec<u8>, Fault> {
    match read(output, variables)? {
        Answer::Model(found) => Ok(found.model),
        Answer::Unsatisfiable => Err(Fault::Other(
            "the solver says that the clauses have no model".to_string(),
        )),
        Answer::Unknown => Err(Fault::Other(
            "there is no model in the solver's output".to_string(),
        )),
    }
}

/// What a line of output holds.
enum Line<'a> {
    /// The words of a line of values.
    Values(&'a str),
    /// Bare numbers, as minisat writes values.
    Bare(&'a str),
    /// A part of z3's definitions.
    Defined(&'a str),
    Satisfiable,
    Unsatisfiable,
    Other,
}

impl Line<'_> {
    fn of(line: &str) -> Line<'_> {
        if let Some(words) = line.strip_prefix('v') {
            if words.is_empty() || words.starts_with(char::is_whitespace) {
                return Line::Values(words);
            }
        }
        let status = line.strip_prefix("s ").unwrap_or(line).trim();
        if ["UNSATISFIABLE", "UNSAT", "unsat"].contains(&status) {
            return Line::Unsatisfiable;
        }
        if ["SATISFIABLE", "SAT", "sat"].contains(&status) {
            return Line::Satisfiable;
        }
        if line.starts_with("(define-fun") || line == "true)" || line == "false)" {
            return Line::Defined(line);
        }
        let digits = line.trim_start_matches('-');
        match digits.starts_with(|first: char| first.is_ascii_digit()) {
            true => Line::Bare(line),
            false => Line::Other,
        }
    }
}

/// The blocks of values.
struct Blocks {
    variables: usize,
    /// The block at hand.
    block: Block,
    /// How many blocks have ended, and how many of them were whole.
    count: usize,
    models: usize,
    /// Whether one of them named every variable.
    complete: bool,
    /// The last block that was whole, and the last that was cut short.
    whole: Option<Found>,
    cut: Option<Found>,
}

/// A block of values that has not ended.
struct Block {
    /// A value for each variable that was named.
    values: Vec<Option<bool>>,
    /// How many words it has.
    words: usize,
    /// The variable whose definition goes on in the next line.
    defining: Option<usize>,
    /// Its lines, and where they begin in the output.
    lines: Vec<u8>,
    at: usize,
    /// Whether it is in lines `v` of literals, none of them of a tail.
    literals: bool,
}

impl Block {
    fn new(variables: usize) -> Block {
        Block {
            values: vec![None; variables],
            words: 0,
            defining: None,
            lines: Vec::new(),
            at: 0,
            literals: true,
        }
    }

    /// Keeps the bytes of a line of values, which begins at the offset `at`.
    fn keep(&mut self, line: &[u8], at: usize) {
        if self.lines.is_empty() {
            self.at = at;
        }
        self.literals &= line.starts_with(b"v");
        self.lines.extend_from_slice(line);
    }

    fn set(&mut self, variable: usize, value: bool) -> Result<(), Fault> {
        self.words += 1;
        let known = variable
            .checked_sub(1)
            .and_then(|at| self.values.get_mut(at));
        let Some(known) = known else {
            self.literals = false; // a variable of the tail
            return Ok(());
        };
        if known.replace(value) == Some(!value) {
            return Err(Fault::Other(format!(
                "variable {variable} has both values in one model"
            )));
        }
        Ok(())
    }

    fn found(self) -> Found {
        let values = self.values.iter();
        Found {
            model: values.map(|&value| u8::from(value == Some(true))).collect(),
            lines: self.literals.then_some(self.lines),
            at: self.at,
            all_named: self.values.iter().all(Option::is_some),
        }
    }
}

impl Blocks {
    fn new(variables: usize) -> Blocks {
        Blocks {
            variables,
            block: Block::new(variables),
            count: 0,
            models: 0,
            complete: false,
            whole: None,
            cut: None,
        }
    }

    /// The words of a line of values.
    fn values(&mut self, line: &str) -> Result<(), Fault> {
        if self.block.words == 0 && self.is_bits(line.trim()) {
            self.block.literals = false;
            for (at, bit) in line.trim().bytes().enumerate() {
                self.block.set(at + 1, bit == b'1')?;
            }
            self.end(true);
            return Ok(());
        }
        let mut closed = false;
        for word in line.split_whitespace() {
            if closed {
                return Err(Fault::Other(format!("'{word}' stands after the closing 0")));
            }
            let number: i64 = word
                .parse()
                .map_err(|_| Fault::Other(format!("'{word}' is no value of a variable")))?;
            match usize::try_from(number.unsigned_abs()) {
                Ok(0) => closed = true,
                Ok(variable) => self.block.set(variable, number > 0)?,
                Err(_) => return Err(Fault::Other(format!("'{word}' is no variable"))),
            }
        }
        if closed {
            self.end(true);
        }
        Ok(())
    }

    /// Whether a line is one word of bits, one for each variable at least.
    fn is_bits(&self, line: &str) -> bool {
        let long = line.len() >= self.variables && !line.is_empty();
        long && line.bytes().all(|byte| byte == b'0' || byte == b'1')
    }

    /// A line of z3's definitions: `(define-fun k!1 () Bool`, then `true)`.
    fn defined(&mut self, line: &str) -> Result<(), Fault> {
        let block = &mut self.block;
        if let Some(name) = line.split_whitespace().nth(1) {
            block.defining = name.strip_prefix("k!").and_then(|name| name.parse().ok());
        }
        let value = line.split_whitespace().next_back();
        match (block.defining, value) {
            (Some(variable), Some("true)" | "false)")) => {
                block.defining = None;
                block.set(variable, value == Some("true)"))
            }
            _ => Ok(()),
        }
    }

    /// Ends the block at hand.
    fn end(&mut self, whole: bool) {
        if self.block.words == 0 && !whole {
            self.block.lines.clear();
            self.block.literals = true;
            return;
        }
        let block = std::mem::replace(&mut self.block, Block::new(self.variables));
        let found = block.found();
        self.count += 1;
        self.complete |= found.all_named;
        match whole || found.all_named {
            true => {
                self.models += 1;
                self.whole = Some(found);
            }
            false => self.cut = Some(found),
        }
    }
}

#[cfg(test)]
mod tests {
    use super::{for_engine, model, read, Answer};

    fn models(output: &str, expected: [u8; 3]) {
        assert_eq!(
            model(output.as_bytes(), 3),
            Ok(expected.to_vec()),
            "{output}"
        );
    }

    #[test]
    fn each_form_is_read() {
        models("c x\ns SATISFIABLE\nv 1 -2\nv 3 0\n", [1, 0, 1]);
        models("s SATISFIABLE\nv 1 -2 3 -4 5 0", [1, 0, 1]);
        models("s SATISFIABLE\nv 1 -2 3 -4 5 \n", [1, 0, 1]);
        models("v 1\nv -2 3\nv 0\nc done\n", [1, 0, 1]);
        models("s OPTIMUM FOUND\no 3\nv 101\n", [1, 0, 1]);
        models("v 10111\r\n", [1, 0, 1]);
        models("SAT\n1 -2 3 0\n", [1, 0, 1]);
        models("sat\n-1 2 -3", [0, 1, 0]);
        models("-1 2\n-3 0\n", [0, 1, 0]);
        models(
            "sat\n(define-fun k!2 () Bool\n  true)\n(define-fun k!1 () Bool\n  false)\n\
             (define-fun k!3 () Bool true)\n   7\n",
            [0, 1, 1],
        );
    }

    #[test]
    fn the_last_whole_block_counts() {
        models(
            "v 1 2 3 0\no 9\nv -1 -2 3 0\no 8\ns OPTIMUM FOUND\n",
            [0, 0, 1],
        );
        models("v 1 2 3 0\nv -1 2 3 0\n", [0, 1, 1]);
        models("v 1 2 3 0\nc Answer: 2\nv -1 -2", [1, 1, 1]);
        models("v 1 2", [1, 1, 0]);
        models("v 000\no 1\nv 011\n", [0, 1, 1]);
    }

    #[test]
    fn no_model_is_told() {
        for unsatisfiable in ["c\ns UNSATISFIABLE\n", "UNSAT\n", "unsat\n"] {
            let answer = read(unsatisfiable.as_bytes(), 3);
            assert_eq!(answer, Ok(Answer::Unsatisfiable));
            assert!(model(unsatisfiable.as_bytes(), 3).is_err());
        }
        for unknown in ["", "s UNKNOWN\n", "INDET\n", "unknown\n", "vary\n"] {
            assert_eq!(read(unknown.as_bytes(), 3), Ok(Answer::Unknown));
        }
    }

    /// The engine is handed `part` of `output`, over three variables.
    fn hands(output: &str, part: Option<&str>) {
        let found = for_engine(output.as_bytes(), 3);
        assert_eq!(found.map(|found| &output[found]), part, "{output}");
    }

    #[test]
    fn the_engine_is_handed_an_output_of_one_model() {
        for output in [
            "c x\no 4\ns OPTIMUM FOUND\nv 1 -2\nv 3 0\nc y\n",
            "v 1 2\nc x\nv -3",
            "v 1 2 3 0\nv\nc\n",
        ] {
            hands(output, Some(output));
        }
    }

    #[test]
    fn the_engine_is_handed_what_it_is_to_refuse() {
        for output in [
            "v",
            "v1 2 3",
            "vary\n",
            "v 1 2",
            "v 1 1 2 3",
            "v 1 -1 2 3",
            "v 1 2x 3",
            "v 01 2 3",
            "v 1 2 3\r\n",
            "v 4",
            "v 1 2 4",
            "v 1 2 0\nv 3 0",
            "v 1 2 3 0 0",
            "v 1 2 3 0\nv 4 0",
            "x\nv 1 2 0\n",
        ] {
            hands(output, Some(output));
        }
    }

    #[test]
    fn the_engine_is_handed_the_lines_of_the_last_model() {
        hands(
            "c x\nv 1\nv 2 3 0\no 4\nv -1\nv 2 3 0\no 3\n",
            Some("v -1\nv 2 3 0\n"),
        );
        hands("v 1 2 3 0\nv 1 2 -3 0", Some("v 1 2 -3 0"));
        hands("v 1 2 3 0\nc Answer: 2\nv -1 -2", Some("v 1 2 3 0\n"));
        hands("v 1 2 3 0\nv 1 2 0\n", Some("v 1 2 0\n"));
        hands("v 1 2 3 0\n\n", Some("v 1 2 3 0\n"));
        hands("$ solver x\nv\nc\nv 1 2 2 3\n", Some("v 1 2 2 3\n"));
    }

    #[test]
    fn the_engine_is_handed_no_other_form() {
        for output in [
            "",
            "c x\n",
            "x\n",
            "s UNSATISFIABLE\n",
            "s UNSATISFIABLE\nv\n",
            "v 101\n",
            "v 1 2 3 4 0\n",
            "SAT\n1 2 3 0\n",
            "(define-fun k!1 () Bool true)\n",
            " v 1 2 3 0\n",
            "verbose\nSAT\n1 2 3 0\n",
        ] {
            hands(output, None);
        }
    }

    #[test]
    fn damaged_output_is_told() {
        for damaged in ["v 1 x 0\n", "v 1 -1 0\n", "v 99999999999999999999 0\n"] {
            assert!(model(damaged.as_bytes(), 3).is_err(), "{damaged}");
        }
        for bytes in [&[0xff, b'v'][..], b"v \xff", b"v --1 0", b"v -"] {
            assert!(model(bytes, 3).is_err());
        }
        assert_eq!(model(b"v -9223372036854775808 1 0", 3), Ok(vec![1, 0, 0]));
    }
}
