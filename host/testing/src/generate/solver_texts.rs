//! Texts of solvers: a model printed in any form that reads back as that model.

use super::random::Random;

/// A text as its lines.
#[derive(Clone, Debug)]
pub struct Printed {
    pub lines: Vec<Line>,
    /// Whether the last line ends in byte 10 too.
    pub ended: bool,
}

#[derive(Clone, Debug)]
pub enum Line {
    /// A line of values: a v, its words, then so many spaces.
    Values { words: Vec<Word>, after: usize },
    /// Any other bytes.
    Other(Vec<u8>),
}

/// What stands between spaces, with how many stand before it.
#[derive(Clone, Debug)]
pub struct Word {
    pub before: usize,
    pub bytes: Vec<u8>,
}

impl Word {
    pub(super) fn new(random: &mut Random, bytes: &[u8]) -> Word {
        let before = match random.chance(90) {
            true => 1,
            false => 2 + random.below(3),
        };
        Word {
            before,
            bytes: bytes.to_vec(),
        }
    }

    fn length(&self) -> usize {
        self.before + self.bytes.len()
    }
}

impl Line {
    pub(super) fn of(words: Vec<Word>) -> Line {
        Line::Values { words, after: 0 }
    }

    fn bytes(&self) -> Vec<u8> {
        let (words, after) = match self {
            Line::Other(bytes) => return bytes.clone(),
            Line::Values { words, after } => (words, after),
        };
        let mut bytes = b"v".to_vec();
        for word in words {
            bytes.extend(vec![b' '; word.before]);
            bytes.extend(&word.bytes);
        }
        bytes.extend(vec![b' '; *after]);
        bytes
    }

    pub fn words(&self) -> &[Word] {
        match self {
            Line::Values { words, .. } => words,
            Line::Other(_) => &[],
        }
    }

    pub(super) fn words_mut(&mut self) -> &mut Vec<Word> {
        match self {
            Line::Values { words, .. } => words,
            Line::Other(_) => panic!("a line without words"),
        }
    }
}

/// The place of a word: its line, and which of the line's words it is.
pub(super) type Place = [usize; 2];

impl Printed {
    pub fn text(&self) -> Vec<u8> {
        let lines: Vec<Vec<u8>> = self.lines.iter().map(Line::bytes).collect();
        let mut text = lines.join(&b'\n');
        text.extend(self.ended.then_some(b'\n'));
        text
    }

    /// The offset at which a line begins.
    pub(super) fn line_offset(&self, line: usize) -> usize {
        let before = self.lines[..line].iter();
        before.map(|line| line.bytes().len() + 1).sum()
    }

    /// The offset of a word's first byte.
    pub(super) fn offset(&self, [line, word]: Place) -> usize {
        let words = &self.lines[line].words()[..=word];
        let length: usize = words.iter().map(Word::length).sum();
        self.line_offset(line) + 1 + length - words[word].bytes.len()
    }

    /// The places of all words, in their order.
    pub(super) fn places(&self) -> Vec<Place> {
        let lines = self.lines.iter().enumerate();
        let places =
            lines.flat_map(|(at, line)| (0..line.words().len()).map(move |word| [at, word]));
        places.collect()
    }

    pub fn words(&self) -> impl Iterator<Item = &[u8]> {
        let words = self.lines.iter().flat_map(Line::words);
        words.map(|word| &word.bytes[..])
    }

    pub(super) fn word(&self, [line, word]: Place) -> &[u8] {
        &self.lines[line].words()[word].bytes
    }

    /// The places of the literals: of all words but the closing 0.
    pub(super) fn literals(&self) -> Vec<Place> {
        let mut places = self.places();
        places.retain(|&place| self.word(place) != b"0");
        places
    }
}

/// A literal without a minus if `value` is 1.
pub(super) fn literal(variable: usize, value: u8) -> Vec<u8> {
    let sign = if value == 1 { "" } else { "-" };
    format!("{sign}{variable}").into_bytes()
}

/// A model as a text in any form that reads back as it.
pub fn printed(random: &mut Random, model: &[u8]) -> Printed {
    let literals = in_some_order(random, model);
    let breaks = random.pick(&[0, 0, 3, 30, 100]);
    let mut lines = vec![Line::of(Vec::new())];
    for literal in &literals {
        if random.chance(breaks) {
            lines.push(Line::of(Vec::new()));
        }
        let last = lines.last_mut().expect("a line");
        last.words_mut().push(Word::new(random, literal));
    }
    let closing = Word::new(random, b"0");
    match random.below(3) {
        0 => {}
        1 => lines.last_mut().expect("a line").words_mut().push(closing),
        _ => lines.push(Line::of(vec![closing])),
    }
    let others = random.pick(&[0, 0, 10, 50]);
    let mut all = Vec::new();
    for line in lines {
        all.push(line);
        while random.chance(others) {
            all.push(ignored_line(random));
        }
    }
    while random.chance(others) {
        all.insert(0, ignored_line(random));
    }
    for line in &mut all {
        if let Line::Values { after, .. } = line {
            *after = random.pick(&[0, 0, 0, 0, 1, 3]);
        }
    }
    Printed {
        lines: all,
        ended: random.chance(70),
    }
}

/// The literals of a model by ascending variable.
fn literals(model: &[u8]) -> impl Iterator<Item = Vec<u8>> + '_ {
    let numbered = model.iter().enumerate();
    numbered.map(|(at, &value)| literal(at + 1, value))
}

/// The same, ascending, descending or in any order.
fn in_some_order(random: &mut Random, model: &[u8]) -> Vec<Vec<u8>> {
    let mut literals: Vec<Vec<u8>> = literals(model).collect();
    match random.below(4) {
        0 => literals.reverse(),
        1 => shuffle(random, &mut literals),
        _ => {}
    }
    literals
}

fn shuffle<T>(random: &mut Random, things: &mut [T]) {
    for at in (1..things.len()).rev() {
        things.swap(at, random.below(at + 1));
    }
}

/// A line that gives no literal: of values without a word, or with c, s or o first
/// and then any bytes.
fn ignored_line(random: &mut Random) -> Line {
    let said: [&[u8]; 10] = [
        b"c",
        b"o",
        b"s",
        b"c hello",
        b"o 12",
        b"s OPTIMUM FOUND",
        b"cv 1 2 0",
        b"sat\r",
        b"over 0 x",
        b"c\t\0\xff",
    ];
    match random.below(4) {
        0 => Line::of(Vec::new()),
        1 => {
            let first = random.pick(b"cso");
            let rest = (0..random.below(6)).map(|_| random.draw() as u8);
            let rest = rest.map(|byte| if byte == b'\n' { b' ' } else { byte });
            Line::Other([first].into_iter().chain(rest).collect())
        }
        _ => Line::Other(random.pick(&said).to_vec()),
    }
}

/// A model as solvers print it: literals in lines of at most `width` bytes, or of one
/// literal, and the closing 0.
pub fn wrapped(model: &[u8], width: usize) -> Vec<u8> {
    in_lines(literals(model), width)
}

/// The same with the literals in any order.
pub fn scattered(random: &mut Random, model: &[u8], width: usize) -> Vec<u8> {
    let mut literals: Vec<Vec<u8>> = literals(model).collect();
    shuffle(random, &mut literals);
    in_lines(literals, width)
}

fn in_lines(literals: impl IntoIterator<Item = Vec<u8>>, width: usize) -> Vec<u8> {
    let mut text = Vec::new();
    let mut begin = 0;
    for word in literals.into_iter().chain([b"0".to_vec()]) {
        if text.is_empty() || text.len() - begin + 1 + word.len() > width {
            text.extend((!text.is_empty()).then_some(b'\n'));
            begin = text.len();
            text.push(b'v');
        }
        text.push(b' ');
        text.extend(word);
    }
    text.push(b'\n');
    text
}
