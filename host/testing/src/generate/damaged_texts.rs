//! Damaged texts of solvers, with the refusal that each earns.

use super::random::Random;
use super::solver_texts::{literal, printed, Line, Place, Printed, Word};
use crate::reference::Refusal;
use std::cmp::Ordering;

/// A text that is refused, with a name for why, and the refusal.
pub struct DamagedText {
    pub name: &'static str,
    pub text: Vec<u8>,
    pub refusal: Refusal,
}

/// Texts that are each refused by 20 or 21 for another reason, made of one in which
/// `model` is printed.
pub fn damaged_texts(random: &mut Random, model: &[u8]) -> Vec<DamagedText> {
    let mut damager = Damager::new(random, model);
    for damage in DAMAGES {
        damage(&mut damager, random);
    }
    damager.damaged
}

/// One such text.
pub fn damaged_text(random: &mut Random, model: &[u8]) -> DamagedText {
    loop {
        let mut damager = Damager::new(random, model);
        let damage = random.pick(&DAMAGES);
        damage(&mut damager, random);
        let mut damaged = damager.damaged;
        if !damaged.is_empty() {
            return damaged.swap_remove(random.below(damaged.len()));
        }
    }
}

type Damage = fn(&mut Damager, &mut Random);

/// What makes damaged texts, each for reasons of one sort.
const DAMAGES: [Damage; 9] = [
    |damager, random| damager.lines(random),
    |damager, random| damager.after_v(random),
    |damager, random| damager.out_of_range(random),
    |damager, random| damager.malformed(random),
    |damager, random| damager.after_0(random),
    |damager, random| damager.missing(random),
    |damager, random| damager.given_again(random),
    |damager, random| damager.missing_and_given_again(random),
    |damager, random| damager.several(random),
];

/// A text that is well formed, and what was made of it.
struct Damager<'a> {
    printed: Printed,
    model: &'a [u8],
    damaged: Vec<DamagedText>,
}

impl<'a> Damager<'a> {
    fn new(random: &mut Random, model: &'a [u8]) -> Damager<'a> {
        Damager {
            printed: printed(random, model),
            model,
            damaged: Vec::new(),
        }
    }

    fn add(&mut self, name: &'static str, printed: &Printed, number: u32, value: usize) {
        let value = value as u64;
        self.damaged.push(DamagedText {
            name,
            text: printed.text(),
            refusal: Refusal { number, value },
        });
    }

    /// The place of a literal.
    fn some_literal(&self, random: &mut Random) -> Place {
        random.pick(&self.printed.literals())
    }

    /// The text with another word at a place.
    fn with_word(&self, [line, word]: Place, bytes: &[u8]) -> Printed {
        let mut changed = self.printed.clone();
        changed.lines[line].words_mut()[word].bytes = bytes.to_vec();
        changed
    }

    /// The text with one more word, after the word at a place or before it.
    fn with_more(&self, [line, word]: Place, bytes: &[u8], after: bool) -> Printed {
        let mut changed = self.printed.clone();
        let more = Word {
            before: 1,
            bytes: bytes.to_vec(),
        };
        let at = word + usize::from(after);
        changed.lines[line].words_mut().insert(at, more);
        changed
    }

    /// A literal of a variable, with either sign.
    fn any_literal(&self, random: &mut Random) -> Vec<u8> {
        let variable = 1 + random.below(self.model.len());
        literal(variable, random.below(2) as u8)
    }

    /// A line of another kind.
    fn lines(&mut self, random: &mut Random) {
        let at = random.below(self.printed.lines.len() + 1);
        let others: [&[u8]; 9] = [
            b"x",
            b"V 1",
            b" v 1",
            b"1 2 0",
            b"\r",
            b"\0",
            b"\xff",
            b"p wcnf 4 8 5",
            b"\t",
        ];
        let other = random.pick(&others);
        for (name, line) in [("an empty line", &b""[..]), ("another line", other)] {
            let mut changed = self.printed.clone();
            changed.lines.insert(at, Line::Other(line.to_vec()));
            // An empty line at the end is none unless byte 10 ends it.
            changed.ended |= line.is_empty();
            self.add(name, &changed, 20, changed.line_offset(at));
        }
    }

    /// Another byte than a space right after a v.
    fn after_v(&mut self, random: &mut Random) {
        let mut changed = self.printed.clone();
        let of_values: Vec<usize> = (0..changed.lines.len())
            .filter(|&line| matches!(changed.lines[line], Line::Values { .. }))
            .collect();
        let line = random.pick(&of_values);
        let words = changed.lines[line].words_mut();
        let other = random.pick(&[&b"\t1"[..], b"\r", b"1", b"-1", b"0", b"v", b"x 1"]);
        match words.first_mut() {
            Some(first) if random.chance(50) => first.before = 0,
            _ => words.insert(
                0,
                Word {
                    before: 0,
                    bytes: other.to_vec(),
                },
            ),
        }
        let offset = changed.line_offset(line) + 1;
        self.add("a byte right after v", &changed, 20, offset);
    }

    /// A literal of no variable.
    fn out_of_range(&mut self, random: &mut Random) {
        let place = self.some_literal(random);
        let number = variable(self.printed.word(place));
        let one_more = self.model.len() + 1;
        let above: [String; 8] = [
            format!("{one_more}"),
            format!("-{one_more}"),
            format!("{number}0000000"),
            format!("{}", (1u64 << 32) + number as u64),
            format!("-{}", (1u128 << 64) + number as u128),
            "99999999999999999999".into(),
            "4294967296".into(),
            format!("{number}{}", "0".repeat(40)),
        ];
        let above = &above[random.below(above.len())];
        let changed = self.with_word(place, above.as_bytes());
        self.add("out of range", &changed, 20, changed.offset(place));
    }

    /// A word that is no literal.
    fn malformed(&mut self, random: &mut Random) {
        let place = self.some_literal(random);
        let word = self.printed.word(place).to_vec();
        let number = variable(&word);
        let [plain, minus] = [literal(number, 1), literal(number, 0)];
        let bad: [(&'static str, Vec<u8>); 11] = [
            ("a plus", [b"+", &plain[..]].concat()),
            ("a leading 0", [b"0", &plain[..]].concat()),
            ("a leading 0 after a minus", [b"-0", &plain[..]].concat()),
            ("a minus alone", b"-".to_vec()),
            ("a plus alone", b"+".to_vec()),
            ("minus 0", b"-0".to_vec()),
            ("zeros", b"00".to_vec()),
            ("two minuses", [b"-", &minus[..]].concat()),
            ("byte 13 at its end", [&word[..], b"\r"].concat()),
            ("a tab at its end", [&word[..], b"\t1"].concat()),
            ("another byte", another_byte(random, &word)),
        ];
        for (name, bytes) in bad {
            let changed = self.with_word(place, &bytes);
            self.add(name, &changed, 20, changed.offset(place));
        }
    }

    /// A word after the 0, in its line or a later one; a 0 before the last literal.
    fn after_0(&mut self, random: &mut Random) {
        let any = self.any_literal(random);
        let words = [&any[..], b"0", b"x", b"-0"];
        for (name, later) in [
            ("a word after the 0", false),
            ("a line of a word after the 0", true),
        ] {
            let mut changed = self.printed.clone();
            let last = changed.places().last().copied().expect("a word");
            let mut line = last[0];
            if changed.word(last) != b"0" {
                changed.lines[line]
                    .words_mut()
                    .push(Word::new(random, b"0"));
            }
            let bytes = random.pick(&words);
            let word = Word::new(random, bytes);
            if later {
                line += 1 + random.below(changed.lines.len() - line);
                changed.lines.insert(line, Line::of(Vec::new()));
            }
            changed.lines[line].words_mut().push(word);
            let place = changed.places().last().copied().expect("a word");
            self.add(name, &changed, 20, changed.offset(place));
        }
        let [line, word] = self.some_literal(random);
        let changed = self.with_more([line, word], b"0", false);
        let next = changed.offset([line, word + 1]);
        self.add("a 0 before a literal", &changed, 20, next);
    }

    /// A variable that is missing.
    fn missing(&mut self, random: &mut Random) {
        let [line, word] = self.some_literal(random);
        let number = variable(self.printed.word([line, word]));
        let mut changed = self.printed.clone();
        changed.lines[line].words_mut().remove(word);
        self.add("missing", &changed, 21, number);
        let mut none = self.printed.clone();
        none.lines.retain(|line| matches!(line, Line::Other(_)));
        none.ended &= !none.lines.is_empty();
        self.add("no line of values", &none, 21, 1);
    }

    /// A variable that is given more than once.
    fn given_again(&mut self, random: &mut Random) {
        let place = self.some_literal(random);
        let word = self.printed.word(place).to_vec();
        let number = variable(&word);
        let opposite = literal(number, 1 - self.model[number - 1]);
        // A place before the 0, anywhere.
        let other = self.some_literal(random);
        let changed = self.with_more(other, &word, random.chance(50));
        self.add("given twice", &changed, 21, number);
        let changed = self.with_more(other, &opposite, random.chance(50));
        self.add("given twice, with both signs", &changed, 21, number);
        let mut changed = self.with_more(place, &word, true);
        let third = random.pick(&[&word[..], &opposite]);
        let more = Word::new(random, third);
        changed.lines[place[0]].words_mut().insert(place[1], more);
        self.add("given three times", &changed, 21, number);
    }

    /// A variable that is missing, with another one in its place.
    fn missing_and_given_again(&mut self, random: &mut Random) {
        let place = self.some_literal(random);
        let missing = variable(self.printed.word(place));
        let again = self.any_literal(random);
        let changed = self.with_word(place, &again);
        let again = variable(&again);
        let name = match missing.cmp(&again) {
            Ordering::Less => "missing below one given twice",
            Ordering::Greater => "given twice below one missing",
            // The same variable, with either sign, is given once.
            Ordering::Equal => return,
        };
        self.add(name, &changed, 21, missing.min(again));
    }

    /// A literal given twice, and a bad word or line after it.
    fn several(&mut self, random: &mut Random) {
        let place = self.some_literal(random);
        let word = self.printed.word(place).to_vec();
        let mut changed = self.with_more(place, &word, true);
        changed.ended = true;
        changed.lines.push(Line::Other(b"x".to_vec()));
        let offset = changed.line_offset(changed.lines.len() - 1);
        self.add("given twice, then another line", &changed, 20, offset);
        let bad = format!("{}", self.model.len() + 1);
        let [line, at] = place;
        let mut changed = self.with_more(place, &word, true);
        let more = Word::new(random, bad.as_bytes());
        changed.lines[line].words_mut().insert(at + 2, more);
        let offset = changed.offset([line, at + 2]);
        self.add("given twice, then out of range", &changed, 20, offset);
    }
}

/// The word with a byte in it or behind it that is no digit.
fn another_byte(random: &mut Random, word: &[u8]) -> Vec<u8> {
    let byte = random.pick(b"x-+.,;:/*e\t\r\0\x0b\xa0\xff");
    let mut bytes = word.to_vec();
    bytes.insert(1 + random.below(word.len()), byte);
    bytes
}

/// The variable of a literal.
fn variable(literal: &[u8]) -> usize {
    let text = std::str::from_utf8(literal).expect("digits");
    text.trim_start_matches('-').parse().expect("a variable")
}
