//! LRAT proofs as solvers write them, in text and in binary.
//!
//! Text: `id literals 0 hints 0` adds a clause, `id d ids 0` deletes some.
//! Binary: the byte `a`, id, literals' codes, 0, hints, 0; or `d`, ids, 0; all
//! numbers in groups of seven bits.

use crate::number::read_number;
use crate::proof::{ADD, DELETE};
use crate::solver::literal::Literal;
use crate::solver::proofs::words;
use crate::solver::Fault;
use std::ops::Range;

/// A step; its lists stand in the proof.
#[derive(Clone, Debug, PartialEq, Eq)]
pub enum Step {
    Add {
        id: u64,
        literals: Range<usize>,
        hints: Range<usize>,
    },
    Delete {
        ids: Range<usize>,
    },
}

/// The steps of a proof.
#[derive(Default, Debug, PartialEq, Eq)]
pub struct Lrat {
    pub steps: Vec<Step>,
    literals: Vec<Literal>,
    ids: Vec<u64>,
}

impl Lrat {
    pub fn literals(&self, range: &Range<usize>) -> &[Literal] {
        &self.literals[range.clone()]
    }

    pub fn ids(&self, range: &Range<usize>) -> &[u64] {
        &self.ids[range.clone()]
    }
}

/// Which ids a binary proof doubles, so that the lowest bit is their sign.
#[derive(Clone, Copy, Debug)]
pub struct Numbering {
    added: bool,
    hints: bool,
    deleted: bool,
}

/// The numberings that are tried, in this order.
pub const NUMBERINGS: [Numbering; 8] = {
    let plain = Numbering {
        added: false,
        hints: false,
        deleted: false,
    };
    let mut all = [plain; 8];
    let mut at = 0;
    while at < 8 {
        all[at] = Numbering {
            added: at & 4 != 0,
            hints: at & 1 != 0,
            deleted: at & 2 != 0,
        };
        at += 1;
    }
    all
};

fn rat(step: usize) -> Fault {
    Fault::Other(format!(
        "step {step} of the proof is a RAT step (it has a negative hint), which the checker has not"
    ))
}

fn wrong(step: usize, what: &str) -> Fault {
    Fault::Other(format!("step {step} of the proof {what}"))
}

/// Reads a proof in text.
pub fn from_text(text: &[u8]) -> Result<Lrat, Fault> {
    let mut proof = Lrat::default();
    let mut words = words(text).peekable();
    while let Some(word) = words.next() {
        let step = proof.steps.len() + 1;
        let id = u64::try_from(signed(Some(word), step)?);
        let id = id.map_err(|_| wrong(step, "has a negative id"))?;
        let deletes = words.next_if_eq(&&b"d"[..]).is_some();
        let first_literal = proof.literals.len();
        if !deletes {
            list(&mut proof.literals, || {
                let number = signed(words.next(), step)?;
                let literal = || Literal::from_signed(number);
                end_or(number, || {
                    literal().ok_or_else(|| wrong(step, "has a literal too large"))
                })
            })?;
        }
        let first_id = proof.ids.len();
        list(&mut proof.ids, || {
            let number = signed(words.next(), step)?;
            end_or(number, || u64::try_from(number).map_err(|_| rat(step)))
        })?;
        proof.end_step(deletes, id, first_literal, first_id);
    }
    Ok(proof)
}

/// Reads a proof in binary.
pub fn from_binary(bytes: &[u8], numbering: Numbering) -> Result<Lrat, Fault> {
    let mut proof = Lrat::default();
    let mut at = 0;
    while let Some(&kind) = bytes.get(at) {
        let step = proof.steps.len() + 1;
        at += 1;
        let deletes = match kind {
            ADD => false,
            DELETE => true,
            _ => return Err(wrong(step, "begins with neither 'a' nor 'd'")),
        };
        let mut id = 0;
        let mut doubled = numbering.deleted;
        let first_literal = proof.literals.len();
        if !deletes {
            id = plain(unsigned(bytes, &mut at, step)?, numbering.added, step)?;
            doubled = numbering.hints;
            list(&mut proof.literals, || {
                let code = unsigned(bytes, &mut at, step)?;
                let literal = || Literal::from_code(code);
                end_or(i64::from(code), || {
                    literal().ok_or_else(|| wrong(step, "has a bad literal"))
                })
            })?;
        }
        let first_id = proof.ids.len();
        list(&mut proof.ids, || {
            let number = unsigned(bytes, &mut at, step)?;
            end_or(i64::from(number), || plain(number, doubled, step))
        })?;
        proof.end_step(deletes, id, first_literal, first_id);
    }
    Ok(proof)
}

/// Appends what `next` gives, up to its end.
fn list<T>(
    list: &mut Vec<T>,
    mut next: impl FnMut() -> Result<Option<T>, Fault>,
) -> Result<(), Fault> {
    while let Some(one) = next()? {
        list.push(one);
    }
    Ok(())
}

/// Nothing for 0, which ends a list, and else what `number` stands for.
fn end_or<T>(number: i64, meant: impl FnOnce() -> Result<T, Fault>) -> Result<Option<T>, Fault> {
    match number {
        0 => Ok(None),
        _ => meant().map(Some),
    }
}

/// The number that a word of text spells.
fn signed(word: Option<&[u8]>, step: usize) -> Result<i64, Fault> {
    let word = word.ok_or_else(|| wrong(step, "is cut short"))?;
    let number = std::str::from_utf8(word).ok().and_then(|w| w.parse().ok());
    number.ok_or_else(|| wrong(step, "has a word that is no number"))
}

/// The number at `at`, which moves on behind it.
fn unsigned(bytes: &[u8], at: &mut usize, step: usize) -> Result<u32, Fault> {
    let read = read_number(bytes, *at);
    let (number, next) = read.ok_or_else(|| wrong(step, "is cut short or has a bad number"))?;
    *at = next;
    Ok(number)
}

/// An id as it is meant; a doubled one with its lowest bit set is negative.
fn plain(number: u32, doubled: bool, step: usize) -> Result<u64, Fault> {
    let number = u64::from(number);
    match doubled {
        false => Ok(number),
        true if number % 2 == 0 => Ok(number / 2),
        true => Err(rat(step)),
    }
}

impl Lrat {
    fn end_step(&mut self, deletes: bool, id: u64, first_literal: usize, first_id: usize) {
        let ids = first_id..self.ids.len();
        self.steps.push(match deletes {
            true => Step::Delete { ids },
            false => Step::Add {
                id,
                literals: first_literal..self.literals.len(),
                hints: ids,
            },
        });
    }
}
