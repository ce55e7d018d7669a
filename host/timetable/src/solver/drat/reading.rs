//! DRAT and DRUP proofs as solvers write them, in text and in binary.
//!
//! Text: a lemma is its literals and 0; `d` before them deletes the clause.
//! Lines that begin with `c` or `%` are comments (picosat's first line is one).
//! Binary: the byte `a` or `d`, the literals' codes 2v and 2v + 1 as numbers in
//! groups of seven bits, and 0.

use crate::number::read_number;
use crate::proof::{ADD, DELETE};
use crate::solver::literal::{Clauses, Literal};
use crate::solver::proofs::words;
use crate::solver::Fault;

/// The steps of a proof.
#[derive(Default, Debug, PartialEq, Eq)]
pub struct Drat {
    clauses: Clauses,
    deletes: Vec<bool>,
}

impl Drat {
    /// How many steps there are.
    pub fn len(&self) -> usize {
        self.deletes.len()
    }

    pub fn is_empty(&self) -> bool {
        self.deletes.is_empty()
    }

    /// Whether the step at `place`, from 0, deletes its clause.
    pub fn deletes(&self, place: usize) -> bool {
        self.deletes[place]
    }

    /// Copies the literals of the step at `place`, each once. False if both
    /// signs of a variable are among them.
    pub fn clean(&self, place: usize, literals: &mut Vec<Literal>) -> bool {
        literals.clear();
        literals.extend_from_slice(self.clauses.get(place));
        literals.sort_unstable();
        literals.dedup();
        let both = |pair: &[Literal]| pair[0].variable() == pair[1].variable();
        !literals.windows(2).any(both)
    }

    /// The largest variable named, 0 if there is none.
    pub fn largest_variable(&self) -> u32 {
        let largest = |clause: &[Literal]| clause.iter().map(|l| l.variable()).max();
        self.clauses.iter().filter_map(largest).max().unwrap_or(0)
    }

    fn push(&mut self, deletes: bool, literals: &[Literal]) {
        self.clauses.push(literals);
        self.deletes.push(deletes);
    }
}

/// Reads a proof in text.
pub fn from_text(text: &[u8]) -> Result<Drat, Fault> {
    let mut proof = Drat::default();
    let mut literals = Vec::new();
    // Whether the step at hand deletes; none between steps.
    let mut at_hand = None;
    for word in words(text) {
        let step = proof.len() + 1;
        match (word, at_hand) {
            (b"d", None) => at_hand = Some(true),
            (b"0", _) => {
                proof.push(at_hand == Some(true), &literals);
                literals.clear();
                at_hand = None;
            }
            (word, _) => {
                literals.push(literal(word).ok_or_else(|| no_literal(step, word))?);
                at_hand = at_hand.or(Some(false));
            }
        }
    }
    match at_hand {
        None => Ok(proof),
        Some(_) => Err(Fault::Other(format!(
            "step {} of the proof has no closing 0: it is cut short",
            proof.len() + 1
        ))),
    }
}

/// The literal that a word of text spells.
fn literal(word: &[u8]) -> Option<Literal> {
    Literal::from_signed(std::str::from_utf8(word).ok()?.parse().ok()?)
}

fn no_literal(step: usize, word: &[u8]) -> Fault {
    let word = String::from_utf8_lossy(&word[..word.len().min(20)]).into_owned();
    Fault::Other(format!(
        "step {step} of the proof has '{word}' where a literal or 0 is wanted"
    ))
}

/// Reads a proof in binary.
pub fn from_binary(bytes: &[u8]) -> Result<Drat, Fault> {
    let mut proof = Drat::default();
    let mut literals = Vec::new();
    let mut at = 0;
    while let Some(&kind) = bytes.get(at) {
        let wrong = |what: &str| {
            let step = proof.len() + 1;
            Fault::Other(format!("step {step} of the proof, at offset {at}, {what}"))
        };
        if kind != ADD && kind != DELETE {
            return Err(wrong("begins with neither 'a' nor 'd'"));
        }
        let mut next = at + 1;
        literals.clear();
        loop {
            let number = read_number(bytes, next);
            let (code, after) = number.ok_or_else(|| wrong("is cut short or has a bad number"))?;
            next = after;
            if code == 0 {
                break;
            }
            literals.push(Literal::from_code(code).ok_or_else(|| wrong("has a bad literal"))?);
        }
        proof.push(kind == DELETE, &literals);
        at = next;
    }
    Ok(proof)
}

#[cfg(test)]
mod tests {
    use super::{from_binary, from_text};

    #[test]
    fn text_and_binary_agree() {
        let text = b"c a comment d 1 0\n%RUPD32 2 3   \n1 -2 0\nd  2\n 1 0\n-63 0\r\n0\n";
        let binary = [
            &[b'a', 2, 5, 0][..],
            &[b'd', 4, 2, 0],
            &[b'a', 127, 0],
            &[b'a', 0],
        ];
        let proof = from_text(text).unwrap();
        assert_eq!(proof, from_binary(&binary.concat()).unwrap());
        assert_eq!(proof.len(), 4);
        assert_eq!(proof.largest_variable(), 63);
    }

    #[test]
    fn doubled_literals_count_once_and_both_signs_are_told() {
        let proof = from_text(b"2 1 2 0 1 -1 0").unwrap();
        let mut literals = Vec::new();
        assert!(proof.clean(0, &mut literals));
        assert_eq!(literals.len(), 2);
        assert!(!proof.clean(1, &mut literals));
    }

    #[test]
    fn damaged_proofs_are_told() {
        for text in [
            "1 2",
            "d",
            "1 d 2 0",
            "x 0",
            "1 99999999999999999999 0",
            "1 2147483648 0",
        ] {
            assert!(from_text(text.as_bytes()).is_err(), "{text}");
        }
        for bytes in [
            &b"b"[..],
            b"a",
            b"a\x02",
            b"a\x01\0",
            b"a\x80\x00\0",
            b"d\xff\xff\xff\xff\xff\0",
        ] {
            assert!(from_binary(bytes).is_err(), "{bytes:?}");
        }
    }
}
