//! Literals, and lists of clauses over them.

use std::ops::Not;

/// A variable or its negation in the code of bound proofs: v is 2v, not v is 2v + 1.
#[derive(Clone, Copy, Debug, PartialEq, Eq, PartialOrd, Ord, Hash)]
pub struct Literal(u32);

impl Literal {
    /// The largest variable that has a code.
    pub const LARGEST_VARIABLE: u32 = (u32::MAX - 1) / 2;

    pub fn positive(variable: u32) -> Literal {
        Literal(2 * variable)
    }

    /// The literal with this code. Codes 0 and 1 are no literals.
    pub fn from_code(code: u32) -> Option<Literal> {
        (code >= 2).then_some(Literal(code))
    }

    /// The literal with a code that was taken from a literal.
    pub(super) fn of_code(code: u32) -> Literal {
        debug_assert!(code >= 2);
        Literal(code)
    }

    /// The literal that solvers write as `number`: v, or -v for not v.
    pub fn from_signed(number: i64) -> Option<Literal> {
        let variable = u32::try_from(number.unsigned_abs()).ok()?;
        let fits = (1..=Literal::LARGEST_VARIABLE).contains(&variable);
        fits.then(|| Literal(2 * variable + u32::from(number < 0)))
    }

    pub fn code(self) -> u32 {
        self.0
    }

    /// The code as an index.
    pub fn index(self) -> usize {
        self.0 as usize
    }

    /// The variable of this literal, from 1.
    pub fn variable(self) -> u32 {
        self.0 / 2
    }

    pub fn is_negated(self) -> bool {
        self.0 % 2 == 1
    }

    /// The literal as solvers write it.
    pub fn signed(self) -> i64 {
        let variable = i64::from(self.variable());
        match self.is_negated() {
            true => -variable,
            false => variable,
        }
    }
}

impl Not for Literal {
    type Output = Literal;

    fn not(self) -> Literal {
        Literal(self.0 ^ 1)
    }
}

/// Clauses one after the other in one list of literals.
#[derive(Clone, Debug, Default, PartialEq, Eq)]
pub struct Clauses {
    literals: Vec<Literal>,
    /// Where each clause ends.
    ends: Vec<usize>,
}

impl Clauses {
    pub fn push(&mut self, clause: &[Literal]) {
        self.literals.extend_from_slice(clause);
        self.ends.push(self.literals.len());
    }

    pub fn len(&self) -> usize {
        self.ends.len()
    }

    pub fn is_empty(&self) -> bool {
        self.ends.is_empty()
    }

    /// The literals of all clauses together.
    pub fn words(&self) -> usize {
        self.literals.len()
    }

    /// The clause at `place`, from 0.
    pub fn get(&self, place: usize) -> &[Literal] {
        let first = match place {
            0 => 0,
            _ => self.ends[place - 1],
        };
        &self.literals[first..self.ends[place]]
    }

    pub fn iter(&self) -> impl Iterator<Item = &[Literal]> {
        (0..self.len()).map(|place| self.get(place))
    }
}

#[cfg(test)]
mod tests {
    use super::{Clauses, Literal};

    #[test]
    fn codes_and_signs_agree() {
        for number in [1, -1, 7, -7, i64::from(Literal::LARGEST_VARIABLE)] {
            let literal = Literal::from_signed(number).unwrap();
            assert_eq!(literal.signed(), number);
            assert_eq!(Literal::from_code(literal.code()), Some(literal));
            assert_eq!((!literal).signed(), -number);
        }
        let above = i64::from(Literal::LARGEST_VARIABLE) + 1;
        for number in [0, above, -above, i64::MIN, i64::MAX] {
            assert_eq!(Literal::from_signed(number), None);
        }
        assert_eq!(Literal::from_code(1), None);
    }

    #[test]
    fn clauses_keep_their_order() {
        let mut clauses = Clauses::default();
        let [a, b] = [1, -2].map(|number| Literal::from_signed(number).unwrap());
        clauses.push(&[a, b]);
        clauses.push(&[]);
        clauses.push(&[b]);
        let lists: Vec<&[Literal]> = clauses.iter().collect();
        assert_eq!(lists, [&[a, b][..], &[], &[b]]);
        assert_eq!((clauses.len(), clauses.words()), (3, 3));
    }
}
