//! The formula that a solver is given: the hard clauses, read off the engine's
//! own text, and the tail for a bound.
//!
//! Nothing here has to be believed: a model of other clauses is refused by the
//! decoder, and a proof over other clauses by the checker. The sizes are still
//! held to the engine's, so that a mistake is told before a solver is started.

use super::literal::{Clauses, Literal};
use super::Fault;
use crate::engine::{self, FormulaSize};

/// A soft unit: what it weighs if it is false.
#[derive(Clone, Copy, Debug, PartialEq, Eq)]
pub struct Soft {
    pub weight: u32,
    pub unit: Literal,
}

/// Clauses with their variables. The clause at place i has id i + 1.
#[derive(Clone, Debug, Default, PartialEq, Eq)]
pub struct Formula {
    pub variables: u32,
    pub clauses: Clauses,
    pub soft: Vec<Soft>,
}

impl Formula {
    /// The hard clauses and the soft units of an instance file, or 1 to 6, 8, 19, 22.
    pub fn of(file: &[u8]) -> Result<Formula, Fault> {
        Formula::from_text(&engine::text(file)?)
    }

    /// The formula of a file with the tail for `bound`, or 1 to 8, 19, 22.
    pub fn at_bound(file: &[u8], bound: u64) -> Result<Formula, Fault> {
        let wanted = engine::sizes(file, bound)?;
        Formula::of(file)?.with_tail(bound, wanted)
    }

    /// This formula with the tail for `bound`, if it then has the size that the
    /// engine says, `wanted`.
    pub fn with_tail(mut self, bound: u64, wanted: FormulaSize) -> Result<Formula, Fault> {
        self.append_tail(bound as u32);
        let found = self.size();
        match found == wanted {
            true => Ok(self),
            false => Err(Fault::Other(format!(
                "the clauses written have {found:?}, the engine's have {wanted:?}"
            ))),
        }
    }

    pub fn size(&self) -> FormulaSize {
        FormulaSize {
            variables: u64::from(self.variables),
            clauses: self.clauses.len() as u64,
            words: self.clauses.words() as u64,
        }
    }

    /// The formula that a "p wcnf" text holds, its lines held to its header.
    pub fn from_text(text: &[u8]) -> Result<Formula, Fault> {
        let wrong = |what: &str| Fault::Other(format!("the clauses' text {what}"));
        let text = std::str::from_utf8(text).map_err(|_| wrong("is not text"))?;
        let mut lines = text.lines();
        let header = lines.next().and_then(header);
        let (variables, clauses, top) = header.ok_or_else(|| wrong("has no header"))?;
        let mut formula = Formula {
            variables,
            ..Formula::default()
        };
        let mut clause = Vec::new();
        for line in lines {
            let weight = numbers(line, &mut clause, variables);
            match weight.ok_or_else(|| wrong("has a line that is no clause"))? {
                weight if weight == top => formula.clauses.push(&clause),
                weight => formula.soft.push(Soft {
                    weight: u32::try_from(weight).map_err(|_| wrong("has a weight too large"))?,
                    unit: *clause
                        .first()
                        .ok_or_else(|| wrong("has an empty soft line"))?,
                }),
            }
        }
        match (formula.clauses.len() + formula.soft.len()) as u64 == clauses {
            true => Ok(formula),
            false => Err(wrong("has another number of lines than its header says")),
        }
    }

    /// Appends the tail: a counter over the negated soft units with the columns
    /// 1 to `bound` + 1, and the unit that forbids its last.
    fn append_tail(&mut self, bound: u32) {
        let columns = bound + 1;
        let mut above = None;
        for Soft { weight, unit } in std::mem::take(&mut self.soft) {
            let row = self.variables;
            self.variables += columns;
            for column in 1..=columns {
                self.append_cell(!unit, weight, column, row, above);
            }
            above = Some(row);
            self.soft.push(Soft { weight, unit });
        }
        if let Some(row) = above {
            let last = Literal::positive(row + columns);
            self.clauses.push(&[!last]);
        }
    }

    /// The clauses of one cell c: it holds if the cell a above it does, or if
    /// `x` does and the cell b above it, `weight` columns back. `row` is the
    /// variable before the row's first, `above` the one of the row before. b is
    /// true where `column` is at most `weight`; in the first row a is false,
    /// and so is every other b.
    fn append_cell(&mut self, x: Literal, weight: u32, column: u32, row: u32, above: Option<u32>) {
        let c = Literal::positive(row + column);
        let a = above.map(|above| Literal::positive(above + column));
        let reached = column <= weight;
        let b = match reached {
            true => None,
            false => above.map(|above| Literal::positive(above + column - weight)),
        };
        match (a, b) {
            (None, _) if reached => {
                self.clauses.push(&[!x, c]);
                self.clauses.push(&[x, !c]);
            }
            (None, _) => {
                self.clauses.push(&[x, !c]);
                self.clauses.push(&[!c]);
            }
            (Some(a), None) => {
                self.clauses.push(&[!a, c]);
                self.clauses.push(&[!x, c]);
                self.clauses.push(&[x, a, !c]);
            }
            (Some(a), Some(b)) => {
                self.clauses.push(&[!a, c]);
                self.clauses.push(&[!x, !b, c]);
                self.clauses.push(&[x, a, !c]);
                self.clauses.push(&[b, a, !c]);
            }
        }
    }
}

/// Variables, clauses and top of a line `p wcnf V C top`.
fn header(line: &str) -> Option<(u32, u64, u64)> {
    let mut words = line.strip_prefix("p wcnf ")?.split(' ');
    let variables = words.next()?.parse().ok()?;
    let clauses = words.next()?.parse().ok()?;
    let top = words.next()?.parse().ok()?;
    words.next().is_none().then_some((variables, clauses, top))
}

/// Reads a line `weight literals 0` and gives the weight.
fn numbers(line: &str, clause: &mut Vec<Literal>, variables: u32) -> Option<u64> {
    clause.clear();
    let mut words = line.split(' ');
    let weight = words.next()?.parse().ok()?;
    for word in words.by_ref() {
        let number = word.parse().ok()?;
        if number == 0 {
            return words.next().is_none().then_some(weight);
        }
        let literal = Literal::from_signed(number)?;
        if literal.variable() > variables {
            return None;
        }
        clause.push(literal);
    }
    None // the 0 is missing
}

#[cfg(test)]
mod tests {
    use super::{engine, Formula, Literal, Soft};

    /// Document 01's file A.
    const A: [u8; 12] = [1, 1, 0, 1, 0, 1, 0, 1, 3, 4, 1, 1];

    fn signed(formula: &Formula) -> Vec<Vec<i64>> {
        let clause = |clause: &[Literal]| clause.iter().map(|literal| literal.signed()).collect();
        formula.clauses.iter().map(clause).collect()
    }

    #[test]
    fn file_a_without_the_tail() {
        let formula = Formula::of(&A).unwrap();
        assert_eq!(formula.variables, 4);
        assert_eq!(
            signed(&formula),
            [
                &[1, -2][..],
                &[-1, 2],
                &[-1, 3],
                &[1, -3],
                &[3],
                &[-2, 4],
                &[2, -4]
            ]
        );
        let unit = Literal::from_signed(-4).unwrap();
        assert_eq!(formula.soft, [Soft { weight: 4, unit }]);
    }

    #[test]
    fn file_a_at_bound_4() {
        let formula = Formula::at_bound(&A, 4).unwrap();
        assert_eq!(formula.variables, 9);
        let last: Vec<Vec<i64>> = signed(&formula)[14..].to_vec();
        assert_eq!(last, [vec![4, -8], vec![4, -9], vec![-9], vec![-9]]);
    }

    #[test]
    fn another_size_than_the_engines_is_told() {
        let mut wanted = engine::sizes(&A, 4).unwrap();
        assert!(Formula::of(&A).unwrap().with_tail(4, wanted).is_ok());
        assert!(Formula::of(&A).unwrap().with_tail(3, wanted).is_err());
        wanted.words += 1;
        assert!(Formula::of(&A).unwrap().with_tail(4, wanted).is_err());
    }

    #[test]
    fn damaged_text_is_told() {
        let good = "p wcnf 2 3 4\n4 1 -2 0\n4 2 0\n3 -1 0\n";
        assert!(Formula::from_text(good.as_bytes()).is_ok());
        for bad in [
            "",
            "p cnf 2 3\n",
            "p wcnf 2 3\n4 1 0\n",
            "p wcnf 2 1 4\n4 3 0\n",
            "p wcnf 2 1 4\n4 1\n",
            "p wcnf 2 1 4\n4 1 0 2\n",
            "p wcnf 2 1 4\n3 0\n",
            "p wcnf 2 2 4\n4 1 0\n",
        ] {
            assert!(Formula::from_text(bad.as_bytes()).is_err(), "{bad:?}");
        }
        assert!(Formula::from_text(&[0xff, 0xfe]).is_err());
    }
}
