//! The bytes of a bound proof, written step by step.

use super::literal::Literal;
use crate::number::write_number;
use crate::proof::{ADD, DELETE};

/// The steps written so far. Ids of added clauses follow one another.
pub struct StepBytes {
    bytes: Vec<u8>,
    /// The highest id so far, the formula's included.
    highest: u32,
}

impl StepBytes {
    /// No step, after a formula of so many clauses, whose ids are 1 to their number.
    pub fn after(clauses: usize) -> StepBytes {
        StepBytes {
            bytes: Vec::new(),
            highest: clauses as u32,
        }
    }

    /// Adds a clause that follows by `hints`, and gives its id.
    pub fn add(
        &mut self,
        literals: impl IntoIterator<Item = Literal>,
        hints: impl IntoIterator<Item = u32>,
    ) -> u32 {
        self.highest += 1;
        self.bytes.push(ADD);
        write_number(self.highest, &mut self.bytes);
        self.list(literals.into_iter().map(Literal::code));
        self.list(hints);
        self.highest
    }

    /// Deletes the clauses with these ids.
    pub fn delete(&mut self, ids: impl IntoIterator<Item = u32>) {
        self.bytes.push(DELETE);
        self.list(ids);
    }

    pub fn into_bytes(self) -> Vec<u8> {
        self.bytes
    }

    fn list(&mut self, numbers: impl IntoIterator<Item = u32>) {
        for number in numbers {
            write_number(number, &mut self.bytes);
        }
        self.bytes.push(0);
    }
}

#[cfg(test)]
mod tests {
    use super::StepBytes;
    use crate::solver::literal::Literal;

    #[test]
    fn steps_are_spelt_as_the_checker_reads_them() {
        let mut steps = StepBytes::after(16);
        let not_300 = Literal::from_signed(-300);
        assert_eq!(steps.add(not_300, [5, 6]), 17);
        steps.delete([17]);
        assert_eq!(steps.add(None, [4]), 18);
        let expected = [
            &[97, 17, 0xd9, 4, 0, 5, 6, 0][..],
            &[100, 17, 0],
            &[97, 18, 0, 4, 0],
        ];
        assert_eq!(steps.into_bytes(), expected.concat());
    }
}
