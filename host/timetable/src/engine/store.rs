//! The stores that a proof check is lent.

use super::answers::{accepted, FormulaSize, Objective, Refusal};
use super::call::{self, Row};
use crate::proof::room;

/// A word for each literal, a row for each clause, a byte for each variable.
pub struct Store {
    pub words: Vec<u32>,
    pub rows: Vec<Row>,
    pub marks: Vec<u8>,
}

impl Store {
    /// Room for a formula of `size` and for every clause that `proof` adds, so
    /// that a check in it gives neither 9 nor 17.
    pub fn for_proof(size: FormulaSize, proof: &[u8]) -> Store {
        let added = room(proof);
        Store {
            words: vec![0; size.words as usize + added.words],
            rows: vec![Row::default(); size.clauses as usize + added.rows],
            marks: vec![0; size.variables as usize],
        }
    }

    /// Checks a bound proof in this store, which is zero after it. Gives the
    /// number of steps, or 1 to 9, 14 to 19, 22.
    pub fn check(&mut self, file: &[u8], bound: u64, proof: &[u8]) -> Result<u64, Refusal> {
        let mut value = 0;
        let number = call::check(
            file,
            bound,
            proof,
            &mut self.words,
            &mut self.rows,
            &mut self.marks,
            &mut value,
        );
        accepted(number, value)?;
        Ok(value)
    }

    /// Checks a proof against the hard clauses alone in this store, which is
    /// zero after it. Gives the number of steps, or 1 to 6, 8, 9, 14 to 19, 22.
    pub fn check_hard(&mut self, file: &[u8], proof: &[u8]) -> Result<u64, Refusal> {
        let mut value = 0;
        let number = call::check_hard(
            file,
            proof,
            &mut self.words,
            &mut self.rows,
            &mut self.marks,
            &mut value,
        );
        accepted(number, value)?;
        Ok(value)
    }

    /// Decodes a model and checks a proof that nothing costs less in this store,
    /// which is zero after it. Gives the cost and the number of steps, or 1 to
    /// 11, 13 to 19, 22.
    pub fn best(
        &mut self,
        file: &[u8],
        model: &[u8],
        proof: &[u8],
    ) -> Result<(Objective, u64), Refusal> {
        let mut objective = 0;
        let mut value = 0;
        let number = call::best(
            file,
            model,
            proof,
            &mut self.words,
            &mut self.rows,
            &mut self.marks,
            &mut objective,
            &mut value,
        );
        accepted(number, value)?;
        Ok((Objective(objective), value))
    }
}
