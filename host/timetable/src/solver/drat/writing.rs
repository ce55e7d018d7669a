//! The steps that the backward pass found, from the first to the last.

use super::backward::{Added, Backward, Hint};
use crate::solver::proofs::Steps;
use crate::solver::step_bytes::StepBytes;

/// The steps' bytes. An added clause is deleted after its last use.
pub fn write(found: &Backward, ignored_deletions: usize) -> Steps {
    let mut ids = Ids::new(found);
    let mut steps = StepBytes::after(found.formula_clauses);
    let mut last_hint = found.hints.len();
    for record in found.records.iter().rev() {
        let hints = &found.hints[record.first_hint..last_hint];
        last_hint = record.first_hint;
        let spelt = hints.iter().rev().map(|&hint| ids.of(hint));
        match record.added {
            Added::Empty => {
                steps.add(None, spelt);
                break; // nothing is read after the empty clause
            }
            Added::Lemma(place) => {
                let id = steps.add(found.arena.literals(place), spelt);
                ids.set(found.arena.number(place) as usize, id);
            }
            Added::Unit(literal) => {
                let id = steps.add(Some(literal), spelt);
                ids.set(found.clauses + literal.variable() as usize, id);
            }
        }
        let done = |hint: &&Hint| hint.is_last_use() && hint.number() >= found.formula_clauses;
        let mut done = hints.iter().rev().filter(done).peekable();
        if done.peek().is_some() {
            steps.delete(done.map(|&hint| ids.of(hint)));
        }
    }
    Steps {
        bytes: steps.into_bytes(),
        lemmas: found.lemmas,
        kept: found.records.len(),
        ignored_deletions,
    }
}

/// The ids of the clauses and units that hints name.
struct Ids {
    formula_clauses: usize,
    /// Of what stands after the formula's clauses.
    added: Vec<u32>,
}

impl Ids {
    fn new(found: &Backward) -> Ids {
        let added = found.clauses - found.formula_clauses + found.variables + 1;
        Ids {
            formula_clauses: found.formula_clauses,
            added: vec![0; added],
        }
    }

    fn set(&mut self, number: usize, id: u32) {
        self.added[number - self.formula_clauses] = id;
    }

    fn of(&self, hint: Hint) -> u32 {
        match hint.number().checked_sub(self.formula_clauses) {
            None => hint.number() as u32 + 1,
            Some(added) => self.added[added],
        }
    }
}
