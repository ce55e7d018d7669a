//! Models: one byte for each variable without the tail; refusals 8, 10, 11, 13.

use super::clauses::{walk, Literal, Sink, Sizes};
use super::instance::Instance;
use super::refusal::refuse;
use super::sheet::check_bytes;
use timetable::engine::{Objective, Refusal};

/// The part of `model` that holds the timetable, with the falsified soft
/// weight; or 1 to 6, 8, 10, 11, 13, 19, 22.
pub fn decode<'a>(file: &[u8], model: &'a [u8]) -> Result<(&'a [u8], Objective), Refusal> {
    let instance = Instance::read(file)?;
    let sizes = Sizes::of(&instance, None)?;
    check_bytes(model, sizes.variables as usize)?;
    let mut evaluation = Evaluation {
        model,
        clauses: 0,
        first_false: None,
        cost: 0,
    };
    walk(&instance, &mut evaluation);
    match evaluation.first_false {
        Some(id) => refuse(13, id),
        None => {
            let part = 2 * instance.events.len() * instance.times;
            Ok((&model[..part], Objective(evaluation.cost)))
        }
    }
}

struct Evaluation<'a> {
    model: &'a [u8],
    /// Hard clauses so far: the id of the last one.
    clauses: u64,
    first_false: Option<u64>,
    cost: u64,
}

impl Evaluation<'_> {
    fn holds(&self, literal: Literal) -> bool {
        (self.model[literal.variable() as usize - 1] == 1) != literal.is_negated()
    }
}

impl Sink for Evaluation<'_> {
    fn hard(&mut self, clause: &[Literal]) {
        self.clauses += 1;
        if !clause.iter().any(|&literal| self.holds(literal)) && self.first_false.is_none() {
            self.first_false = Some(self.clauses);
        }
    }

    fn soft(&mut self, weight: u32, unit: Literal) {
        if !self.holds(unit) {
            self.cost += u64::from(weight);
        }
    }
}
