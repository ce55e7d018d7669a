//! The forward pass: lemmas added one by one, up to a conflict.

use super::arena::Place;
use super::matching::Matching;
use super::propagation::{Propagation, Value};
use super::reading::Drat;
use crate::solver::formula::Formula;
use crate::solver::literal::Literal;
use crate::solver::proofs::{extension, Observer, EVERY};
use crate::solver::Fault;

/// What the proof does, in its order.
#[derive(Clone, Copy)]
pub enum Event {
    /// A lemma, which is the `line`th step of the proof, from 1.
    Added {
        place: Place,
        line: u32,
    },
    Deleted(Place),
}

/// Literals that an event set: those of the trail from `trail` on.
pub struct Segment {
    pub event: usize,
    pub trail: usize,
}

/// The state at the conflict.
pub struct Forward {
    pub propagation: Propagation,
    pub events: Vec<Event>,
    pub segments: Vec<Segment>,
    /// A clause whose literals are all false.
    pub conflict: Place,
    /// How many of the clauses are the formula's.
    pub formula_clauses: usize,
    /// Deletions that name no clause, or one that holds a literal in place.
    pub ignored_deletions: usize,
}

impl Forward {
    /// Adds the lemmas of `proof` to the clauses of `formula` up to a conflict.
    pub fn run(
        formula: &Formula,
        proof: &Drat,
        observer: &mut dyn Observer,
    ) -> Result<Forward, Fault> {
        let room = formula.clauses.len() + proof.len();
        let mut pass = Pass {
            propagation: Propagation::new(formula.variables),
            matching: Matching::new(room, formula.variables as usize),
            events: Vec::with_capacity(proof.len()),
            segments: Vec::new(),
            clauses: 0,
            ignored_deletions: 0,
        };
        let mut conflict = pass.formula(formula)?;
        let mut literals = Vec::new();
        for line in 0..proof.len() {
            if conflict.is_some() {
                break;
            }
            if line % EVERY == 0 {
                observer.progress("lemmas read", line, proof.len())?;
            }
            if !proof.clean(line, &mut literals) {
                continue; // it holds both signs of a variable
            }
            match proof.deletes(line) {
                true => pass.delete(&literals),
                false => conflict = pass.lemma(line, &mut literals)?,
            }
        }
        match conflict {
            Some(conflict) => Ok(pass.end(conflict, formula.clauses.len())),
            None => Err(Fault::Other(no_conflict(proof))),
        }
    }
}

fn no_conflict(proof: &Drat) -> String {
    let steps = proof.len();
    format!(
        "after the proof's {steps} steps unit propagation finds no conflict: \
         it is cut short, or made for another file or bound"
    )
}

struct Pass {
    propagation: Propagation,
    matching: Matching,
    events: Vec<Event>,
    segments: Vec<Segment>,
    /// How many clauses there are, which is the next one's number.
    clauses: u32,
    ignored_deletions: usize,
}

impl Pass {
    /// Adds the formula's clauses and propagates their units.
    fn formula(&mut self, formula: &Formula) -> Result<Option<Place>, Fault> {
        let mut units = Vec::new();
        for clause in formula.clauses.iter() {
            let place = self.keep(clause)?;
            match clause {
                [] => return Ok(Some(place)),
                [unit] => units.push((*unit, place)),
                _ => self.propagation.attach(place),
            }
        }
        for (unit, place) in units {
            match self.propagation.value(unit) {
                Value::Open => self.propagation.assign(unit, place),
                Value::False => return Ok(Some(place)),
                Value::True => {}
            }
        }
        Ok(self.propagation.propagate(0))
    }

    /// Stores a clause under the next number.
    fn keep(&mut self, literals: &[Literal]) -> Result<Place, Fault> {
        let place = self.propagation.arena.push(self.clauses, literals);
        let place = place.ok_or_else(|| Fault::Other("the proof is too large".to_string()))?;
        self.matching.insert(place, literals);
        self.clauses += 1;
        Ok(place)
    }

    /// Adds the lemma of step `line`, from 0, and propagates the unit that it
    /// may make.
    fn lemma(&mut self, line: usize, literals: &mut [Literal]) -> Result<Option<Place>, Fault> {
        let variables = self.propagation.variables();
        if let Some(above) = literals.iter().find(|l| l.variable() as usize > variables) {
            return Err(extension(line + 1, above.variable(), variables));
        }
        let value = |literal: &Literal| match self.propagation.value(*literal) {
            Value::True => 0,
            Value::Open => 1,
            Value::False => 2,
        };
        literals.sort_by_key(value);
        let place = self.keep(literals)?;
        let line = line as u32 + 1;
        self.events.push(Event::Added { place, line });
        if literals.len() > 1 {
            self.propagation.attach(place);
        }
        let values = [0, 1].map(|at| literals.get(at).map(|&l| self.propagation.value(l)));
        Ok(match values {
            [None | Some(Value::False), _] => Some(place),
            [Some(Value::Open), None | Some(Value::False)] => self.unit(literals[0], place),
            _ => None,
        })
    }

    /// Sets the literal that the last event's clause makes a unit.
    fn unit(&mut self, unit: Literal, place: Place) -> Option<Place> {
        let trail = self.propagation.trail.len();
        self.segments.push(Segment {
            event: self.events.len() - 1,
            trail,
        });
        self.propagation.assign(unit, place);
        self.propagation.propagate(trail)
    }

    /// Deletes the clause with these literals. One that set a literal stays:
    /// solvers delete such clauses because they keep the literal.
    fn delete(&mut self, literals: &[Literal]) {
        let propagation = &mut self.propagation;
        let known = |l: &Literal| l.variable() as usize <= propagation.variables();
        let found = match literals.iter().all(known) {
            true => self.matching.find(&propagation.arena, literals),
            false => None,
        };
        let is_reason = |place| {
            let set_by = |l: &Literal| propagation.reason(l.variable()) == place;
            literals.iter().any(set_by)
        };
        match found {
            Some(place) if literals.len() > 1 && !is_reason(place) => {
                self.matching.remove(&propagation.arena, literals);
                propagation.detach(place);
                self.events.push(Event::Deleted(place));
            }
            _ => self.ignored_deletions += 1,
        }
    }

    fn end(self, conflict: Place, formula_clauses: usize) -> Forward {
        Forward {
            propagation: self.propagation,
            events: self.events,
            segments: self.segments,
            conflict,
            formula_clauses,
            ignored_deletions: self.ignored_deletions,
        }
    }
}
