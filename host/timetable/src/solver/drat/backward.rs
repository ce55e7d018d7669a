//! The backward pass: from the conflict to the first lemma, what is needed and
//! by which hints.

use super::arena::{Arena, Place};
use super::forward::{Event, Forward, Segment};
use super::propagation::{Propagation, Value};
use crate::solver::literal::Literal;
use crate::solver::proofs::{Observer, EVERY};
use crate::solver::Fault;

/// A hint: a clause's number, or after all clauses a variable, for the unit
/// clause of the literal that holds. The flag says that no later step uses it.
#[derive(Clone, Copy, PartialEq, Eq)]
pub struct Hint(u32);

const LAST_USE: u32 = 1 << 31;

impl Hint {
    fn new(number: u32, last_use: bool) -> Hint {
        Hint(number | if last_use { LAST_USE } else { 0 })
    }

    pub fn is_last_use(self) -> bool {
        self.0 & LAST_USE != 0
    }

    pub fn number(self) -> usize {
        (self.0 & !LAST_USE) as usize
    }
}

/// The clause that a step adds.
#[derive(Clone, Copy)]
pub enum Added {
    Empty,
    Lemma(Place),
    Unit(Literal),
}

pub struct Record {
    pub added: Added,
    /// Its hints are those from here to the next record's.
    pub first_hint: usize,
}

/// The needed steps from the last to the first, each with its hints from the
/// last to the first.
pub struct Backward {
    pub records: Vec<Record>,
    pub hints: Vec<Hint>,
    pub arena: Arena,
    pub formula_clauses: usize,
    /// The clauses of formula and proof; the units' hints are numbered after them.
    pub clauses: usize,
    pub variables: usize,
    /// How many lemmas the proof adds up to the conflict.
    pub lemmas: usize,
}

impl Backward {
    pub fn run(forward: Forward, observer: &mut dyn Observer) -> Result<Backward, Fault> {
        let Forward {
            propagation,
            events,
            segments,
            conflict,
            formula_clauses,
            ..
        } = forward;
        let lemmas = events
            .iter()
            .filter(|event| matches!(event, Event::Added { .. }))
            .count();
        let variables = propagation.variables();
        let clauses = formula_clauses + lemmas;
        if clauses + variables >= LAST_USE as usize {
            return Err(Fault::Other("the proof is too large".to_string()));
        }
        let mut pass = Pass::new(propagation, clauses as u32);
        pass.refutation(conflict);
        pass.events(&events, segments, observer)?;
        Ok(Backward {
            records: pass.records,
            hints: pass.hints,
            arena: pass.propagation.arena,
            formula_clauses,
            clauses,
            variables,
            lemmas,
        })
    }
}

struct Pass {
    propagation: Propagation,
    /// The number of the unit of variable 0, which there is not.
    units_from: u32,
    /// For each variable whether its unit is needed.
    needed: Vec<bool>,
    /// For each variable the last step that met it, and that assumed it.
    seen: Vec<u32>,
    assumed: Vec<u32>,
    /// The number of the step at hand.
    stamp: u32,
    /// Variables that the step at hand meets, and that hold without it.
    roots: Vec<u32>,
    records: Vec<Record>,
    hints: Vec<Hint>,
}

impl Pass {
    fn new(propagation: Propagation, clauses: u32) -> Pass {
        let variables = propagation.variables() + 1;
        Pass {
            propagation,
            units_from: clauses,
            needed: vec![false; variables],
            seen: vec![0; variables],
            assumed: vec![0; variables],
            stamp: 0,
            roots: Vec::new(),
            records: Vec::new(),
            hints: Vec::new(),
        }
    }

    /// The empty clause: all literals of `conflict` are false.
    fn refutation(&mut self, conflict: Place) {
        self.begin(Added::Empty);
        self.explain(conflict, self.propagation.trail.len());
    }

    /// Undoes the events from the last to the first.
    fn events(
        &mut self,
        events: &[Event],
        mut segments: Vec<Segment>,
        observer: &mut dyn Observer,
    ) -> Result<(), Fault> {
        for (index, &event) in events.iter().enumerate().rev() {
            if index % EVERY == 0 {
                observer.progress("steps looked at", events.len() - index, events.len())?;
            }
            match event {
                Event::Deleted(place) => self.propagation.attach(place),
                Event::Added { place, line } => {
                    if let Some(segment) = segments.pop_if(|segment| segment.event == index) {
                        self.undo_units(segment.trail);
                    }
                    self.propagation.arena.make_gone(place);
                    if self.propagation.arena.is_core(place) && !self.lemma(place) {
                        return Err(not_implied(line));
                    }
                }
            }
        }
        self.undo_units(0);
        Ok(())
    }

    /// Undoes the trail from `length` on; a literal that is needed becomes a step.
    fn undo_units(&mut self, length: usize) {
        for at in (length..self.propagation.trail.len()).rev() {
            let literal = self.propagation.trail[at];
            if self.needed[literal.variable() as usize] {
                self.begin(Added::Unit(literal));
                let reason = self.propagation.reason(literal.variable());
                self.assumed[literal.variable() as usize] = self.stamp;
                self.explain(reason, self.propagation.trail.len());
            }
        }
        self.propagation.undo(length);
    }

    /// Finds the hints of a lemma; false if it does not follow.
    fn lemma(&mut self, place: Place) -> bool {
        self.begin(Added::Lemma(place));
        let literals: Vec<Literal> = self.propagation.arena.literals(place).collect();
        let holds = |literal: &&Literal| self.propagation.value(**literal) == Value::True;
        if let Some(literal) = literals.iter().find(holds) {
            self.hint_unit(literal.variable());
            return true;
        }
        let root = self.propagation.trail.len();
        for literal in literals {
            self.assumed[literal.variable() as usize] = self.stamp;
            if self.propagation.value(literal) == Value::Open {
                self.propagation.assign(!literal, Place::NONE);
            }
        }
        let conflict = self.propagation.propagate(root);
        if let Some(conflict) = conflict {
            self.explain(conflict, root);
        }
        self.propagation.undo(root);
        conflict.is_some()
    }

    fn begin(&mut self, added: Added) {
        self.stamp += 1;
        self.records.push(Record {
            added,
            first_hint: self.hints.len(),
        });
    }

    /// The hints of the step at hand from the last: `conflict`, then the
    /// clauses that set its literals after the trail's first `root`, then the
    /// units of the literals that hold before.
    fn explain(&mut self, conflict: Place, root: usize) {
        self.hint_clause(conflict);
        self.meet(conflict, root);
        for at in (root..self.propagation.trail.len()).rev() {
            let variable = self.propagation.trail[at].variable();
            let reason = self.propagation.reason(variable);
            if self.seen[variable as usize] == self.stamp && reason != Place::NONE {
                self.hint_clause(reason);
                self.meet(reason, root);
            }
        }
        for variable in std::mem::take(&mut self.roots) {
            self.hint_unit(variable);
        }
    }

    /// Notes the variables of a clause that the step at hand uses.
    fn meet(&mut self, place: Place, root: usize) {
        for literal in self.propagation.arena.literals(place) {
            let variable = literal.variable();
            let at = variable as usize;
            if self.seen[at] == self.stamp {
                continue;
            }
            self.seen[at] = self.stamp;
            if self.assumed[at] != self.stamp && self.propagation.position(variable) < root {
                self.roots.push(variable);
            }
        }
    }

    fn hint_clause(&mut self, place: Place) {
        let last_use = self.propagation.arena.make_core(place);
        let number = self.propagation.arena.number(place);
        self.hints.push(Hint::new(number, last_use));
    }

    /// The unit clause of a literal that holds: a clause of its own if it is one.
    fn hint_unit(&mut self, variable: u32) {
        let reason = self.propagation.reason(variable);
        if self.propagation.arena.length(reason) == 1 {
            return self.hint_clause(reason);
        }
        let needed = &mut self.needed[variable as usize];
        let last_use = !std::mem::replace(needed, true);
        self.hints
            .push(Hint::new(self.units_from + variable, last_use));
    }
}

fn not_implied(line: u32) -> Fault {
    Fault::Other(format!(
        "step {line} of the proof does not follow by unit propagation: it is a RAT step, which no \
         hints spell, or the proof was made for another file or bound"
    ))
}
