//! Follows the lemmas of an LRAT proof by their own hints.

use super::reading::{Lrat, Step};
use crate::solver::formula::Formula;
use crate::solver::literal::{Clauses, Literal};
use crate::solver::proofs::{extension, Observer, Steps, EVERY};
use crate::solver::step_bytes::StepBytes;
use crate::solver::Fault;
use std::collections::HashMap;

/// A lemma that is live: where it stands, and its id in the steps.
#[derive(Clone, Copy)]
struct Lemma {
    place: usize,
    id: u32,
}

pub struct Replay<'a> {
    formula: &'a Formula,
    /// Whether the formula's clauses were deleted.
    dead: Vec<bool>,
    lemmas: Clauses,
    /// The live lemmas by the ids of the solver's proof.
    live: HashMap<u64, Lemma>,
    /// For each literal whether it is false.
    falsified: Vec<bool>,
    trail: Vec<Literal>,
    steps: StepBytes,
    ignored_deletions: usize,
}

/// A clause under the assignment.
enum State {
    False,
    Unit(Literal),
    True,
    Open,
}

impl<'a> Replay<'a> {
    pub fn new(formula: &'a Formula) -> Replay<'a> {
        Replay {
            formula,
            dead: vec![false; formula.clauses.len()],
            lemmas: Clauses::default(),
            live: HashMap::new(),
            falsified: vec![false; 2 * (formula.variables as usize + 1)],
            trail: Vec::new(),
            steps: StepBytes::after(formula.clauses.len()),
            ignored_deletions: 0,
        }
    }

    pub fn run(mut self, proof: &Lrat, observer: &mut dyn Observer) -> Result<Steps, Fault> {
        self.follow(proof, observer)?;
        Ok(self.into_steps())
    }

    /// How many lemmas were followed.
    pub fn lemmas(&self) -> usize {
        self.lemmas.len()
    }

    pub fn into_steps(self) -> Steps {
        Steps {
            bytes: self.steps.into_bytes(),
            lemmas: self.lemmas.len(),
            kept: self.lemmas.len(),
            ignored_deletions: self.ignored_deletions,
        }
    }

    /// Follows the steps up to the empty clause.
    pub fn follow(&mut self, proof: &Lrat, observer: &mut dyn Observer) -> Result<(), Fault> {
        for (index, step) in proof.steps.iter().enumerate() {
            if index % EVERY == 0 {
                observer.progress("steps read", index, proof.steps.len())?;
            }
            match step {
                Step::Delete { ids } => self.delete(proof.ids(ids)),
                Step::Add {
                    id,
                    literals,
                    hints,
                } => {
                    let literals = proof.literals(literals);
                    self.add(index + 1, *id, literals, proof.ids(hints))?;
                    if literals.is_empty() {
                        return Ok(());
                    }
                }
            }
        }
        Err(Fault::Other(
            "the proof has no empty clause: it is cut short".to_string(),
        ))
    }

    fn add(&mut self, step: usize, id: u64, given: &[Literal], hints: &[u64]) -> Result<(), Fault> {
        let wrong = |what: String| Fault::Other(format!("step {step} of the proof {what}"));
        if id <= self.dead.len() as u64 || self.live.contains_key(&id) {
            return Err(wrong(format!("adds id {id}, which there is already")));
        }
        let mut literals = given.to_vec();
        literals.sort_unstable();
        literals.dedup();
        for &literal in &literals {
            if literal.variable() > self.formula.variables {
                let variables = self.formula.variables as usize;
                return Err(extension(step, literal.variable(), variables));
            }
            self.falsify(literal);
        }
        let kept = self.kept_hints(hints);
        self.clear();
        let both = |pair: &[Literal]| pair[0].variable() == pair[1].variable();
        match kept {
            Some(kept) if !literals.windows(2).any(both) => {
                self.lemmas.push(&literals);
                let place = self.lemmas.len() - 1;
                let id_in_steps = self.steps.add(literals, kept);
                let lemma = Lemma {
                    place,
                    id: id_in_steps,
                };
                self.live.insert(id, lemma);
                Ok(())
            }
            Some(_) => Err(wrong("holds both signs of a variable".to_string())),
            None if hints.is_empty() => Err(wrong("has no hints: it is a RAT step".to_string())),
            None => Err(wrong("does not follow by its hints".to_string())),
        }
    }

    /// The hints that do something, up to the conflict, in an order in which
    /// they do it; none if there is no conflict.
    fn kept_hints(&mut self, hints: &[u64]) -> Option<Vec<u32>> {
        let mut kept = Vec::new();
        let mut waiting = hints.to_vec();
        loop {
            let before = waiting.len();
            let mut later = Vec::new();
            for &hint in &waiting {
                let Some((id, state)) = self.look_up(hint) else {
                    continue;
                };
                match state {
                    State::True => {}
                    State::Open => later.push(hint),
                    State::Unit(literal) => {
                        kept.push(id);
                        self.falsify(!literal);
                    }
                    State::False => {
                        kept.push(id);
                        return Some(kept);
                    }
                }
            }
            if later.len() == before {
                return None;
            }
            waiting = later;
        }
    }

    /// The id in the steps of a live clause, and its state.
    fn look_up(&self, hint: u64) -> Option<(u32, State)> {
        let place = usize::try_from(hint.checked_sub(1)?).ok()?;
        match self.dead.get(place) {
            Some(true) => None,
            Some(false) => {
                let clause = self.formula.clauses.get(place);
                Some((place as u32 + 1, self.state(clause)))
            }
            None => {
                let lemma = self.live.get(&hint)?;
                Some((lemma.id, self.state(self.lemmas.get(lemma.place))))
            }
        }
    }

    fn state(&self, clause: &[Literal]) -> State {
        let mut open = None;
        for &literal in clause {
            if self.falsified[(!literal).index()] {
                return State::True;
            }
            if self.falsified[literal.index()] {
                continue;
            }
            if open.replace(literal).is_some() {
                return State::Open;
            }
        }
        match open {
            Some(literal) => State::Unit(literal),
            None => State::False,
        }
    }

    fn delete(&mut self, ids: &[u64]) {
        let mut deleted = Vec::new();
        for &id in ids {
            let place = id
                .checked_sub(1)
                .and_then(|place| usize::try_from(place).ok());
            match place.and_then(|place| self.dead.get_mut(place)) {
                Some(dead) if !*dead => {
                    *dead = true;
                    deleted.push(id as u32);
                }
                Some(_) => self.ignored_deletions += 1,
                None => match self.live.remove(&id) {
                    Some(lemma) => deleted.push(lemma.id),
                    None => self.ignored_deletions += 1,
                },
            }
        }
        if !deleted.is_empty() {
            self.steps.delete(deleted);
        }
    }

    fn falsify(&mut self, literal: Literal) {
        self.falsified[literal.index()] = true;
        self.trail.push(literal);
    }

    fn clear(&mut self) {
        for literal in self.trail.drain(..) {
            self.falsified[literal.index()] = false;
        }
    }
}
