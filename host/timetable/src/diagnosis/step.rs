//! Refusals 14 to 18: what is wrong with a proof's step, or with its end.

use super::inputs::Inputs;
use super::outline::Outline;
use crate::engine::{refusal, Refusal};
use crate::instance::{read, Instance};
use crate::proof::{read_step, start_of, Misread, Step};
use crate::solver::formula::Formula;
use crate::solver::literal::Literal;
use std::collections::HashMap;

/// Clauses are written out for a refusal's words up to so many variables, and
/// steps followed up to so many.
const MOST_WRITTEN: u64 = 2_000_000;
const MOST_STEPS: u64 = 10_000_000;

/// Why the step that a refusal names is refused, or what its end lacks.
pub fn reason(refusal: Refusal, inputs: &Inputs) -> Option<String> {
    if refusal.number == refusal::BAD_END {
        return Some(ending(inputs.file, refusal.value));
    }
    let instance = read(inputs.instance).ok()?;
    let run = Run::before(refusal.value, &instance, inputs)?;
    match refusal.number {
        refusal::BAD_STEP => run.misformed(),
        refusal::NOT_LIVE => run.not_live(),
        refusal::BAD_HINT => run.bad_hint(inputs),
        _ => None,
    }
}

/// What is wrong at the end of a proof of which `steps` were read.
fn ending(proof: &[u8], steps: u64) -> String {
    match start_of(proof, steps + 1) {
        Some(at) if at < proof.len() => format!(
            "step {steps} adds the empty clause; bytes after it: {}",
            proof.len() - at
        ),
        _ => "the proof ends, and no step has added the empty clause: is it cut short?".to_string(),
    }
}

/// The run of a proof up to a step.
struct Run<'a> {
    instance: &'a Instance,
    outline: Outline,
    /// The variables and the clauses of the formula with its tail.
    variables: u64,
    clauses: u64,
    proof: &'a [u8],
    /// Where the step starts.
    at: usize,
    /// The steps that added clauses and where they start, by the clauses' ids.
    added: HashMap<u32, (u64, usize)>,
    /// The steps that deleted clauses, by the clauses' ids.
    deleted: HashMap<u32, u64>,
    highest: u64,
}

impl<'a> Run<'a> {
    /// The run before `step`. The steps before it are well formed.
    fn before(step: u64, instance: &'a Instance, inputs: &Inputs<'a>) -> Option<Run<'a>> {
        if step > MOST_STEPS {
            return None;
        }
        let outline = Outline::of(instance);
        let hard = outline.size();
        let tail = inputs.bound.map(|bound| outline.tail(bound));
        let tail = tail.unwrap_or_default();
        let mut run = Run {
            instance,
            outline,
            variables: hard.variables + tail.variables,
            clauses: hard.clauses + tail.clauses,
            proof: inputs.file,
            at: 0,
            added: HashMap::new(),
            deleted: HashMap::new(),
            highest: hard.clauses + tail.clauses,
        };
        for number in 1..step {
            run.take(number)?;
        }
        (run.at < run.proof.len()).then_some(run)
    }

    /// Takes the step at hand, which is well formed.
    fn take(&mut self, number: u64) -> Option<()> {
        let at = self.at;
        let (step, next) = read_step(self.proof, at).ok()?;
        match step {
            Step::Add { id, .. } => {
                self.added.insert(id, (number, at));
                self.highest = u64::from(id);
            }
            Step::Delete { ids } => {
                self.deleted.extend(ids.into_iter().map(|id| (id, number)));
            }
        }
        self.at = next;
        Some(())
    }

    /// Why the step is not well formed.
    fn misformed(&self) -> Option<String> {
        match read_step(self.proof, self.at) {
            Err(Misread::FirstByte(byte)) => Some(format!(
                "it begins with the byte {byte:02x}; a step begins with 61 (a) or 64 (d)"
            )),
            Err(Misread::Number(at)) if at >= self.proof.len() => {
                Some("the proof ends in the midst of it".to_string())
            }
            Err(Misread::Number(at)) => Some(format!(
                "its number at offset {at} is cut short, overlong or too large"
            )),
            Ok((Step::Add { id, literals, .. }, _)) => {
                self.bad_id(id).or_else(|| self.bad_literals(&literals))
            }
            Ok((Step::Delete { .. }, _)) => None,
        }
    }

    fn bad_id(&self, id: u32) -> Option<String> {
        let highest = self.highest;
        if u64::from(id) > highest {
            return None;
        }
        let reason =
            format!("it adds the id {id}, which is not above {highest}, the highest so far");
        match u64::from(id) <= self.clauses {
            true => Some(format!(
                "{reason}; the formula has {} clauses: was the proof made for another bound?",
                self.clauses
            )),
            false => Some(reason),
        }
    }

    fn bad_literals(&self, literals: &[u32]) -> Option<String> {
        let mut variables: Vec<u32> = literals.iter().map(|code| code / 2).collect();
        if literals.contains(&1) {
            return Some("its literal 1 is of no variable".to_string());
        }
        let above = variables
            .iter()
            .find(|&&one| u64::from(one) > self.variables);
        if let Some(above) = above {
            return Some(format!(
                "it names variable {above}; the formula has {}: was the proof made for another bound?",
                self.variables
            ));
        }
        variables.sort_unstable();
        let twice = variables.windows(2).find(|pair| pair[0] == pair[1]);
        twice.map(|pair| format!("it names variable {} twice", pair[0]))
    }

    /// Which hint, or which id to delete, is not live.
    fn not_live(&self) -> Option<String> {
        let (step, _) = read_step(self.proof, self.at).ok()?;
        let (ids, what) = match &step {
            Step::Add { hints, .. } => (hints, "hint"),
            Step::Delete { ids } => (ids, "id"),
        };
        let place = ids.iter().enumerate().position(|(place, id)| {
            let deleted_here = matches!(step, Step::Delete { .. }) && ids[..place].contains(id);
            deleted_here || !self.is_live(*id)
        })?;
        let id = ids[place];
        let why = match self.deleted.get(&id) {
            Some(step) => format!("which step {step} has deleted"),
            None if self.is_live(id) => "which it names twice".to_string(),
            None => "which has not been added".to_string(),
        };
        let of = ids.len();
        Some(format!("{what} {} of {of} is {id}, {why}", place + 1))
    }

    fn is_live(&self, id: u32) -> bool {
        let known = (1..=self.clauses).contains(&u64::from(id)) || self.added.contains_key(&id);
        known && !self.deleted.contains_key(&id)
    }

    /// Which hint breaks the rule.
    fn bad_hint(&self, inputs: &Inputs) -> Option<String> {
        let (step, _) = read_step(self.proof, self.at).ok()?;
        let Step::Add {
            literals, hints, ..
        } = step
        else {
            return None;
        };
        if hints.is_empty() {
            return Some("it has no hint".to_string());
        }
        let formula = self.formula(inputs)?;
        let mut assignment = Assignment::default();
        for code in literals {
            assignment.set(!Literal::from_code(code)?);
        }
        let of = hints.len();
        for (place, &hint) in hints.iter().enumerate() {
            let clause = self.literals(&formula, hint)?;
            let state = assignment.state(&clause);
            if let Some(broken) = state.broken(place + 1 == of) {
                let named = self.named(hint);
                return Some(format!("hint {} of {of}, {named}, {broken}", place + 1));
            }
            if let State::Unit(literal) = state {
                assignment.set(literal);
            }
        }
        None
    }

    /// The formula, if it is not too large to be written out for some words.
    fn formula(&self, inputs: &Inputs) -> Option<Formula> {
        if self.variables > MOST_WRITTEN {
            return None;
        }
        let formula = match inputs.bound {
            Some(bound) => Formula::at_bound(inputs.instance, bound),
            None => Formula::of(inputs.instance),
        };
        formula.ok()
    }

    /// The literals of a live clause.
    fn literals(&self, formula: &Formula, id: u32) -> Option<Vec<Literal>> {
        if let Some(&(_, at)) = self.added.get(&id) {
            let (Step::Add { literals, .. }, _) = read_step(self.proof, at).ok()? else {
                return None;
            };
            return literals.into_iter().map(Literal::from_code).collect();
        }
        let place = usize::try_from(id).ok()?.checked_sub(1)?;
        (place < formula.clauses.len()).then(|| formula.clauses.get(place).to_vec())
    }

    /// A clause with where it comes from.
    fn named(&self, id: u32) -> String {
        if let Some((step, _)) = self.added.get(&id) {
            return format!("clause {id} (step {step})");
        }
        match self.outline.clause(u64::from(id)) {
            Some(clause) => format!("clause {id} ({})", clause.owner(self.instance)),
            None => format!("clause {id} (the tail)"),
        }
    }
}

/// The literals that are true.
#[derive(Default)]
struct Assignment(HashMap<u32, Literal>);

/// A clause under an assignment.
enum State {
    False,
    Unit(Literal),
    /// So many literals are open.
    Open(usize),
    /// By this literal.
    True(Literal),
}

impl State {
    /// How a hint in this state, the last or another, breaks the rule.
    fn broken(&self, last: bool) -> Option<String> {
        match (self, last) {
            (State::Unit(_), false) | (State::False, true) => None,
            (State::False, false) => Some("is false before the last hint".to_string()),
            (State::True(literal), _) => Some(format!("is true already, by {}", literal.signed())),
            (State::Unit(_), true) => {
                Some("has 1 open literal; the last must be false".to_string())
            }
            (State::Open(open), true) => {
                Some(format!("has {open} open literals; the last must be false"))
            }
            (State::Open(open), false) => Some(format!("has {open} open literals; 1 is wanted")),
        }
    }
}

impl Assignment {
    fn set(&mut self, literal: Literal) {
        self.0.insert(literal.variable(), literal);
    }

    fn state(&self, clause: &[Literal]) -> State {
        let truth = |literal: &&Literal| self.0.get(&literal.variable()) == Some(literal);
        if let Some(&literal) = clause.iter().find(truth) {
            return State::True(literal);
        }
        let open = |literal: &&Literal| !self.0.contains_key(&literal.variable());
        let mut open = clause.iter().filter(open);
        match (open.next(), open.count()) {
            (None, _) => State::False,
            (Some(&literal), 0) => State::Unit(literal),
            (Some(_), more) => State::Open(more + 1),
        }
    }
}
