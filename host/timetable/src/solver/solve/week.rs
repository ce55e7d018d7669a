//! The state of a week: what is known, what the engine says to a model or a
//! proof, and the files.

use super::claim::Claim;
use super::folder::Folder;
use super::outcome::{Best, Outcome, Refuted};
use super::{Options, Progress, Watcher};
use crate::diagnosis::{reasons, Inputs, Sort};
use crate::engine::{self, Objective, Refusal};
use crate::solver::answers::Found;
use crate::solver::formula::Formula;
use crate::solver::proofs::{self, Observer};
use crate::solver::Fault;
use std::time::{Duration, Instant};

pub struct Week<'a> {
    pub file: &'a [u8],
    /// The hard clauses and the soft units.
    pub hard: Formula,
    pub folder: Folder,
    pub outcome: Outcome,
    started: Instant,
    time: Duration,
    watcher: &'a mut dyn Watcher,
}

impl<'a> Week<'a> {
    /// The week of `file`, or 1 to 6, 8, 19, 22.
    pub fn new(
        file: &'a [u8],
        options: &Options,
        watcher: &'a mut dyn Watcher,
    ) -> Result<Week<'a>, Fault> {
        Ok(Week {
            file,
            hard: Formula::of(file)?,
            folder: Folder::at(&options.folder)?,
            outcome: Outcome::default(),
            started: Instant::now(),
            time: options.time,
            watcher,
        })
    }

    pub fn elapsed(&self) -> Duration {
        self.started.elapsed()
    }

    /// The time that is left for solvers.
    pub fn left(&self) -> Duration {
        self.time.saturating_sub(self.elapsed())
    }

    pub fn best_cost(&self) -> Option<u64> {
        self.outcome.best.as_ref().map(|best| best.cost)
    }

    pub fn refuted_bound(&self) -> Option<u64> {
        self.outcome.claim().and_then(Claim::bound)
    }

    /// Tells the watcher what is done now. An error if a stop is asked for.
    pub fn tell(&mut self, doing: &str) -> Result<(), Fault> {
        let progress = Progress {
            elapsed: self.elapsed(),
            best: self.best_cost(),
            refuted: self.refuted_bound(),
            doing,
        };
        self.watcher.tell(&progress);
        match self.watcher.stop() {
            true => Err(Fault::Stopped),
            false => Ok(()),
        }
    }

    pub fn note(&mut self, note: String) {
        if !self.outcome.notes.contains(&note) {
            self.outcome.notes.push(note);
        }
    }

    /// Has the engine read and decode a model, and keeps it if it is the best so far.
    pub fn offer(&mut self, found: &Found) -> Result<(), Fault> {
        let (model, length, cost) = match self.decoded(found) {
            Ok((model, length, cost)) => (model, length, cost.0),
            Err(refusal) => {
                let words = self.in_words(refusal, found);
                self.note(format!("the engine refuses a solver's model: {words}"));
                return Ok(());
            }
        };
        if self.best_cost().is_some_and(|best| best <= cost) {
            return Ok(());
        }
        self.outcome.best = Some(Best {
            cost,
            model: self.folder.write("best.model", &model)?,
            timetable: self.folder.write("best.timetable", &model[..length])?,
        });
        Ok(())
    }

    /// A model, the length of its part that is the timetable, and its cost. The
    /// engine reads the model's own lines, where it reads their form.
    fn decoded(&self, found: &Found) -> Result<(Vec<u8>, usize, Objective), Refusal> {
        if let Some(lines) = &found.lines {
            return engine::solver_text(self.file, lines);
        }
        let (part, cost) = engine::decode(self.file, &found.model)?;
        Ok((found.model.clone(), part.len(), cost))
    }

    /// The refusal of a model, with the reasons for it.
    fn in_words(&self, refusal: Refusal, found: &Found) -> String {
        let (file, sort) = match &found.lines {
            Some(lines) => (lines, Sort::SolverText),
            None => (&found.model, Sort::Model),
        };
        let inputs = Inputs {
            instance: self.file,
            bound: None,
            file,
            sort,
        };
        let mut words = Fault::from(refusal).to_string();
        for reason in reasons(refusal, &inputs) {
            words += &format!(": {reason}");
        }
        words
    }

    /// Turns a solver's proof of `claim`, which is one over `formula`, into steps
    /// and has the engine check them. False, with a note, if that fails.
    pub fn refute(&mut self, claim: Claim, formula: &Formula) -> Result<bool, Fault> {
        let name = claim.name();
        let proof = match self.folder.read(&format!("{name}.drat")) {
            Ok(proof) => proof,
            Err(fault) => {
                self.note(format!("no proof came: {fault}"));
                return Ok(false);
            }
        };
        let steps = match proofs::steps(formula, &proof, &mut Turning(self)) {
            Ok(steps) => steps,
            Err(Fault::Other(words)) => {
                self.note(format!("the proof {name}.drat cannot be used: {words}"));
                return Ok(false);
            }
            Err(fault) => return Err(fault),
        };
        let path = self.folder.write(&format!("{name}.proof"), &steps.bytes)?;
        match claim.check(self.file, &steps.bytes) {
            Ok(steps) => {
                self.outcome.refuted = Some(Refuted {
                    claim,
                    proof: path,
                    steps,
                });
                Ok(true)
            }
            Err(refusal) => {
                let refused = Fault::from(refusal);
                self.note(format!(
                    "the engine refuses the proof {name}.proof: {refused}"
                ));
                Ok(false)
            }
        }
    }
}

/// Passes on how far the turning of a proof is.
struct Turning<'a, 'b>(&'a mut Week<'b>);

impl Observer for Turning<'_, '_> {
    fn progress(&mut self, doing: &str, done: usize, of: usize) -> Result<(), Fault> {
        // Whole percents, so that not every word is a new one.
        let percent = done * 100 / of.max(1);
        self.0.tell(&format!("the proof's {doing}: {percent} %"))
    }
}
