//! `timetable steps`: a solver's proof turned into a bound proof.

use super::frame::answer::Answer;
use super::frame::declare::{Count, Operand, Subcommand, Value};
use super::frame::messages::Messages;
use super::frame::operands::{out, INSTANCE, MOST_PROOF_BYTES};
use crate::solver::formula::Formula;
use crate::solver::proofs::{self, Observer, Steps};
use crate::solver::Fault;
use std::time::{Duration, Instant};

pub const SUBCOMMAND: Subcommand = Subcommand {
    name: "steps",
    about: "a solver's proof turned into a bound proof, for 'timetable check'",
    operands: &[
        INSTANCE,
        Operand {
            name: "BOUND",
            about: "the bound of the clauses that the solver was given, or 'none' for no tail",
            value: Value::NumberOr("none"),
            count: Count::One,
        },
        Operand {
            name: "PROOF",
            about: "a solver's proof: DRAT, DRUP or LRAT, in text or in binary",
            value: Value::File(MOST_PROOF_BYTES),
            count: Count::One,
        },
    ],
    options: &[out("where to write the steps, in place of standard output")],
    prints: "the steps' bytes",
    details:
        "The solver must have been given what 'timetable dimacs' writes for the same file and \
              bound. The hints of an LRAT proof are put in order; those of a DRAT proof are found. \
              A RAT step is refused: no hints spell it.",
    refusals: &[1..=8, 19..=19, 22..=22],
    run: |given, messages| {
        let file = given.bytes("INSTANCE");
        let formula = match given.number_if("BOUND") {
            Some(bound) => Formula::at_bound(file, bound)?,
            None => Formula::of(file)?,
        };
        let mut observer = Spoken::new(messages);
        let steps = proofs::steps(&formula, given.bytes("PROOF"), &mut observer)?;
        Ok(Answer {
            remarks: remarks(&steps),
            ..Answer::product(steps.bytes)
        })
    },
};

fn remarks(steps: &Steps) -> String {
    let Steps {
        lemmas,
        kept,
        ignored_deletions,
        ..
    } = steps;
    let mut remarks = format!("clauses in the solver's proof {lemmas}, in the steps {kept}\n");
    if *ignored_deletions > 0 {
        remarks += &format!(
            "deletions without a counterpart {ignored_deletions}: of clauses that are not there, \
             or that hold a literal in place\n"
        );
    }
    remarks
}

/// Says about once a second how far the work is.
struct Spoken<'a, 'b> {
    messages: &'a mut Messages<'b>,
    started: Instant,
    said: Instant,
}

impl<'a, 'b> Spoken<'a, 'b> {
    fn new(messages: &'a mut Messages<'b>) -> Self {
        let started = Instant::now();
        Spoken {
            messages,
            started,
            said: started,
        }
    }
}

impl Observer for Spoken<'_, '_> {
    fn progress(&mut self, doing: &str, done: usize, of: usize) -> Result<(), Fault> {
        if self.said.elapsed() > Duration::from_secs(1) {
            self.said = Instant::now();
            let seconds = self.started.elapsed().as_secs();
            let line = format!("{seconds} s: {doing}: {done} of {of}");
            self.messages.progress(&line);
        }
        Ok(())
    }
}
