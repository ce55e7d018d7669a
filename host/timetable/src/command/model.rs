//! `timetable model`: the model in a solver's output.

use super::frame::answer::Answer;
use super::frame::declare::{Count, Operand, Subcommand, Value};
use super::frame::operands::{out, INSTANCE, MOST_PROOF_BYTES};
use crate::engine::{self, refusal, Refusal};
use crate::solver::answers;
use std::ops::Range;

pub const SUBCOMMAND: Subcommand = Subcommand {
    name: "model",
    about: "the model in a solver's output, for 'timetable decode'",
    operands: &[
        INSTANCE,
        Operand {
            name: "ANSWER",
            about: "what a solver printed",
            value: Value::File(MOST_PROOF_BYTES),
            count: Count::One,
        },
    ],
    options: &[out("where to write the model, in place of standard output")],
    prints: "the model: a byte, 0 or 1, for each variable",
    details: "Read are lines 'v 1 -2 3 0' and 'v 101', the result file of minisat, and what z3 \
              prints. Of several models the last counts. Lines v of literals are read by the \
              engine: they must give each variable once, and the model must keep the hard clauses. \
              Where they name variables of a tail too, these are passed over; in the other forms a \
              variable that is not named is 0; and then whether the model keeps the clauses is for \
              'timetable decode' to say.",
    refusals: &[1..=6, 8..=8, 13..=13, 19..=22],
    run: |given, _| {
        let (file, output) = (given.bytes("INSTANCE"), given.bytes("ANSWER"));
        let variables = engine::model_length(file)?;
        let model = match answers::for_engine(output, variables) {
            Some(part) => read_by_engine(file, output, part)?,
            None => answers::model(output, variables)?,
        };
        Ok(Answer::product(model))
    },
};

/// The model that the engine reads in a part of a solver's output. An offset that
/// a refusal gives is one of the whole output.
fn read_by_engine(file: &[u8], output: &[u8], part: Range<usize>) -> Result<Vec<u8>, Refusal> {
    let from = part.start as u64;
    match engine::solver_text(file, &output[part]) {
        Ok((model, _, _)) => Ok(model),
        Err(Refusal { number, value }) if number == refusal::BAD_SOLVER_TEXT => Err(Refusal {
            number,
            value: from + value,
        }),
        Err(refused) => Err(refused),
    }
}
