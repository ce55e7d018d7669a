//! `timetable check`: whether a proof shows that nothing costs the bound or less.

use super::frame::answer::Answer;
use super::frame::declare::{Operand, Subcommand, Value};
use super::frame::operands::{BOUND, INSTANCE, JSON, PROOF};
use crate::engine;

pub const SUBCOMMAND: Subcommand = Subcommand {
    name: "check",
    about: "whether a proof shows that no timetable costs the bound or less, or that there is none",
    operands: &[
        INSTANCE,
        Operand {
            about: "a cost, from 0 to 4095; or 'none' for no timetable at all, whatever it costs",
            value: Value::NumberOr("none"),
            ..BOUND
        },
        PROOF,
    ],
    options: &[JSON],
    prints: "'no timetable', then bound and steps, each with its number on a line; at 'none' \
             'no timetable at all' and steps",
    details: "At 'none' the proof is one against the hard clauses alone, as 'timetable steps' \
              makes it for 'none'.",
    refusals: &[1..=8, 14..=16, 18..=19, 22..=22],
    run: |given, _| {
        let (file, proof) = (given.bytes("INSTANCE"), given.bytes("PROOF"));
        let Some(bound) = given.number_if("BOUND") else {
            let steps = engine::check_hard(file, proof)?;
            return Ok(Answer::report(
                Some("no timetable at all"),
                &[("steps", steps)],
            ));
        };
        let steps = engine::check(file, bound, proof)?;
        let numbers = [("bound", bound), ("steps", steps)];
        Ok(Answer::report(Some("no timetable"), &numbers))
    },
};
