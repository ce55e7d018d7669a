//! `timetable dimacs`: the clauses with the tail for a bound.

use super::frame::answer::Answer;
use super::frame::declare::{Count, Operand, Subcommand};
use super::frame::operands::{out, BOUND, INSTANCE};
use crate::solver::dimacs;
use crate::solver::formula::Formula;

pub const SUBCOMMAND: Subcommand = Subcommand {
    name: "dimacs",
    about: "the hard clauses, with the tail for a bound, as 'p cnf' for a solver",
    operands: &[
        INSTANCE,
        Operand {
            count: Count::Optional,
            ..BOUND
        },
    ],
    options: &[out("where to write the text, in place of standard output")],
    prints: "the text",
    details:
        "A clause's id is the number of its line after the header. A model of the text with a \
              bound is a timetable that costs the bound or less; if there is none, the solver's \
              proof becomes a bound proof by 'timetable steps'.",
    refusals: &[1..=8, 19..=19, 22..=22],
    run: |given, _| {
        let file = given.bytes("INSTANCE");
        let formula = match given.number_if("BOUND") {
            Some(bound) => Formula::at_bound(file, bound)?,
            None => Formula::of(file)?,
        };
        Ok(Answer::product(dimacs::text(&formula)))
    },
};
