//! `timetable sizes`: what stores a proof check needs.

use super::frame::answer::Answer;
use super::frame::declare::Subcommand;
use super::frame::operands::{BOUND, INSTANCE, JSON};
use crate::engine;

pub const SUBCOMMAND: Subcommand = Subcommand {
    name: "sizes",
    about: "what stores a proof check at a bound needs",
    operands: &[INSTANCE, BOUND],
    options: &[JSON],
    prints: "variables, clauses and words of the hard clauses and the tail for the bound, each \
             with its number on a line",
    details: "",
    refusals: &[1..=8, 19..=19, 22..=22],
    run: |given, _| {
        let found = engine::sizes(given.bytes("INSTANCE"), given.number("BOUND"))?;
        Ok(Answer::report(
            None,
            &[
                ("variables", found.variables),
                ("clauses", found.clauses),
                ("words", found.words),
            ],
        ))
    },
};
