//! `timetable text`: the clauses for a solver.

use super::frame::answer::Answer;
use super::frame::declare::Subcommand;
use super::frame::operands::{out, INSTANCE};
use crate::engine;

pub const SUBCOMMAND: Subcommand = Subcommand {
    name: "text",
    about: "the clauses as text for a solver, in the older 'p wcnf' form",
    operands: &[INSTANCE],
    options: &[out("where to write the text, in place of standard output")],
    prints: "the text",
    details: "",
    refusals: &[1..=6, 8..=8, 19..=19, 22..=22],
    run: |given, _| Ok(Answer::product(engine::text(given.bytes("INSTANCE"))?)),
};
