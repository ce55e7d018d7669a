//! `timetable score`: what a timetable is charged.

use super::frame::answer::Answer;
use super::frame::declare::Subcommand;
use super::frame::operands::{INSTANCE, JSON, TIMETABLE};
use crate::engine;

pub const SUBCOMMAND: Subcommand = Subcommand {
    name: "score",
    about: "the infeasibility and the objective of a timetable",
    operands: &[INSTANCE, TIMETABLE],
    options: &[JSON],
    prints: "infeasibility and objective, each with its number on a line",
    details: "",
    refusals: &[1..=6, 10..=12, 19..=19, 22..=22],
    run: |given, _| {
        let score = engine::score(given.bytes("INSTANCE"), given.bytes("TIMETABLE"))?;
        Ok(Answer::report(
            None,
            &[
                ("infeasibility", score.infeasibility.0),
                ("objective", score.objective.0),
            ],
        ))
    },
};
