//! `timetable best`: whether a model is the best.

use super::frame::answer::Answer;
use super::frame::declare::Subcommand;
use super::frame::operands::{INSTANCE, JSON, MODEL, PROOF};
use crate::engine;

pub const SUBCOMMAND: Subcommand = Subcommand {
    name: "best",
    about: "whether a proof shows that no timetable costs less than a model's",
    operands: &[INSTANCE, MODEL, PROOF],
    options: &[JSON],
    prints: "'best', then objective and steps, each with its number on a line",
    details: "The proof is one at the bound one below the model's cost. A model that costs 0 \
              needs none: its file may be empty.",
    refusals: &[1..=8, 10..=11, 13..=16, 18..=19, 22..=22],
    run: |given, _| {
        let (cost, steps) = engine::best(
            given.bytes("INSTANCE"),
            given.bytes("MODEL"),
            given.bytes("PROOF"),
        )?;
        let numbers = [("objective", cost.0), ("steps", steps)];
        Ok(Answer::report(Some("best"), &numbers))
    },
};
