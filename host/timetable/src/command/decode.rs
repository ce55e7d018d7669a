//! `timetable decode`: the timetable that a model holds.

use super::frame::answer::Answer;
use super::frame::declare::Subcommand;
use super::frame::operands::{out, INSTANCE, JSON, MODEL};
use crate::engine;

pub const SUBCOMMAND: Subcommand = Subcommand {
    name: "decode",
    about: "the timetable that a model holds, and its cost",
    operands: &[INSTANCE, MODEL],
    options: &[out("where to write the timetable's bytes"), JSON],
    prints: "objective with its number, and bytes with the timetable's length, each on a line",
    details: "",
    refusals: &[1..=6, 8..=8, 10..=11, 13..=13, 19..=19, 22..=22],
    run: |given, _| {
        let (part, cost) = engine::decode(given.bytes("INSTANCE"), given.bytes("MODEL"))?;
        let counts = [("objective", cost.0), ("bytes", part.len() as u64)];
        Ok(Answer {
            product: Some(part.to_vec()),
            ..Answer::report(None, &counts)
        })
    },
};
