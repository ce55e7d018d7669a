//! `timetable read`: whether an instance file is accepted.

use super::frame::answer::{Answer, Fault};
use super::frame::declare::Subcommand;
use super::frame::operands::{INSTANCE, JSON};
use crate::engine;

pub const SUBCOMMAND: Subcommand = Subcommand {
    name: "read",
    about: "whether an instance file is accepted, and how much it holds",
    operands: &[INSTANCE],
    options: &[JSON],
    prints: "'accepted', then times, events, resources, groups and constraints, each with its \
             number on a line",
    details: "The periods of a calendar are times, and its windows count among the groups.",
    refusals: &[1..=6, 19..=19, 22..=22],
    run: |given, _| report(given.bytes("INSTANCE")),
};

/// What is said of an instance file that the engine accepts.
pub fn report(file: &[u8]) -> Result<Answer, Fault> {
    Ok(Answer::report(Some(ACCEPTED), &counts(file)?))
}

/// The verdict on an instance file that the engine accepts.
pub const ACCEPTED: &str = "accepted";

/// How much an instance file holds.
pub fn counts(file: &[u8]) -> Result<[(&'static str, u64); 5], Fault> {
    let found = engine::read(file)?;
    Ok([
        ("times", found.times as u64),
        ("events", found.events as u64),
        ("resources", found.resources as u64),
        ("groups", found.groups as u64),
        ("constraints", found.constraints as u64),
    ])
}
