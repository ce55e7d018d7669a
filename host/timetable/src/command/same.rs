//! `timetable same`: whether two timetables are the same sheet.

use super::frame::answer::{Answer, Fault, ACCEPTED, REFUSED};
use super::frame::declare::Subcommand;
use super::frame::operands::{timetable, INSTANCE, JSON};
use crate::engine;

pub const SUBCOMMAND: Subcommand = Subcommand {
    name: "same",
    about: "whether two timetables are the same sheet",
    operands: &[
        INSTANCE,
        timetable("FIRST", "the first timetable's bytes"),
        timetable("SECOND", "the second timetable's bytes"),
    ],
    options: &[JSON],
    prints: "'same' or 'different'",
    details: "The exit status is 1 also where they are different.",
    refusals: &[1..=6, 10..=12, 19..=19, 22..=22],
    run: |given, _| {
        let [file, first, second] = ["INSTANCE", "FIRST", "SECOND"].map(|name| given.bytes(name));
        let same = engine::same_sheet(file, first, second).map_err(|refusal| Fault::Refused {
            refusal,
            // The first timetable is judged first, as it is for its score.
            operand: engine::score(file, first).is_ok().then_some("SECOND"),
        })?;
        let (verdict, status) = match same {
            true => ("same", ACCEPTED),
            false => ("different", REFUSED),
        };
        Ok(Answer {
            status,
            ..Answer::report(Some(verdict), &[])
        })
    },
};
