//! `timetable explain`: an instance file as a school's text.

use super::frame::answer::Answer;
use super::frame::declare::Subcommand;
use super::frame::operands::{out, INSTANCE};
use super::names::{self, NAMES, NO_NAMES};
use crate::school::print;

pub const SUBCOMMAND: Subcommand = Subcommand {
    name: "explain",
    about: "an instance file in the text form, from its bytes",
    operands: &[INSTANCE],
    options: &[NAMES, NO_NAMES, out("where to write the text")],
    prints: "the text; 'compile' makes the same bytes of it again",
    details: names::ABOUT,
    refusals: &[1..=6, 19..=19, 22..=22],
    run: |given, _| {
        let school = names::school(given)?;
        Ok(Answer::product(print(&school).into_bytes()))
    },
};
