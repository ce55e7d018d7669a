//! `timetable diff`: what moved between two timetables.

use super::frame::answer::{Answer, ACCEPTED, REFUSED};
use super::frame::declare::Subcommand;
use super::frame::operands::{out, timetable, INSTANCE};
use super::names::{self, NAMES, NO_NAMES};
use super::show::{by_sort, flag, view};
use crate::view::{diff, diff_page, diff_text, grids};

pub const SUBCOMMAND: Subcommand = Subcommand {
    name: "diff",
    about: "what moved between two timetables, and what it changes",
    operands: &[
        INSTANCE,
        timetable("FIRST", "the first timetable's bytes"),
        timetable("SECOND", "the second timetable's bytes"),
    ],
    options: &[
        flag(
            "html",
            "as an HTML page, with what moved marked in the grids",
        ),
        NAMES,
        NO_NAMES,
        out("where to write it"),
    ],
    prints: "'nothing moved', or each lesson that moved, from where to where, the constraints \
             that charge something else, and both sums of charges",
    details: "A block that is cut in two or joined at the same times has moved too. The exit \
              status is 1 also where something moved.",
    refusals: &[1..=6, 10..=12, 19..=19, 22..=22],
    run: |given, _| {
        let school = names::school(given)?;
        let first = view(given, &school, "FIRST")?;
        let second = view(given, &school, "SECOND")?;
        let diff = diff(&first, &second);
        let told = match given.flag("html") {
            true => diff_page(
                &first,
                &second,
                &diff,
                &grids(&second, &by_sort(&school), true),
            ),
            false => diff_text(&first, &second, &diff),
        };
        Ok(Answer {
            status: if diff.is_empty() { ACCEPTED } else { REFUSED },
            ..Answer::product(told.into_bytes())
        })
    },
};
