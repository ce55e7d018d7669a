//! The numbers of an instance file by name, so that an offset can be told in words.

use super::kinds::KindFacts;
use std::fmt::{self, Display, Formatter};
use std::ops::RangeInclusive;

/// One number of an instance file.
#[derive(Clone, Debug, PartialEq, Eq)]
pub struct Field {
    pub path: Path,
    /// Where its first byte stands.
    pub offset: usize,
    /// The number read; none if it is cut short, overlong or too large, and
    /// none after the last constraint.
    pub value: Option<u32>,
    /// What it may be. A reference where there is nothing to refer to has an
    /// empty range, and so has what stands after the last constraint.
    pub limits: RangeInclusive<u32>,
}

/// Which number of the file this is; shown as "constraint 3, kind spread,
/// event list, entry 2".
#[derive(Clone, Copy, Debug, PartialEq, Eq)]
pub struct Path {
    pub part: Part,
    /// What the number is, in words; for a list what is listed.
    pub name: &'static str,
    pub entry: Entry,
}

/// A part of the file. Days, periods, events, groups, windows and constraints count
/// from 1.
#[derive(Clone, Copy, Debug, PartialEq, Eq)]
pub enum Part {
    /// The counts of times, events, resources, groups, windows and constraints; a
    /// calendar follows if that of times is 0.
    Counts,
    /// A day of the calendar: how many periods it has.
    Day(usize),
    Period {
        day: usize,
        number: usize,
    },
    Event(usize),
    Group(usize),
    Window(usize),
    /// A constraint, with its kind once that is read.
    Constraint(usize, Option<&'static KindFacts>),
    /// After the last constraint.
    End,
}

/// Whether a number stands alone, or where it stands in a list.
#[derive(Clone, Copy, Debug, PartialEq, Eq)]
pub enum Entry {
    Alone,
    Count,
    /// From 1.
    Member(usize),
}

impl Display for Path {
    fn fmt(&self, out: &mut Formatter) -> fmt::Result {
        match self.part {
            Part::Counts => write!(out, "number of {}", self.name)?,
            Part::Day(day) => write!(out, "day {day}, number of {}", self.name)?,
            Part::Period { day, number } => {
                write!(out, "day {day}, period {number}, {}", self.name)?
            }
            Part::Event(number) => write!(out, "event {number}, {}", self.name)?,
            Part::Group(number) => write!(out, "group {number}, {}", self.name)?,
            Part::Window(number) => write!(out, "window {number}, {}", self.name)?,
            Part::Constraint(number, None) => write!(out, "constraint {number}, {}", self.name)?,
            Part::Constraint(number, Some(kind)) => write!(
                out,
                "constraint {number}, kind {}, {}",
                kind.name, self.name
            )?,
            Part::End => write!(out, "after the last constraint")?,
        }
        match self.entry {
            Entry::Alone => Ok(()),
            Entry::Count => write!(out, ", count"),
            Entry::Member(number) => write!(out, ", entry {number}"),
        }
    }
}
