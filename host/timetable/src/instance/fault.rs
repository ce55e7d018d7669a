//! Why an instance file is not accepted, in words.

use super::calendar::clock;
use super::field::{Field, Part};
use super::limits::{LONGEST_LIST, MOST_TIMES};
use std::fmt::{self, Display, Formatter};

/// Why a file is not accepted, and at which of its numbers.
#[derive(Clone, Debug, PartialEq, Eq)]
pub struct Fault {
    pub reason: Reason,
    /// For a constraint's end its kind; for a period or window its first number; for a
    /// whole calendar the 0 before it.
    pub field: Field,
}

#[derive(Clone, Copy, Debug, PartialEq, Eq)]
pub enum Reason {
    /// A number is cut short, overlong or too large.
    Malformed,
    Outside,
    /// A reference to nothing.
    Nothing,
    /// A list does not ascend.
    NotAscending,
    /// The counted list is too long.
    LongList(ConstraintEnd),
    /// lo is above hi.
    Crossed(ConstraintEnd),
    /// The shortest length is above the longest.
    CrossedLengths {
        shortest: usize,
        longest: usize,
    },
    /// Both events are this one.
    SameEvent {
        event: usize,
    },
    /// lo of a gap is above hi.
    CrossedGaps {
        lo: usize,
        hi: usize,
    },
    /// lo is above the length of the counted list.
    Unreachable(ConstraintEnd),
    /// This many bytes are left over.
    LeftOver(usize),
    /// The calendar, or a count, period or window of it.
    Calendar(CalendarRule),
}

/// The rule that a calendar breaks, or a count, period or window of it.
#[derive(Clone, Copy, Debug, PartialEq, Eq)]
pub enum CalendarRule {
    /// A count within its limits.
    Count,
    /// A number of a period or window within its limits.
    Limit {
        name: &'static str,
        value: u32,
        least: u32,
        most: u32,
    },
    /// A start below the end.
    Order { start: u32, end: u32 },
    /// A start that is not below the end of the period before.
    Overlap { start: u32, before: u32 },
    /// One period at least.
    NoPeriod,
    /// No more periods than there may be times.
    TooMany { periods: usize },
}

/// What is looked at once a constraint's last field is read: lo and hi as
/// written, and the length of its counted list.
#[derive(Clone, Copy, Debug, PartialEq, Eq)]
pub struct ConstraintEnd {
    pub lo: usize,
    pub hi: usize,
    pub length: usize,
}

impl Fault {
    /// The number of the engine's refusal.
    pub fn number(&self) -> u32 {
        match self.reason {
            Reason::Malformed => 1,
            Reason::Outside => 2,
            Reason::Nothing | Reason::NotAscending => 3,
            Reason::LongList(_) => 4,
            Reason::Crossed(_)
            | Reason::CrossedLengths { .. }
            | Reason::CrossedGaps { .. }
            | Reason::Unreachable(_) => 5,
            Reason::LeftOver(_) => 6,
            Reason::SameEvent { .. } => 19,
            Reason::Calendar(_) => 22,
        }
    }
}

impl Display for Fault {
    fn fmt(&self, out: &mut Formatter) -> fmt::Result {
        let path = &self.field.path;
        match (self.reason, path.part) {
            // What a constraint's end finds is said of the whole constraint.
            (
                Reason::LongList(_)
                | Reason::Crossed(_)
                | Reason::CrossedLengths { .. }
                | Reason::SameEvent { .. }
                | Reason::CrossedGaps { .. }
                | Reason::Unreachable(_),
                Part::Constraint(number, Some(kind)),
            ) => write!(
                out,
                "constraint {number}, kind {}: {}",
                kind.name,
                self.why()
            ),
            // So is what a calendar's rules find of the whole period, window or calendar.
            (Reason::Calendar(_), Part::Period { day, number }) => {
                write!(out, "day {day}, period {number}: {}", self.why())
            }
            (Reason::Calendar(_), Part::Window(number)) => {
                write!(out, "window {number}: {}", self.why())
            }
            (Reason::Calendar(CalendarRule::NoPeriod | CalendarRule::TooMany { .. }), _) => {
                write!(out, "calendar: {}", self.why())
            }
            _ => write!(out, "{path}: {}", self.why()),
        }
    }
}

impl Fault {
    /// The reason, with the number that was read where it matters.
    fn why(&self) -> String {
        let Field { value, limits, .. } = &self.field;
        let (least, most) = (limits.start(), limits.end());
        let value = value.unwrap_or_default();
        match self.reason {
            Reason::Outside | Reason::Calendar(CalendarRule::Count) => {
                format!("{value} is not from {least} to {most}")
            }
            Reason::Nothing if limits.is_empty() => {
                format!("{value} names nothing, there is none to name")
            }
            Reason::Nothing => format!("{value} names nothing, {least} to {most} are there"),
            Reason::NotAscending => format!("{value} is not above the entry before it"),
            Reason::LongList(end) | Reason::Crossed(end) | Reason::Unreachable(end) => {
                let ConstraintEnd { lo, hi, length } = end;
                format!("{} (lo {lo}, hi {hi}, length {length})", self.reason)
            }
            reason => reason.to_string(),
        }
    }
}

impl Display for Reason {
    fn fmt(&self, out: &mut Formatter) -> fmt::Result {
        match self {
            Reason::Malformed => write!(out, "the number is cut short, overlong or too large"),
            Reason::Outside => write!(out, "the value is outside its limits"),
            Reason::Nothing => write!(out, "the reference names nothing"),
            Reason::NotAscending => write!(out, "the list does not ascend"),
            Reason::LongList(ConstraintEnd { length, .. }) => write!(
                out,
                "its counted list has {length} entries, {LONGEST_LIST} are the most"
            ),
            Reason::Crossed(ConstraintEnd { lo, hi, .. }) => {
                write!(out, "lo is {lo}, above hi, which is {hi}")
            }
            Reason::CrossedLengths { shortest, longest } => {
                write!(
                    out,
                    "shortest is {shortest}, above longest, which is {longest}"
                )
            }
            Reason::SameEvent { event } => {
                write!(
                    out,
                    "its first and its second event are one, event {}",
                    event + 1
                )
            }
            Reason::CrossedGaps { lo, hi } => write!(
                out,
                "the least gap is {lo}, above the largest, which is {hi}"
            ),
            Reason::Unreachable(ConstraintEnd { lo, length, .. }) => write!(
                out,
                "lo is {lo}, above the {length} entries of its counted list"
            ),
            Reason::LeftOver(bytes) => write!(out, "{bytes} bytes are left over"),
            Reason::Calendar(rule) => write!(out, "{rule}"),
        }
    }
}

impl Display for CalendarRule {
    fn fmt(&self, out: &mut Formatter) -> fmt::Result {
        match *self {
            CalendarRule::Count => write!(out, "the count is outside its limits"),
            CalendarRule::Limit {
                name,
                value,
                least,
                most,
            } => write!(out, "its {name} is {value}, not from {least} to {most}"),
            CalendarRule::Order { start, end } => write!(
                out,
                "it ends at {}, not after its start at {}",
                clock(end),
                clock(start)
            ),
            CalendarRule::Overlap { start, before } => write!(
                out,
                "it starts at {}, before the one before it ends at {}",
                clock(start),
                clock(before)
            ),
            CalendarRule::NoPeriod => write!(out, "it has no period"),
            CalendarRule::TooMany { periods } => {
                write!(out, "it has {periods} periods, {MOST_TIMES} are the most")
            }
        }
    }
}
