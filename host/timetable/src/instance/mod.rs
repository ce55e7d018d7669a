//! An instance file as typed values: read from bytes, written to bytes, and
//! each of its numbers named.
//!
//! In a file references start at 1; here times, events, resources and groups
//! are indices from 0. Windows are groups, numbered on from those written out. What a kind of constraint holds stands in one table,
//! `kinds`: reading, writing, the names of fields and the text form go by it.

mod calendar;
mod counted;
mod fault;
mod field;
mod kinds;
mod limits;
mod read;
mod read_calendar;
mod words;
mod write;

pub use calendar::{clock, minute, Calendar, Period, Window};
pub use counted::{Range, Reach};
pub use fault::{CalendarRule, ConstraintEnd, Fault, Reason};
pub use field::{Entry, Field, Part, Path};
pub use kinds::{kind_named, FieldFacts, Kind, KindFacts, Source, Value, KINDS};
pub use limits::{
    Counts, Sort, Thing, DAYS, LARGEST_BOUND_OF_COUNT, LARGEST_GAP, LARGEST_WEIGHT, LAST_MINUTE,
    LONGEST_LIST, MOST_CONSTRAINTS, MOST_EVENTS, MOST_GROUPS, MOST_PERIODS, MOST_RESOURCES,
    MOST_TIMES, MOST_WINDOWS,
};
pub use read::{field_at, read};
pub use write::write;

#[derive(Clone, Debug, Default, PartialEq, Eq)]
pub struct Instance {
    pub times: usize,
    /// What the times stand for, if the file says so.
    pub calendar: Option<Calendar>,
    pub resources: usize,
    pub events: Vec<Event>,
    /// Each group's times, ascending: of the groups that are written out, then of the
    /// calendar's windows.
    pub groups: Vec<Vec<usize>>,
    pub constraints: Vec<Constraint>,
}

#[derive(Clone, Debug, PartialEq, Eq)]
pub struct Event {
    pub duration: usize,
    /// Ascending.
    pub resources: Vec<usize>,
}

#[derive(Clone, Debug, PartialEq, Eq)]
pub struct Constraint {
    /// 0 means hard.
    pub weight: u32,
    pub kind: Kind,
}

impl Instance {
    /// How many things there are to refer to.
    pub fn counts(&self) -> Counts {
        Counts {
            times: self.times,
            events: self.events.len(),
            resources: self.resources,
            groups: self.groups.len(),
        }
    }

    /// The windows, if there is a calendar.
    pub fn windows(&self) -> &[Window] {
        self.calendar.as_ref().map_or(&[], |found| &found.windows)
    }

    /// The groups that are written out.
    pub fn written_groups(&self) -> &[Vec<usize>] {
        &self.groups[..self.groups.len() - self.windows().len()]
    }

    /// Adds a window to the calendar, and the group that it stands for.
    pub fn add_window(&mut self, window: Window) {
        if let Some(calendar) = &mut self.calendar {
            self.groups.push(calendar.members(window));
            calendar.windows.push(window);
        }
    }

    pub fn uses(&self, event: usize, resource: usize) -> bool {
        let resources = &self.events[event].resources;
        resources.binary_search(&resource).is_ok()
    }
}
