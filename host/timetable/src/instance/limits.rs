//! The limits of an instance file, and what its numbers refer to.

use std::ops::RangeInclusive;

pub const MOST_TIMES: u32 = 125;
pub const MOST_EVENTS: u32 = 1_024;
pub const MOST_RESOURCES: u32 = 99;
/// Of the groups that are written out.
pub const MOST_GROUPS: u32 = 1_024;
/// The days of a calendar.
pub const DAYS: u32 = 7;
/// The most periods of a day.
pub const MOST_PERIODS: u32 = 24;
/// The end of a day, in minutes after its begin.
pub const LAST_MINUTE: u32 = 1_440;
pub const MOST_WINDOWS: u32 = 1_024;
pub const MOST_CONSTRAINTS: u32 = 4_096;
pub const LARGEST_WEIGHT: u32 = 1_000;
/// The largest lo or hi.
pub const LARGEST_BOUND_OF_COUNT: u32 = 255;
/// The largest lo or hi of a gap.
pub const LARGEST_GAP: u32 = 124;
/// The most entries of a counted list.
pub const LONGEST_LIST: usize = 255;

/// What a reference can name.
#[derive(Clone, Copy, Debug, PartialEq, Eq)]
pub enum Thing {
    Time,
    Event,
    Resource,
    Group,
}

/// How many things there are to refer to.
#[derive(Clone, Copy, Debug, Default, PartialEq, Eq)]
pub struct Counts {
    pub times: usize,
    pub events: usize,
    pub resources: usize,
    /// Windows among them.
    pub groups: usize,
}

impl Counts {
    pub fn of(&self, thing: Thing) -> usize {
        match thing {
            Thing::Time => self.times,
            Thing::Event => self.events,
            Thing::Resource => self.resources,
            Thing::Group => self.groups,
        }
    }
}

/// The sort of a constraint's field.
#[derive(Clone, Copy, Debug, PartialEq, Eq)]
pub enum Sort {
    Resource,
    Event,
    Group,
    /// A list of events.
    Events,
    /// A list of groups.
    Groups,
    /// A lo or hi.
    Bound,
    /// How many times a subevent has.
    Length,
    /// A lo or hi of the times between two events.
    Gap,
}

impl Sort {
    /// What it names, or what the members of its list name.
    pub fn thing(self) -> Option<Thing> {
        match self {
            Sort::Resource => Some(Thing::Resource),
            Sort::Event | Sort::Events => Some(Thing::Event),
            Sort::Group | Sort::Groups => Some(Thing::Group),
            Sort::Bound | Sort::Length | Sort::Gap => None,
        }
    }

    /// What a number of this sort, or a member of such a list, may be in a file.
    pub fn limits(self, counts: &Counts) -> RangeInclusive<u32> {
        match (self.thing(), self) {
            (Some(thing), _) => 1..=counts.of(thing) as u32,
            (None, Sort::Length) => 1..=counts.times as u32,
            (None, Sort::Gap) => 0..=LARGEST_GAP,
            (None, _) => 0..=LARGEST_BOUND_OF_COUNT,
        }
    }

    /// Whether a text leaves lo and hi out where both are at their limits.
    pub fn may_be_left_out(self) -> bool {
        self == Sort::Gap
    }

    pub fn is_list(self) -> bool {
        matches!(self, Sort::Events | Sort::Groups)
    }
}
