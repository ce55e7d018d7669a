//! The instance file and its refusals 1 to 6 and 19; 22 stands with the calendar.
//!
//! In the file references start at 1; here times, events, resources and groups
//! are indices from 0.

use super::calendar::Calendar;
use super::number::read_number;
use super::refusal::refuse;
use std::ops::RangeInclusive;
use timetable::engine::{Refusal, Summary};

pub const MOST_TIMES: u32 = 125;
const MOST_EVENTS: u32 = 1_024;
const MOST_RESOURCES: u32 = 99;
const MOST_GROUPS: u32 = 1_024;
const MOST_CONSTRAINTS: u32 = 4_096;
const MOST_KINDS: u32 = 11;
const LARGEST_WEIGHT: u32 = 1_000;
pub const LARGEST_HI: u32 = 255;
pub const LARGEST_GAP: u32 = 124;
pub const LONGEST_LIST: usize = 255;

#[derive(Clone, Debug, PartialEq, Eq)]
pub struct Instance {
    pub times: usize,
    pub resources: usize,
    /// What stands in place of the number of times.
    pub calendar: Option<Calendar>,
    pub events: Vec<Event>,
    /// Each group's times, ascending: the time groups, then the windows.
    pub groups: Vec<Vec<usize>>,
    pub constraints: Vec<Constraint>,
}

#[derive(Clone, Debug, PartialEq, Eq)]
pub struct Event {
    pub duration: usize,
    pub resources: Vec<usize>,
}

#[derive(Clone, Debug, PartialEq, Eq)]
pub struct Constraint {
    /// 0 means hard.
    pub weight: u32,
    pub kind: Kind,
}

#[derive(Clone, Debug, PartialEq, Eq)]
pub enum Kind {
    Clash {
        resource: usize,
    },
    Unavailable {
        resource: usize,
        group: usize,
    },
    /// Times held by a subevent that starts outside the group.
    PreferredTimes {
        event: usize,
        group: usize,
    },
    Split {
        event: usize,
        range: Range,
    },
    Spread {
        events: Vec<usize>,
        group: usize,
        range: Range,
    },
    BusyLimit {
        resource: usize,
        group: usize,
        range: Range,
    },
    Cluster {
        resource: usize,
        groups: Vec<usize>,
        range: Range,
    },
    Idle {
        resource: usize,
        groups: Vec<usize>,
        range: Range,
    },
    /// How many subevents of `length` times the event has.
    Distribute {
        event: usize,
        length: usize,
        range: Range,
    },
    /// Subevents shorter than `shortest` or longer than `longest`.
    Lengths {
        event: usize,
        shortest: usize,
        longest: usize,
    },
    /// Whether the gap between two events lies outside its bounds.
    Precedence {
        first: usize,
        second: usize,
        gap: Range,
    },
}

/// The bounds of a count or of a gap, as written in the file.
#[derive(Clone, Copy, Debug, PartialEq, Eq)]
pub struct Range {
    pub lo: u32,
    pub hi: u32,
}

/// Reads an instance file: accepted, or 1 to 6, 19, 22.
pub fn read(file: &[u8]) -> Result<Summary, Refusal> {
    let instance = Instance::read(file)?;
    Ok(Summary {
        times: instance.times,
        events: instance.events.len(),
        resources: instance.resources,
        groups: instance.groups.len(),
        constraints: instance.constraints.len(),
    })
}

impl Instance {
    pub fn read(file: &[u8]) -> Result<Instance, Refusal> {
        let mut reader = Reader { file, offset: 0 };
        let (times, calendar) = match reader.within(0..=MOST_TIMES)? {
            0 => {
                let calendar = reader.calendar()?;
                (calendar.times(), Some(calendar))
            }
            times => (times as usize, None),
        };
        let events = reader.within(1..=MOST_EVENTS)?;
        let resources = reader.within(0..=MOST_RESOURCES)? as usize;
        let mut instance = Instance {
            times,
            resources,
            calendar,
            events: Vec::new(),
            groups: Vec::new(),
            constraints: Vec::new(),
        };
        for _ in 0..events {
            instance.events.push(Event {
                duration: reader.within(1..=times as u32)? as usize,
                resources: reader.list(resources)?,
            });
        }
        for _ in 0..reader.within(0..=MOST_GROUPS)? {
            instance.groups.push(reader.list(times)?);
        }
        if let Some(calendar) = &mut instance.calendar {
            calendar.windows = reader.windows()?;
            let windows = calendar.windows.iter();
            let groups = windows.map(|&window| calendar.group(window));
            instance.groups.extend(groups);
        }
        for _ in 0..reader.within(0..=MOST_CONSTRAINTS)? {
            let constraint = reader.constraint(&instance)?;
            instance.constraints.push(constraint);
        }
        if reader.offset < file.len() {
            return refuse(6, reader.offset as u64);
        }
        Ok(instance)
    }

    /// The groups that are no windows.
    pub fn time_groups(&self) -> &[Vec<usize>] {
        let calendar = self.calendar.as_ref();
        let windows = calendar.map_or(0, |calendar| calendar.windows.len());
        &self.groups[..self.groups.len() - windows]
    }

    /// The events that use `resource`, ascending.
    pub fn events_of(&self, resource: usize) -> Vec<usize> {
        (0..self.events.len())
            .filter(|&event| self.uses(event, resource))
            .collect()
    }

    pub fn uses(&self, event: usize, resource: usize) -> bool {
        self.events[event]
            .resources
            .binary_search(&resource)
            .is_ok()
    }

    /// Whether `time` is not in `group`.
    pub fn outside(&self, group: usize, time: usize) -> bool {
        self.groups[group].binary_search(&time).is_err()
    }

    /// Whether a subevent of `event` that starts outside `group`, before `time`,
    /// can be long enough to hold `time`.
    pub fn reachable(&self, event: usize, group: usize, time: usize) -> bool {
        let first = (time + 1).saturating_sub(self.events[event].duration);
        (first..time).any(|start| self.outside(group, start))
    }

    /// The length of a counted list of `kind`. All lists of a clash are equally long.
    pub fn list_length(&self, kind: &Kind) -> usize {
        match kind {
            Kind::Clash { resource } => (0..self.events.len())
                .filter(|&event| self.uses(event, *resource))
                .count(),
            Kind::Unavailable { group, .. } | Kind::BusyLimit { group, .. } => {
                self.groups[*group].len()
            }
            Kind::PreferredTimes { event, group } => (0..self.times)
                .filter(|&time| self.outside(*group, time) || self.reachable(*event, *group, time))
                .count(),
            Kind::Split { .. } | Kind::Distribute { .. } | Kind::Lengths { .. } => self.times,
            Kind::Spread { events, group, .. } => events.len() * self.groups[*group].len(),
            Kind::Cluster { groups, .. } => groups.len(),
            Kind::Idle { groups, .. } => groups
                .iter()
                .map(|&group| self.groups[group].len().saturating_sub(2))
                .sum(),
            Kind::Precedence { .. } => 1,
        }
    }
}

impl Kind {
    /// The bounds of the count.
    pub fn range(&self) -> Range {
        match self {
            Kind::Clash { .. } => Range { lo: 0, hi: 1 },
            Kind::Unavailable { .. }
            | Kind::PreferredTimes { .. }
            | Kind::Lengths { .. }
            | Kind::Precedence { .. } => Range { lo: 0, hi: 0 },
            Kind::Split { range, .. }
            | Kind::Spread { range, .. }
            | Kind::BusyLimit { range, .. }
            | Kind::Cluster { range, .. }
            | Kind::Idle { range, .. }
            | Kind::Distribute { range, .. } => *range,
        }
    }

    /// Whether lo is above hi as written, of the count or of the gap, or shortest
    /// above longest.
    fn crossed(&self) -> bool {
        let Range { lo, hi } = self.range();
        match self {
            Kind::Lengths {
                shortest, longest, ..
            } => shortest > longest,
            Kind::Precedence { gap, .. } => gap.lo > gap.hi,
            _ => lo > hi,
        }
    }

    /// Whether the two events are one.
    fn same_event(&self) -> bool {
        matches!(self, Kind::Precedence { first, second, .. } if first == second)
    }
}

pub(super) struct Reader<'a> {
    file: &'a [u8],
    pub(super) offset: usize,
}

impl Reader<'_> {
    pub(super) fn number(&mut self) -> Result<u32, Refusal> {
        match read_number(self.file, self.offset) {
            Some((value, next)) => {
                self.offset = next;
                Ok(value)
            }
            None => refuse(1, self.offset as u64),
        }
    }

    fn within(&mut self, limit: RangeInclusive<u32>) -> Result<u32, Refusal> {
        let start = self.offset;
        let value = self.number()?;
        if !limit.contains(&value) {
            return refuse(2, start as u64);
        }
        Ok(value)
    }

    /// The index of one of `things` things, not below `least`.
    fn reference(&mut self, least: usize, things: usize) -> Result<usize, Refusal> {
        let start = self.offset;
        match (self.number()? as usize).checked_sub(1) {
            Some(index) if (least..things).contains(&index) => Ok(index),
            _ => refuse(3, start as u64),
        }
    }

    /// A strictly ascending list of indices of `things` things.
    fn list(&mut self, things: usize) -> Result<Vec<usize>, Refusal> {
        let count = self.within(0..=things as u32)?;
        let mut members = Vec::with_capacity(count as usize);
        let mut least = 0;
        for _ in 0..count {
            let member = self.reference(least, things)?;
            members.push(member);
            least = member + 1;
        }
        Ok(members)
    }

    /// A lo and a hi, neither above `most`.
    fn bounds(&mut self, most: u32) -> Result<Range, Refusal> {
        Ok(Range {
            lo: self.within(0..=most)?,
            hi: self.within(0..=most)?,
        })
    }

    /// The bounds of a count.
    fn range(&mut self) -> Result<Range, Refusal> {
        self.bounds(LARGEST_HI)
    }

    fn constraint(&mut self, instance: &Instance) -> Result<Constraint, Refusal> {
        let start = self.offset;
        let code = self.within(1..=MOST_KINDS)?;
        let weight = self.within(0..=LARGEST_WEIGHT)?;
        let kind = self.kind(instance, code)?;

        let length = instance.list_length(&kind);
        if length > LONGEST_LIST {
            return refuse(4, start as u64);
        }
        if kind.same_event() {
            return refuse(19, start as u64);
        }
        if kind.crossed() || kind.range().lo as usize > length {
            return refuse(5, start as u64);
        }
        Ok(Constraint { weight, kind })
    }

    /// The fields of the kind with the number `code`.
    fn kind(&mut self, instance: &Instance, code: u32) -> Result<Kind, Refusal> {
        let resources = instance.resources;
        let events = instance.events.len();
        let groups = instance.groups.len();
        Ok(match code {
            1 => Kind::Clash {
                resource: self.reference(0, resources)?,
            },
            2 => Kind::Unavailable {
                resource: self.reference(0, resources)?,
                group: self.reference(0, groups)?,
            },
            3 => Kind::PreferredTimes {
                event: self.reference(0, events)?,
                group: self.reference(0, groups)?,
            },
            4 => Kind::Split {
                event: self.reference(0, events)?,
                range: self.range()?,
            },
            5 => Kind::Spread {
                events: self.list(events)?,
                group: self.reference(0, groups)?,
                range: self.range()?,
            },
            6 => Kind::BusyLimit {
                resource: self.reference(0, resources)?,
                group: self.reference(0, groups)?,
                range: self.range()?,
            },
            7 => Kind::Cluster {
                resource: self.reference(0, resources)?,
                groups: self.list(groups)?,
                range: self.range()?,
            },
            8 => Kind::Idle {
                resource: self.reference(0, resources)?,
                groups: self.list(groups)?,
                range: self.range()?,
            },
            9 => Kind::Distribute {
                event: self.reference(0, events)?,
                length: self.length(instance)?,
                range: self.range()?,
            },
            10 => Kind::Lengths {
                event: self.reference(0, events)?,
                shortest: self.length(instance)?,
                longest: self.length(instance)?,
            },
            _ => Kind::Precedence {
                first: self.reference(0, events)?,
                second: self.reference(0, events)?,
                gap: self.bounds(LARGEST_GAP)?,
            },
        })
    }

    /// The length of a subevent.
    fn length(&mut self, instance: &Instance) -> Result<usize, Refusal> {
        Ok(self.within(1..=instance.times as u32)? as usize)
    }
}
