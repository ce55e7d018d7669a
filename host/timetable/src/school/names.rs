//! The names of an instance's things, in the order of their numbers.

use crate::instance::{clock, Calendar, Counts, Instance, DAYS};

#[derive(Clone, Debug, Default, PartialEq, Eq)]
pub struct Names {
    /// The school's own name.
    pub title: Option<String>,
    /// The times, day by day; those of a calendar are `calendar_days`.
    pub days: Vec<Day>,
    pub resources: Vec<Resource>,
    pub lessons: Vec<String>,
    /// The groups, then the windows.
    pub groups: Vec<String>,
}

/// The days of a calendar, if they have no other names.
pub const WEEK: [&str; DAYS as usize] = ["Mon", "Tue", "Wed", "Thu", "Fri", "Sat", "Sun"];

/// The days of `calendar` by their names in `week`: all seven, and each period under the
/// clock time of its start.
pub fn calendar_days(week: &[impl AsRef<str>], calendar: &Calendar) -> Vec<Day> {
    let days = week.iter().zip(&calendar.days);
    let days = days.map(|(name, periods)| Day {
        name: Some(name.as_ref().to_string()),
        periods: periods.iter().map(|period| clock(period.start)).collect(),
    });
    days.collect()
}

/// A day with the names of its periods; without a name, times of no day.
#[derive(Clone, Debug, PartialEq, Eq)]
pub struct Day {
    pub name: Option<String>,
    pub periods: Vec<String>,
}

#[derive(Clone, Debug, PartialEq, Eq)]
pub struct Resource {
    pub sort: ResourceSort,
    pub name: String,
}

#[derive(Clone, Copy, Debug, PartialEq, Eq)]
pub enum ResourceSort {
    Teacher,
    Class,
    Room,
    Other,
}

impl ResourceSort {
    pub const ALL: [ResourceSort; 4] = [
        ResourceSort::Teacher,
        ResourceSort::Class,
        ResourceSort::Room,
        ResourceSort::Other,
    ];

    /// Its word for one.
    pub fn one(self) -> &'static str {
        match self {
            ResourceSort::Teacher => "teacher",
            ResourceSort::Class => "class",
            ResourceSort::Room => "room",
            ResourceSort::Other => "resource",
        }
    }

    /// Its word for many.
    pub fn many(self) -> &'static str {
        match self {
            ResourceSort::Teacher => "teachers",
            ResourceSort::Class => "classes",
            ResourceSort::Room => "rooms",
            ResourceSort::Other => "resources",
        }
    }
}

impl Day {
    /// The name of its period `period`: "Mon.3", or "3" on no day.
    pub fn time(&self, period: &str) -> String {
        match &self.name {
            Some(day) => format!("{day}.{period}"),
            None => period.to_string(),
        }
    }
}

impl Names {
    /// T1, T2, ... for times, and so on for resources (R), lessons (L), groups (G) and
    /// windows (W); the usual week for a calendar.
    pub fn invented(instance: &Instance) -> Names {
        let numbered = |letter: char, count: usize| -> Vec<String> {
            (1..=count)
                .map(|number| format!("{letter}{number}"))
                .collect()
        };
        let resource = |name| Resource {
            sort: ResourceSort::Other,
            name,
        };
        let days = match &instance.calendar {
            Some(calendar) => calendar_days(&WEEK, calendar),
            None => vec![Day {
                name: None,
                periods: numbered('T', instance.times),
            }],
        };
        let groups = numbered('G', instance.written_groups().len());
        let windows = numbered('W', instance.windows().len());
        Names {
            title: None,
            days,
            resources: numbered('R', instance.resources)
                .into_iter()
                .map(resource)
                .collect(),
            lessons: numbered('L', instance.events.len()),
            groups: [groups, windows].concat(),
        }
    }

    /// The full name of each time.
    pub fn times(&self) -> Vec<String> {
        let times = self.days.iter();
        let times = times.flat_map(|day| day.periods.iter().map(|period| day.time(period)));
        times.collect()
    }

    /// How many things are named.
    pub fn counts(&self) -> Counts {
        Counts {
            times: self.days.iter().map(|day| day.periods.len()).sum(),
            events: self.lessons.len(),
            resources: self.resources.len(),
            groups: self.groups.len(),
        }
    }

    /// The numbers of the first and last time of each day that has any, with the day.
    pub fn spans(&self) -> Vec<(&Day, std::ops::Range<usize>)> {
        let mut spans = Vec::new();
        let mut first = 0;
        for day in &self.days {
            let after = first + day.periods.len();
            if after > first {
                spans.push((day, first..after));
            }
            first = after;
        }
        spans
    }
}
