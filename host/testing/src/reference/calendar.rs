//! The calendar of a week in clock time, the windows of its days, and refusal 22.

use super::instance::{Reader, MOST_TIMES};
use super::refusal::refuse;
use std::ops::RangeInclusive;
use timetable::engine::Refusal;

pub const DAYS: usize = 7;
pub const MOST_PERIODS: u32 = 24;
pub const MOST_WINDOWS: u32 = 1_024;
/// The end of a day, in minutes from its beginning.
pub const LAST_MINUTE: u32 = 1_440;

/// Seven days, each with its periods, and the windows that stand after the time groups.
#[derive(Clone, Debug, Default, PartialEq, Eq)]
pub struct Calendar {
    pub days: [Vec<Period>; DAYS],
    pub windows: Vec<Window>,
}

#[derive(Clone, Copy, Debug, PartialEq, Eq)]
pub struct Period {
    pub start: u32,
    pub end: u32,
}

/// The periods of one day that lie between two minutes.
#[derive(Clone, Copy, Debug, PartialEq, Eq)]
pub struct Window {
    /// From 1, as in the file.
    pub day: u32,
    pub from: u32,
    pub to: u32,
}

impl Calendar {
    /// The number of periods, which is that of the times.
    pub fn times(&self) -> usize {
        self.days.iter().map(Vec::len).sum()
    }

    /// The times of a window: those of its day's periods that start at or after its
    /// beginning and end at or before its end.
    pub fn group(&self, window: Window) -> Vec<usize> {
        let within = |period: &Period| period.start >= window.from && period.end <= window.to;
        let day = window.day as usize - 1;
        // Times number the periods day by day.
        let first: usize = self.days[..day].iter().map(Vec::len).sum();
        let periods = self.days[day].iter().enumerate();
        let inside = periods.filter(|(_, period)| within(period));
        inside.map(|(at, _)| first + at).collect()
    }
}

impl Reader<'_> {
    /// The days of a calendar, after the 0 in place of T.
    pub(super) fn calendar(&mut self) -> Result<Calendar, Refusal> {
        let mut calendar = Calendar::default();
        for periods in &mut calendar.days {
            for _ in 0..self.part(self.offset, 0..=MOST_PERIODS)? {
                let earliest = periods.last().map_or(0, |before| before.end);
                periods.push(self.period(earliest)?);
            }
        }
        if !(1..=MOST_TIMES as usize).contains(&calendar.times()) {
            return refuse(22, 0);
        }
        Ok(calendar)
    }

    /// A period that starts no earlier than `earliest`, the end of the one before it.
    fn period(&mut self, earliest: u32) -> Result<Period, Refusal> {
        let at = self.offset;
        let start = self.part(at, 0..=LAST_MINUTE)?;
        let end = self.part(at, 0..=LAST_MINUTE)?;
        if start >= end || start < earliest {
            return refuse(22, at as u64);
        }
        Ok(Period { start, end })
    }

    pub(super) fn windows(&mut self) -> Result<Vec<Window>, Refusal> {
        let count = self.part(self.offset, 0..=MOST_WINDOWS)?;
        (0..count).map(|_| self.window()).collect()
    }

    fn window(&mut self) -> Result<Window, Refusal> {
        let at = self.offset;
        Ok(Window {
            day: self.part(at, 1..=DAYS as u32)?,
            from: self.part(at, 0..=LAST_MINUTE)?,
            to: self.part(at, 0..=LAST_MINUTE)?,
        })
    }

    /// A number within `limit`, or 22 with the offset of the count, period or window
    /// that it is part of.
    fn part(&mut self, at: usize, limit: RangeInclusive<u32>) -> Result<u32, Refusal> {
        let value = self.number()?;
        if !limit.contains(&value) {
            return refuse(22, at as u64);
        }
        Ok(value)
    }
}
