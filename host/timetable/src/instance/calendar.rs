//! A calendar: seven days of periods in clock time, and windows over them.

use super::limits::{DAYS, LAST_MINUTE};
use std::ops::Range;

/// Part of a day, in minutes after its begin.
#[derive(Clone, Copy, Debug, PartialEq, Eq, PartialOrd, Ord, Hash)]
pub struct Period {
    pub start: u32,
    /// Above the start.
    pub end: u32,
}

/// The periods of a day that start at `from` or later and end at `to` or earlier.
#[derive(Clone, Copy, Debug, PartialEq, Eq)]
pub struct Window {
    /// From 0.
    pub day: usize,
    pub from: u32,
    /// Not below `from` unless the window shows no period.
    pub to: u32,
}

#[derive(Clone, Debug, Default, PartialEq, Eq)]
pub struct Calendar {
    /// The periods of each day, none starting before the one before it ends. Times
    /// number them day by day.
    pub days: [Vec<Period>; DAYS as usize],
    /// They stand for groups of times, after those that are written out.
    pub windows: Vec<Window>,
}

impl Calendar {
    /// How many periods there are.
    pub fn times(&self) -> usize {
        self.days.iter().map(Vec::len).sum()
    }

    /// The times of day `day`.
    pub fn span(&self, day: usize) -> Range<usize> {
        let first = self.days[..day].iter().map(Vec::len).sum();
        first..first + self.days[day].len()
    }

    /// The day and the period of each time.
    pub fn periods(&self) -> impl Iterator<Item = (usize, Period)> + '_ {
        let days = self.days.iter().enumerate();
        days.flat_map(|(day, periods)| periods.iter().map(move |&period| (day, period)))
    }

    /// The times that `window` stands for.
    pub fn members(&self, window: Window) -> Vec<usize> {
        let periods = self.days[window.day].iter();
        let times = self.span(window.day).zip(periods);
        let shown = times.filter(|(_, period)| window.shows(**period));
        shown.map(|(time, _)| time).collect()
    }
}

impl Window {
    /// Whether a period of its day belongs to it.
    pub fn shows(self, period: Period) -> bool {
        period.start >= self.from && period.end <= self.to
    }
}

/// A minute of a day as a clock shows it: "08:45", and "24:00" at the day's end.
pub fn clock(minute: u32) -> String {
    format!("{:02}:{:02}", minute / 60, minute % 60)
}

/// The minute of a day that a clock shows, in two digits, a colon and two digits.
pub fn minute(clock: &str) -> Option<u32> {
    let (hours, minutes) = clock.split_once(':')?;
    let number = |digits: &str| {
        let two = digits.len() == 2 && digits.bytes().all(|byte| byte.is_ascii_digit());
        digits.parse::<u32>().ok().filter(|_| two)
    };
    let (hours, minutes) = (number(hours)?, number(minutes)?);
    let minute = 60 * hours + minutes;
    (minutes < 60 && minute <= LAST_MINUTE).then_some(minute)
}

#[cfg(test)]
mod tests {
    use super::*;

    #[test]
    fn a_clock_shows_each_minute() {
        for shown in 0..=LAST_MINUTE {
            assert_eq!(minute(&clock(shown)), Some(shown));
        }
        assert_eq!([0, 65, LAST_MINUTE].map(clock), ["00:00", "01:05", "24:00"]);
        for wrong in [
            "8:00", "08:60", "24:01", "25:00", "0800", "08:0", "+8:00", "", ":",
        ] {
            assert_eq!(minute(wrong), None, "{wrong}");
        }
    }

    #[test]
    fn a_window_shows_what_starts_and_ends_within() {
        let period = |start, end| Period { start, end };
        let mut calendar = Calendar::default();
        calendar.days[0] = vec![period(480, 525)];
        calendar.days[2] = vec![period(480, 525), period(525, 570), period(600, 645)];
        assert_eq!(calendar.times(), 4);
        assert_eq!((calendar.span(1), calendar.span(2)), (1..1, 1..4));
        let shown = |day, from, to| calendar.members(Window { day, from, to });
        assert_eq!(shown(2, 0, LAST_MINUTE), [1, 2, 3]);
        assert_eq!(shown(2, 480, 570), [1, 2]);
        assert_eq!(shown(2, 481, 570), [2]);
        assert_eq!(shown(2, 480, 569), [1]);
        assert_eq!(shown(2, 570, 480), []);
        assert_eq!(shown(0, 480, 525), [0]);
        assert_eq!(shown(1, 0, LAST_MINUTE), []);
        let days: Vec<usize> = calendar.periods().map(|(day, _)| day).collect();
        assert_eq!(days, [0, 2, 2, 2]);
    }
}
