//! The week in clock time: the names of its days, their periods, and windows.

use super::cursor::Cursor;
use super::declarations::{limited, Declarations};
use super::fault::TextFault;
use super::names::{calendar_days, Names, WEEK};
use super::print::Page;
use super::times::TimeIndex;
use super::words::{written, Word};
use crate::instance::{
    clock, minute, Calendar, CalendarRule, Period, Window, DAYS, MOST_PERIODS, MOST_TIMES,
};

impl Declarations {
    /// The times are those of `calendar`; its days have the usual names.
    pub fn with_calendar(calendar: Calendar) -> Declarations {
        let mut declared = Declarations::default();
        declared.names.days = calendar_days(&WEEK, &calendar);
        // The usual names are all different.
        declared.times = TimeIndex::over(&declared.names.days).unwrap_or_default();
        declared.calendar = Some(calendar);
        declared
    }

    /// `week DAY...`: the names of the seven days.
    pub fn week(&mut self, keyword: &Word, cursor: &mut Cursor) -> Result<(), TextFault> {
        let days = cursor.names("the name of a day")?;
        if days.len() != DAYS as usize {
            let message = format!("expected {DAYS} days, found {}", days.len());
            return Err(TextFault::at(keyword.place, message));
        }
        let week: Vec<&str> = days.iter().map(|day| day.text.as_str()).collect();
        let calendar = self.calendar.get_or_insert_default();
        self.names.days = calendar_days(&week, calendar);
        self.index(keyword)
    }

    /// `calendar DAY... periods START-END...`
    pub fn periods(&mut self, keyword: &Word, cursor: &mut Cursor) -> Result<(), TextFault> {
        let calendar = self.calendar.get_or_insert_default();
        if self.names.days.is_empty() {
            self.names.days = calendar_days(&WEEK, calendar);
        }
        let words = cursor.names("the name of a day")?;
        cursor.expect("periods")?;
        let periods = periods(cursor)?;
        for word in words {
            let day = self.names.day_named(word)?;
            let calendar = self.calendar.get_or_insert_default();
            if !calendar.days[day].is_empty() {
                let message = format!("'{}' has its periods already", word.text);
                return Err(TextFault::at(word.place, message));
            }
            calendar.days[day] = periods.clone();
            limited(calendar.times(), MOST_TIMES, "times", word.place)?;
        }
        let week: Vec<String> = self.names.week().map(str::to_string).collect();
        self.names.days = calendar_days(&week, self.calendar.get_or_insert_default());
        self.index(keyword)
    }

    /// Times are numbered through the week, in whichever order its days were given.
    fn index(&mut self, keyword: &Word) -> Result<(), TextFault> {
        let twice = |name| {
            let message = format!("the name '{name}' is used for a time or day already");
            TextFault::at(keyword.place, message)
        };
        self.times = TimeIndex::over(&self.names.days).map_err(twice)?;
        Ok(())
    }

    /// `window NAME is DAY CLOCK to CLOCK`, after its first word.
    pub fn window(&mut self, cursor: &mut Cursor) -> Result<Window, TextFault> {
        let name = cursor.name("the window's name")?;
        cursor.expect("is")?;
        let day = self.names.day_named(cursor.name("the name of a day")?)?;
        let (from, to) = from_to(cursor)?;
        self.add_window(name)?;
        Ok(Window { day, from, to })
    }

    /// `windows NAME by day CLOCK to CLOCK`, after its first word: one for each day that
    /// has a period there.
    pub fn windows_by_day(&mut self, cursor: &mut Cursor) -> Result<Vec<Window>, TextFault> {
        let name = cursor.name("the windows' name")?;
        cursor.expect("by")?;
        cursor.expect("day")?;
        let place = cursor.place();
        let (from, to) = from_to(cursor)?;
        let windows = (0..DAYS as usize).map(|day| Window { day, from, to });
        let calendar = self.calendar.get_or_insert_default();
        let windows: Vec<Window> = windows
            .filter(|&window| !calendar.members(window).is_empty())
            .collect();
        if windows.is_empty() {
            let message = format!("no day has a period from {} to {}", clock(from), clock(to));
            return Err(TextFault::at(place, message));
        }
        for window in &windows {
            let text = self.names.days[window.day].time(&name.text);
            self.add_window(&Word {
                text,
                ..name.clone()
            })?;
        }
        Ok(windows)
    }
}

/// The periods of a day, up to the statement's end.
fn periods(cursor: &mut Cursor) -> Result<Vec<Period>, TextFault> {
    let mut periods: Vec<Period> = Vec::new();
    loop {
        let place = cursor.place();
        let period = cursor.read("a period such as 08:00-08:45", period)?;
        let rule = match (period, periods.last()) {
            (Period { start, end }, _) if start >= end => Some(CalendarRule::Order { start, end }),
            (Period { start, .. }, Some(before)) if start < before.end => {
                let before = before.end;
                Some(CalendarRule::Overlap { start, before })
            }
            _ => None,
        };
        if let Some(rule) = rule {
            let message = format!("the period {}: {rule}", period_word(period));
            return Err(TextFault::at(place, message));
        }
        periods.push(period);
        limited(periods.len(), MOST_PERIODS, "periods of a day", place)?;
        if cursor.peek().is_none() {
            return Ok(periods);
        }
    }
}

/// Two clock times with a dash between, as they are typed or as a page shows them.
fn period(word: &str) -> Option<Period> {
    let (start, end) = word.split_once(['-', '\u{2013}'])?;
    Some(Period {
        start: minute(start)?,
        end: minute(end)?,
    })
}

fn period_word(period: Period) -> String {
    format!("{}-{}", clock(period.start), clock(period.end))
}

/// `CLOCK to CLOCK`
fn from_to(cursor: &mut Cursor) -> Result<(u32, u32), TextFault> {
    const CLOCK: &str = "a clock time from 00:00 to 24:00, such as 08:45";
    let from = cursor.read(CLOCK, minute)?;
    cursor.expect("to")?;
    Ok((from, cursor.read(CLOCK, minute)?))
}

impl Names {
    /// The names of the days of a calendar.
    fn week(&self) -> impl Iterator<Item = &str> {
        self.days.iter().filter_map(|day| day.name.as_deref())
    }

    /// The day of a calendar that `word` names.
    fn day_named(&self, word: &Word) -> Result<usize, TextFault> {
        let found = self.week().position(|day| day == word.text);
        found.ok_or_else(|| {
            let week: Vec<String> = self.week().map(written).collect();
            let message = format!(
                "there is no day '{}' in the week {}",
                word.text,
                week.join(" ")
            );
            TextFault::at(word.place, message)
        })
    }
}

impl Page {
    /// The names of a calendar's days.
    pub fn week(&mut self, names: &Names) {
        self.gap();
        let mut words = vec!["week".to_string()];
        words.extend(names.week().map(written));
        self.statement(&words);
    }

    /// A calendar: the names of its days if they are not the usual ones, and the periods
    /// of those that have any, equal ones in one statement.
    pub fn calendar(&mut self, names: &Names, calendar: &Calendar) {
        self.gap();
        if !names.week().eq(WEEK) {
            self.week(names);
        }
        let week: Vec<&str> = names.week().collect();
        let mut left: Vec<usize> = (0..week.len()).collect();
        left.retain(|&day| !calendar.days[day].is_empty());
        while let Some(&first) = left.first() {
            let periods = &calendar.days[first];
            let alike = |&&day: &&usize| calendar.days[day] == *periods;
            let mut words = vec!["calendar".to_string()];
            words.extend(left.iter().filter(alike).map(|&day| written(week[day])));
            words.push("periods".to_string());
            words.extend(periods.iter().map(|&period| period_word(period)));
            self.statement(&words);
            left.retain(|&day| calendar.days[day] != *periods);
        }
    }

    /// A window under its name.
    pub fn window(&mut self, names: &Names, name: &str, window: Window) {
        let day = names.week().nth(window.day).unwrap_or_default();
        let words = [
            "window".to_string(),
            written(name),
            "is".to_string(),
            written(day),
            clock(window.from),
            "to".to_string(),
            clock(window.to),
        ];
        self.statement(&words);
    }
}
