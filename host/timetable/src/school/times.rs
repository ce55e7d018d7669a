//! Sets of times, as a group's members are written: times, days, periods of
//! every day, spans, and what is taken away again.

use super::cursor::Cursor;
use super::fault::TextFault;
use super::names::{Day, Names};
use super::words::{written, Word};
use std::collections::HashMap;
use std::ops::Range;

/// The times and days of a school by name.
#[derive(Default)]
pub struct TimeIndex {
    times: HashMap<String, usize>,
    days: HashMap<String, Vec<usize>>,
    /// The times of each period, over the days that have a name.
    periods: HashMap<String, Vec<usize>>,
    count: usize,
}

/// What stands for a period, group or window of every day, before its name.
pub const EVERY_DAY: &str = "*.";

impl TimeIndex {
    /// The times of `days`, or a name that is used twice.
    pub fn over(days: &[Day]) -> Result<TimeIndex, String> {
        let mut index = TimeIndex::default();
        for day in days {
            index.add(day.name.as_deref(), &day.periods)?;
        }
        Ok(index)
    }

    /// Adds `periods` of the day `day`, or of no day; gives the name that is
    /// already used if there is one.
    pub fn add(&mut self, day: Option<&str>, periods: &[String]) -> Result<(), String> {
        let mut members = Vec::new();
        for period in periods {
            let name = day.map_or(period.clone(), |day| format!("{day}.{period}"));
            if self.days.contains_key(&name) || self.times.contains_key(&name) {
                return Err(name);
            }
            members.push(self.count);
            if day.is_some() {
                self.periods
                    .entry(period.clone())
                    .or_default()
                    .push(self.count);
            }
            self.times.insert(name, self.count);
            self.count += 1;
        }
        let Some(day) = day else { return Ok(()) };
        if self.times.contains_key(day) || self.days.insert(day.to_string(), members).is_some() {
            return Err(day.to_string());
        }
        Ok(())
    }

    /// The members of a group, ascending: up to the statement's end.
    pub fn set(&self, cursor: &mut Cursor) -> Result<Vec<usize>, TextFault> {
        if cursor.passes("none") {
            return Ok(Vec::new());
        }
        let mut inside = vec![false; self.count];
        self.mark(cursor, &mut inside, true)?;
        if cursor.passes("except") {
            self.mark(cursor, &mut inside, false)?;
        }
        Ok((0..self.count).filter(|&time| inside[time]).collect())
    }

    /// Marks what the next terms name, one term at least.
    fn mark(&self, cursor: &mut Cursor, inside: &mut [bool], mark: bool) -> Result<(), TextFault> {
        loop {
            for time in self.term(cursor)? {
                inside[time] = mark;
            }
            let more = |word: &Word| word.is("all") || word.is_name();
            if !cursor.peek().is_some_and(more) {
                return Ok(());
            }
        }
    }

    fn term(&self, cursor: &mut Cursor) -> Result<Vec<usize>, TextFault> {
        if cursor.passes("all") {
            return Ok((0..self.count).collect());
        }
        let place = cursor.place();
        let word = cursor.name("a time, a day, '*.' with a period, 'all' or 'none'")?;
        let Some(&first) = self.times.get(&word.text) else {
            let period = word.text.strip_prefix(EVERY_DAY).filter(|_| !word.quoted);
            let period = period.and_then(|period| self.periods.get(period));
            let members = self.days.get(&word.text).or(period);
            let message = format!("there is no time, day or period '{}'", word.text);
            return members
                .cloned()
                .ok_or_else(|| TextFault::at(place, message));
        };
        if !cursor.passes("to") {
            return Ok(vec![first]);
        }
        let place = cursor.place();
        let word = cursor.name("the last time of the span")?;
        match self.times.get(&word.text) {
            Some(&last) if last >= first => Ok((first..=last).collect()),
            Some(_) => {
                let message = format!(
                    "expected a time after the span's first, found '{}'",
                    word.text
                );
                Err(TextFault::at(place, message))
            }
            None => {
                let message = format!("there is no time '{}'", word.text);
                Err(TextFault::at(place, message))
            }
        }
    }
}

/// The words that name `members`: whole days and periods by name, runs of a day
/// as spans.
pub fn set_words(names: &Names, members: &[usize]) -> Vec<String> {
    let times = names.times();
    match members.len() {
        0 => return vec!["none".to_string()],
        count if count == times.len() => return vec!["all".to_string()],
        _ => {}
    }
    let mut open = vec![false; times.len()];
    members.iter().for_each(|&time| open[time] = true);
    let mut words = period_words(names, &times, &mut open);
    for (day, span) in names.spans() {
        let here: Vec<usize> = span.clone().filter(|&time| open[time]).collect();
        match &day.name {
            Some(name) if here.len() == span.len() => words.push(written(name)),
            _ => words.extend(run_words(&times, &here)),
        }
    }
    words
}

/// The periods that are there on every day that has them, two days at least;
/// their times are no longer open. Whole days are left to be named as such.
fn period_words(names: &Names, times: &[String], open: &mut [bool]) -> Vec<String> {
    let spans = names.spans();
    let mut periods: Vec<(&String, Vec<usize>)> = Vec::new();
    for (day, span) in spans.iter().filter(|(day, _)| day.name.is_some()) {
        for (period, time) in day.periods.iter().zip(span.clone()) {
            match periods.iter_mut().find(|(known, _)| *known == period) {
                Some((_, at)) => at.push(time),
                None => periods.push((period, vec![time])),
            }
        }
    }
    let whole = |span: &Range<usize>, open: &[bool]| open[span.clone()].iter().all(|&one| one);
    if spans.iter().any(|(_, span)| whole(span, open)) {
        return Vec::new();
    }
    let mut words = Vec::new();
    for (period, at) in periods {
        let word = format!("{EVERY_DAY}{period}");
        // A time or day of that very name, or a name in quotes, would be read otherwise.
        let days = names.days.iter().filter_map(|day| day.name.as_ref());
        let clear = written(&word) == word
            && !times.contains(&word)
            && !days.clone().any(|day| *day == word);
        if clear && at.len() > 1 && at.iter().all(|&time| open[time]) {
            at.iter().for_each(|&time| open[time] = false);
            words.push(word);
        }
    }
    words
}

/// Times one by one, three or more in a row as a span.
fn run_words(names: &[String], times: &[usize]) -> Vec<String> {
    let mut words = Vec::new();
    let mut from = 0;
    while from < times.len() {
        let run = (from..times.len()).take_while(|at| times[*at] - times[from] == at - from);
        let to = from + run.count();
        let run = &times[from..to];
        match run {
            [first, _, .., last] => words.extend([
                written(&names[*first]),
                "to".to_string(),
                written(&names[*last]),
            ]),
            _ => words.extend(run.iter().map(|time| written(&names[*time]))),
        }
        from = to;
    }
    words
}
