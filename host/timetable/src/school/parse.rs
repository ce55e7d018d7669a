//! The text form of a school, read statement by statement.

use super::constraints;
use super::cursor::Cursor;
use super::declarations::{sort_named, Declarations};
use super::fault::{Place, TextFault};
use super::names::ResourceSort;
use super::scope::Scope;
use super::words::{statements, Statement, Word};
use super::School;
use crate::instance::{kind_named, Event, Instance, Thing, KINDS};

/// The school that `text` describes, or the first fault in it.
pub fn parse(text: &str) -> Result<School, TextFault> {
    let statements = statements(text)?;
    let mut builder = Builder::default();
    for statement in &statements {
        builder.statement(statement)?;
    }
    let end = statements.last().map_or(START, |statement| statement.end);
    builder.complete(end)
}

pub const START: Place = Place { line: 1, column: 1 };

/// What has been read so far.
#[derive(Default)]
pub struct Builder {
    pub declared: Declarations,
    pub instance: Instance,
}

impl Builder {
    fn statement(&mut self, statement: &Statement) -> Result<(), TextFault> {
        let keyword = &statement.words[0];
        let mut cursor = Cursor::after_first(statement);
        match kind_named(&keyword.text) {
            Some(facts) => constraints::read(self, facts, keyword.place, &mut cursor)?,
            None => self.declaration(keyword, &mut cursor)?,
        }
        cursor.end()
    }

    fn declaration(&mut self, keyword: &Word, cursor: &mut Cursor) -> Result<(), TextFault> {
        let instance = &self.instance;
        let late = |before: &str| {
            let message = format!("'{}' must stand before {before}", keyword.text);
            Err(TextFault::at(keyword.place, message))
        };
        if !instance.constraints.is_empty() && is_declaration(keyword) {
            return late("the first constraint");
        }
        if TIMES.contains(&keyword.text.as_str())
            && !(instance.events.is_empty() && instance.groups.is_empty())
        {
            return late("lessons and groups");
        }
        match keyword.text.as_str() {
            "week" if instance.calendar.is_some() => late("the calendar, once"),
            "week" | "calendar" => self.calendar(keyword, cursor),
            "lesson" => self.lesson(cursor),
            "group" => self.group(cursor),
            "groups" => self.groups_by_day(cursor),
            "window" | "windows" => self.windows(keyword, cursor),
            _ => match self.declared.read(keyword, cursor)? {
                true => {
                    self.settle();
                    Ok(())
                }
                false => Err(TextFault::at(keyword.place, unknown(&keyword.text))),
            },
        }
    }

    /// The instance has what has been declared.
    fn settle(&mut self) {
        let counts = self.declared.names.counts();
        self.instance.times = counts.times;
        self.instance.resources = counts.resources;
    }

    /// `week DAY...` or `calendar DAY... periods START-END...`
    fn calendar(&mut self, keyword: &Word, cursor: &mut Cursor) -> Result<(), TextFault> {
        if self.declared.calendar.is_none() && self.instance.times > 0 {
            let message = "the times are given without a calendar already";
            return Err(TextFault::at(keyword.place, message));
        }
        match keyword.is("week") {
            true => self.declared.week(keyword, cursor)?,
            false => self.declared.periods(keyword, cursor)?,
        }
        self.instance.calendar = self.declared.calendar.clone();
        self.settle();
        Ok(())
    }

    /// `window NAME is DAY CLOCK to CLOCK` or `windows NAME by day CLOCK to CLOCK`
    fn windows(&mut self, keyword: &Word, cursor: &mut Cursor) -> Result<(), TextFault> {
        if self.instance.calendar.is_none() {
            let message = format!("'{}' wants a calendar before it", keyword.text);
            return Err(TextFault::at(keyword.place, message));
        }
        let windows = match keyword.is("window") {
            true => vec![self.declared.window(cursor)?],
            false => self.declared.windows_by_day(cursor)?,
        };
        for window in windows {
            self.instance.add_window(window);
        }
        Ok(())
    }

    /// `lesson NAME takes NUMBER [with RESOURCE...]`
    fn lesson(&mut self, cursor: &mut Cursor) -> Result<(), TextFault> {
        self.declared.lesson(cursor.name("the lesson's name")?)?;
        cursor.expect("takes")?;
        let limits = 1..=self.instance.times as u32;
        if limits.is_empty() {
            return Err(TextFault::at(
                cursor.place(),
                "times must stand before lessons",
            ));
        }
        let duration = cursor.number("a number of times", limits)? as usize;
        let mut resources = Vec::new();
        if cursor.passes("with") {
            resources = Scope::of(self).list(Thing::Resource, cursor)?;
        }
        self.instance.events.push(Event {
            duration,
            resources,
        });
        Ok(())
    }

    /// `group NAME is TIME...`
    fn group(&mut self, cursor: &mut Cursor) -> Result<(), TextFault> {
        self.declared.group(cursor.name("the group's name")?)?;
        cursor.expect("is")?;
        let members = self.declared.times.set(cursor)?;
        self.add_group(members);
        Ok(())
    }

    /// Adds a group that is written out, after the others and before the windows.
    fn add_group(&mut self, members: Vec<usize>) {
        let number = self.instance.written_groups().len();
        self.instance.groups.insert(number, members);
    }

    /// `groups by day`: a group for each day, with the day's name.
    fn groups_by_day(&mut self, cursor: &mut Cursor) -> Result<(), TextFault> {
        let place = cursor.place();
        cursor.expect("by")?;
        cursor.expect("day")?;
        let spans = self.declared.names.spans();
        let days = spans
            .into_iter()
            .filter_map(|(day, span)| Some((day.name.clone()?, span)));
        for (text, span) in days.collect::<Vec<_>>() {
            let word = Word {
                text,
                quoted: true,
                place,
            };
            self.declared.group(&word)?;
            self.add_group(span.collect());
        }
        Ok(())
    }

    fn complete(self, end: Place) -> Result<School, TextFault> {
        let missing = |what| {
            Err(TextFault::at(
                end,
                format!("expected {what}, found the end of the text"),
            ))
        };
        if self.instance.times == 0 {
            return missing("'days', 'times' or 'calendar'");
        }
        if self.instance.events.is_empty() {
            return missing("'lesson'");
        }
        Ok(School {
            instance: self.instance,
            names: self.declared.names,
        })
    }
}

/// The first words of statements that declare times.
const TIMES: &[&str] = &["day", "days", "time", "times", "week", "calendar"];

/// The first words of further statements that declare something, beside those for resources.
const DECLARATIONS: &[&str] = &["school", "lesson", "group", "groups", "window", "windows"];

/// Whether the statement would be one if it stood earlier.
fn is_declaration(keyword: &Word) -> bool {
    let keyword = keyword.text.as_str();
    TIMES.contains(&keyword) || DECLARATIONS.contains(&keyword) || sort_named(keyword).is_some()
}

fn unknown(word: &str) -> String {
    let sorts = ResourceSort::ALL.map(ResourceSort::many).join(", ");
    let kinds: Vec<&str> = KINDS.iter().map(|facts| facts.name).collect();
    format!(
        "expected a statement (school, days, times, week, calendar, {sorts}, lesson, group, \
         groups, window, windows) or a constraint ({}), found '{word}'",
        kinds.join(", ")
    )
}
