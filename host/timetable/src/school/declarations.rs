//! The names that a text declares: each once, and no more than there may be.

use super::cursor::Cursor;
use super::fault::{Place, TextFault};
use super::names::{Day, Names, Resource, ResourceSort};
use super::times::TimeIndex;
use super::words::Word;
use crate::instance::{
    Calendar, Thing, MOST_EVENTS, MOST_GROUPS, MOST_RESOURCES, MOST_TIMES, MOST_WINDOWS,
};
use std::collections::HashMap;

#[derive(Default)]
pub struct Declarations {
    pub names: Names,
    pub times: TimeIndex,
    /// What the times stand for, if they are in clock time.
    pub calendar: Option<Calendar>,
    pub resources: HashMap<String, usize>,
    pub lessons: HashMap<String, usize>,
    /// The groups that are written out.
    pub groups: HashMap<String, usize>,
    /// Windows count by themselves here; as groups they are numbered on.
    windows: HashMap<String, usize>,
}

impl Declarations {
    /// Reads a statement that declares the school's name, times or resources.
    /// Whether `keyword` is such a statement.
    pub fn read(&mut self, keyword: &Word, cursor: &mut Cursor) -> Result<bool, TextFault> {
        match keyword.text.as_str() {
            "school" => self.names.title = Some(cursor.name("the school's name")?.text.clone()),
            "day" | "days" | "time" | "times" if self.calendar.is_some() => {
                let message = "the times are those of a calendar";
                return Err(TextFault::at(keyword.place, message));
            }
            "day" | "days" => self.days(cursor)?,
            "time" | "times" => {
                let times = cursor.names("the name of a time")?;
                self.day(None, &times, keyword.place)?;
            }
            word => match sort_named(word) {
                Some(sort) => self.resources(sort, cursor)?,
                None => return Ok(false),
            },
        }
        Ok(true)
    }

    /// `days DAY... periods PERIOD...`
    fn days(&mut self, cursor: &mut Cursor) -> Result<(), TextFault> {
        let days = cursor.names("the name of a day")?;
        cursor.expect("periods")?;
        let periods = cursor.names("the name of a period")?;
        for day in days {
            self.day(Some(day), &periods, day.place)?;
        }
        Ok(())
    }

    fn day(&mut self, day: Option<&Word>, periods: &[&Word], at: Place) -> Result<(), TextFault> {
        let name = day.map(|day| day.text.clone());
        let periods: Vec<String> = periods.iter().map(|period| period.text.clone()).collect();
        if let Err(twice) = self.times.add(name.as_deref(), &periods) {
            let message = format!("the name '{twice}' is used for a time or day already");
            return Err(TextFault::at(at, message));
        }
        self.names.days.push(Day { name, periods });
        limited(self.names.counts().times, MOST_TIMES, "times", at)
    }

    fn resources(&mut self, sort: ResourceSort, cursor: &mut Cursor) -> Result<(), TextFault> {
        for word in cursor.names(&format!("the name of a {}", sort.one()))? {
            self.add(Thing::Resource, word)?;
            let name = word.text.clone();
            self.names.resources.push(Resource { sort, name });
        }
        Ok(())
    }

    pub fn lesson(&mut self, word: &Word) -> Result<(), TextFault> {
        self.add(Thing::Event, word)?;
        self.names.lessons.push(word.text.clone());
        Ok(())
    }

    /// A group, which stands before the windows.
    pub fn group(&mut self, word: &Word) -> Result<(), TextFault> {
        let number = self.groups.len();
        self.is_new_group(word)?;
        self.add(Thing::Group, word)?;
        self.names.groups.insert(number, word.text.clone());
        Ok(())
    }

    pub fn add_window(&mut self, word: &Word) -> Result<(), TextFault> {
        let number = self.windows.len();
        limited(number + 1, MOST_WINDOWS, "windows", word.place)?;
        self.is_new_group(word)?;
        self.windows.insert(word.text.clone(), number);
        self.names.groups.push(word.text.clone());
        Ok(())
    }

    /// Groups and windows have no name in common.
    fn is_new_group(&self, word: &Word) -> Result<(), TextFault> {
        let one = match &word.text {
            name if self.groups.contains_key(name) => "group",
            name if self.windows.contains_key(name) => "window",
            _ => return Ok(()),
        };
        let message = format!("there is a {one} '{}' already", word.text);
        Err(TextFault::at(word.place, message))
    }

    /// The number of the group or window with the name `name`, from 0.
    pub fn group_number(&self, name: &str) -> Option<usize> {
        let window = || Some(self.groups.len() + self.windows.get(name)?);
        self.groups.get(name).copied().or_else(window)
    }

    /// How many groups are written out; the windows come after them.
    pub fn written_groups(&self) -> usize {
        self.groups.len()
    }

    /// Gives the next number to a name that is not used yet.
    fn add(&mut self, thing: Thing, word: &Word) -> Result<(), TextFault> {
        let (index, most, one, many) = match thing {
            Thing::Resource => (&mut self.resources, MOST_RESOURCES, "resource", "resources"),
            Thing::Group => (&mut self.groups, MOST_GROUPS, "group", "groups"),
            _ => (&mut self.lessons, MOST_EVENTS, "lesson", "lessons"),
        };
        let number = index.len();
        limited(number + 1, most, many, word.place)?;
        match index.insert(word.text.clone(), number) {
            None => Ok(()),
            Some(_) => {
                let message = format!("there is a {one} '{}' already", word.text);
                Err(TextFault::at(word.place, message))
            }
        }
    }
}

/// There may not be more of `things` than `most`.
pub fn limited(count: usize, most: u32, things: &str, place: Place) -> Result<(), TextFault> {
    match count > most as usize {
        true => Err(TextFault::at(
            place,
            format!("there are more than {most} {things}"),
        )),
        false => Ok(()),
    }
}

/// The sort of resources that a statement's first word declares.
pub fn sort_named(word: &str) -> Option<ResourceSort> {
    let mut sorts = ResourceSort::ALL.into_iter();
    sorts.find(|sort| word == sort.many() || word == sort.one())
}
