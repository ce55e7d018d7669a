//! What the rules of a FET file are read against.

use super::super::draft::Wish;
use super::super::remark::Fault;
use super::super::times::TimeSet;
use super::super::xml::Element;
use super::lessons::Lessons;
use super::school::School;
use super::students::Class;
use std::collections::HashMap;

/// What an item of the file comes to.
#[derive(Default)]
pub struct Reading {
    /// Events with the times at which each is to start.
    pub starts: Vec<(usize, TimeSet)>,
    pub wishes: Vec<Wish>,
    /// Hard wishes that are kept if the limits leave room for them.
    pub extras: Vec<Wish>,
    /// What of the item is not carried.
    pub weaker: Option<String>,
}

impl Reading {
    pub fn wishes(wishes: Vec<Wish>) -> Reading {
        Reading {
            wishes,
            ..Reading::default()
        }
    }

    pub fn starts(starts: Vec<(usize, TimeSet)>) -> Reading {
        Reading {
            starts,
            ..Reading::default()
        }
    }
}

/// A teacher or a class, by its resource.
pub struct Person {
    /// Ascending.
    pub events: Vec<usize>,
    /// The times at which it may be busy.
    pub available: TimeSet,
    /// Whether it must come every day.
    pub every_day: bool,
}

pub struct Context<'a> {
    pub school: &'a School,
    pub lessons: &'a Lessons,
    /// The resource of each teacher with events.
    pub teachers: HashMap<String, usize>,
    /// The classes, with their resources.
    pub classes: Vec<(Class, usize)>,
    /// By resource: the teachers, then the classes.
    pub people: Vec<Person>,
    /// The times that are no break.
    pub working: TimeSet,
}

impl Context<'_> {
    /// The time that an item's day and hour name.
    pub fn time(&self, item: &Element) -> Result<usize, Fault> {
        let place = |suffix: &str, names: &[String]| {
            let child = item
                .children
                .iter()
                .find(|child| child.name.ends_with(suffix));
            let text = child.map_or("", |child| child.text.as_str());
            let place = names.iter().position(|name| name == text);
            place.ok_or_else(|| {
                let what = suffix.to_lowercase();
                Fault::at(
                    child.unwrap_or(item),
                    format!("there is no {what} '{text}'"),
                )
            })
        };
        let day = place("Day", &self.school.days)?;
        Ok(self.school.time(day, place("Hour", &self.school.hours)?))
    }

    /// The times of an item's children of this name.
    pub fn times(&self, item: &Element, name: &str) -> Result<TimeSet, Fault> {
        item.all(name).map(|child| self.time(child)).collect()
    }

    /// The hour that a field names.
    pub fn hour(&self, item: &Element, field: &str) -> Result<usize, Fault> {
        let name = item.verbatim(field);
        let hour = self.school.hours.iter().position(|hour| hour == name);
        hour.ok_or_else(|| Fault::at(item, format!("there is no hour '{name}'")))
    }

    /// The events of activities, ascending, each once.
    pub fn events(&self, activities: &[usize]) -> Vec<usize> {
        let mut events: Vec<usize> = activities
            .iter()
            .map(|&at| self.lessons.event_of[at])
            .collect();
        events.sort_unstable();
        events.dedup();
        events
    }

    /// The resources of the classes that have a subgroup in the set of this name.
    pub fn classes_of(&self, item: &Element, name: &str) -> Result<Vec<usize>, Fault> {
        let Some(subgroups) = self.school.students.subgroups(name) else {
            return Err(Fault::at(item, format!("there are no students '{name}'")));
        };
        let within = self
            .classes
            .iter()
            .filter(|(class, _)| !class.subgroups.is_disjoint(subgroups));
        Ok(within.map(|&(_, resource)| resource).collect())
    }

    /// The resource of a teacher; none for a teacher without events.
    pub fn teacher(&self, item: &Element, name: &str) -> Result<Option<usize>, Fault> {
        match self.school.teachers.iter().any(|known| known == name) {
            true => Ok(self.teachers.get(name).copied()),
            false => Err(Fault::at(item, format!("there is no teacher '{name}'"))),
        }
    }
}
