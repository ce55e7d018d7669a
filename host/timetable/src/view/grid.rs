//! Grids: a column for each day, a row for each period.

use super::charges::{Place, Subject};
use super::moments::between;
use super::View;
use crate::instance::{Kind, Thing, Value};
use crate::school::{Day, ResourceSort, School};
use std::collections::HashSet;

/// The week of one resource, or of the lessons that have none.
pub struct Grid {
    /// None for the lessons that have no resource.
    pub resource: Option<usize>,
    pub title: String,
    pub days: Vec<String>,
    pub rows: Vec<Row>,
    /// The constraints that are broken here, from 0.
    pub broken: Vec<usize>,
}

pub struct Row {
    /// The period's name; in a calendar when it begins and ends.
    pub period: String,
    /// None where a day has no such period.
    pub cells: Vec<Option<Cell>>,
}

pub struct Cell {
    pub time: usize,
    pub lessons: Vec<Placed>,
    /// What the resource breaks at this time.
    pub marks: Vec<Mark>,
}

/// A lesson in a cell.
pub struct Placed {
    pub lesson: usize,
    /// Whether its block began in the cell above.
    pub continues: bool,
    /// What the lesson breaks at this time.
    pub marks: Vec<Mark>,
}

/// A constraint that is broken at a place of a grid.
#[derive(Clone, Copy, Debug, PartialEq, Eq, PartialOrd, Ord)]
pub struct Mark {
    /// From 0.
    pub constraint: usize,
    /// Whether the grid has no earlier mark of it: here its cost is shown.
    pub first: bool,
}

/// The grids of `resources`, in that order; `others` adds the lessons without
/// a resource, if there are any.
pub fn grids(view: &View, resources: &[usize], others: bool) -> Vec<Grid> {
    let mut grids: Vec<Grid> = resources.iter().map(|&r| grid(view, Some(r))).collect();
    let events = &view.school.instance.events;
    if others && events.iter().any(|event| event.resources.is_empty()) {
        grids.push(grid(view, None));
    }
    grids
}

fn grid(view: &View, resource: Option<usize>) -> Grid {
    let School { instance, names } = view.school;
    let here = |&lesson: &usize| match resource {
        Some(resource) => instance.uses(lesson, resource),
        None => instance.events[lesson].resources.is_empty(),
    };
    let lessons: Vec<usize> = (0..instance.events.len()).filter(here).collect();
    let days = names.spans().into_iter();
    let broken = view.broken().map(|(number, _)| number);
    let concerned =
        |&number: &usize| concerns(&instance.constraints[number].kind, resource, &lessons);
    Grid {
        resource,
        title: title(view, resource),
        days: days.map(|(day, _)| day_title(day)).collect(),
        rows: rows(view.school, cells(view, resource, &lessons)),
        broken: broken.filter(concerned).collect(),
    }
}

/// The head of a day's column; times of no day have one too.
fn day_title(day: &Day) -> String {
    let name = day.name.as_deref();
    name.unwrap_or("times").to_string()
}

/// The cell of each time.
fn cells(view: &View, resource: Option<usize>, lessons: &[usize]) -> Vec<Option<Cell>> {
    let mut marked = HashSet::new();
    let mut cells = Vec::new();
    for (_, span) in view.school.names.spans() {
        for time in span.clone() {
            let goes_on = time > span.start;
            let cell = cell(view, resource, lessons, time, goes_on);
            cells.push(Some(cell.with_costs_once(&mut marked)));
        }
    }
    cells
}

/// The cells of the times, a row for each period.
fn rows(school: &School, mut cells: Vec<Option<Cell>>) -> Vec<Row> {
    let periods = periods(school);
    let mut row = |period: String| Row {
        cells: school
            .names
            .spans()
            .into_iter()
            .map(|(_, mut span)| cells[span.find(|&time| periods[time] == period)?].take())
            .collect(),
        period,
    };
    let once = once(school, &periods).into_iter();
    once.map(&mut row).collect()
}

/// The row of each time: the name of its period, or in a calendar its clock times.
fn periods(school: &School) -> Vec<String> {
    match &school.instance.calendar {
        Some(calendar) => {
            let periods = calendar.periods();
            periods
                .map(|(_, one)| between(one.start, one.end))
                .collect()
        }
        None => {
            let days = school.names.days.iter();
            days.flat_map(|day| day.periods.clone()).collect()
        }
    }
}

/// The rows, each once: as they come up, or in a calendar by the clock.
fn once(school: &School, periods: &[String]) -> Vec<String> {
    let mut once: Vec<String> = Vec::new();
    for period in periods {
        if !once.contains(period) {
            once.push(period.clone());
        }
    }
    if school.instance.calendar.is_some() {
        once.sort_unstable();
    }
    once
}

/// "Class 1A", and just the name of a resource of no known sort.
fn title(view: &View, resource: Option<usize>) -> String {
    let Some(resource) = resource else {
        return "Lessons without a resource".to_string();
    };
    let resource = &view.school.names.resources[resource];
    match resource.sort {
        ResourceSort::Teacher => format!("Teacher {}", resource.name),
        ResourceSort::Class => format!("Class {}", resource.name),
        ResourceSort::Room => format!("Room {}", resource.name),
        ResourceSort::Other => resource.name.clone(),
    }
}

/// The cell at `time`; `goes_on` if the cell above is the time before.
fn cell(
    view: &View,
    resource: Option<usize>,
    lessons: &[usize],
    time: usize,
    goes_on: bool,
) -> Cell {
    let marks_on = |subject: Subject| -> Vec<Mark> {
        let broken = view.broken_at(Place { subject, time }).iter();
        let mark = |&constraint| Mark {
            constraint,
            first: false,
        };
        broken.map(mark).collect()
    };
    let taken = lessons
        .iter()
        .filter(|&&lesson| view.sheet.takes(lesson, time));
    Cell {
        time,
        lessons: taken
            .map(|&lesson| Placed {
                lesson,
                continues: goes_on && !view.sheet.starts(lesson, time),
                marks: marks_on(Subject::Event(lesson)),
            })
            .collect(),
        marks: resource.map_or(Vec::new(), |resource| marks_on(Subject::Resource(resource))),
    }
}

impl Cell {
    /// The cell with the first mark of each constraint found.
    fn with_costs_once(mut self, marked: &mut HashSet<usize>) -> Cell {
        let of_lessons = self.lessons.iter_mut().flat_map(|placed| &mut placed.marks);
        for mark in of_lessons.chain(&mut self.marks) {
            mark.first = marked.insert(mark.constraint);
        }
        self
    }
}

/// Whether a constraint speaks of the resource or of one of the lessons, which
/// ascend.
fn concerns(kind: &Kind, resource: Option<usize>, lessons: &[usize]) -> bool {
    let mut fields = kind.facts().fields.iter().zip(kind.values());
    fields.any(|(field, value)| {
        let named = match &value {
            Value::One(one) => std::slice::from_ref(one),
            Value::Many(many) => many,
        };
        match field.sort.thing() {
            Some(Thing::Resource) => named.iter().any(|&one| Some(one) == resource),
            Some(Thing::Event) => named.iter().any(|one| lessons.binary_search(one).is_ok()),
            _ => false,
        }
    })
}
