//! Schools in XHSTT, the XML form of the high school timetabling competition.
//!
//! Times, resources and events keep their order. The kinds of constraint mean
//! what the format says of them where every time of an event is placed and every
//! resource is given.

mod archive;
mod rules;
mod solution;

use super::draft::{Draft, Weight, Wish};
use super::remark::{Fault, Refused};
use super::times::TimeSet;
use super::writer::{Carried, Imported, Writer};
use super::xml::Element;
use crate::instance::Event;
use crate::school::{Day, ResourceSort};
use archive::Archive;
use rules::Item;
pub use solution::with_solution;

/// Imports an instance of an archive: the one with this id, or the only one.
pub fn import(root: &Element, id: Option<&str>) -> Result<Imported, Fault> {
    let instance = archive::instance(root, id)?;
    let archive = Archive::read(instance)?;
    let constraints = instance
        .child("Constraints")
        .map_or(&[][..], |list| &list.children);
    let items = constraints
        .iter()
        .map(|element| Item::read(&archive, element));
    let items = items.collect::<Result<Vec<_>, Fault>>()?;
    let sizes = (
        archive.times.len(),
        archive.lessons.len(),
        archive.resources.len(),
    );
    if let Some(over) = Draft::over_limit(sizes.0, sizes.1, sizes.2) {
        return Err(Fault::at(instance, over));
    }
    must_place_all(&archive, &items)?;
    let mut writer = Writer::over(draft(&archive));
    fix_times(&mut writer, &archive)?;
    for lesson in archive.lessons.iter().filter(|lesson| lesson.open) {
        let item = format!("Event '{}'", lesson.named.id);
        writer.drop(
            lesson.line,
            item,
            "a resource is left to choose".to_string(),
        );
    }
    // Hard ones first: if a limit is reached, it costs wishes.
    for hard in [true, false] {
        for item in items.iter().filter(|item| item.required == hard) {
            write(&mut writer, item)?;
        }
    }
    Ok(writer.finish())
}

/// The engine places every time of every event. An archive that lets an event go
/// unplaced could have a lower cost, so it is not imported.
fn must_place_all(archive: &Archive, items: &[Item]) -> Result<(), Fault> {
    let mut placed: Vec<bool> = archive
        .lessons
        .iter()
        .map(|lesson| lesson.time.is_some())
        .collect();
    let assigned = |item: &&Item| item.required && item.element.name == "AssignTimeConstraint";
    for item in items.iter().filter(assigned) {
        for event in archive.events(item.element)? {
            placed[event] = true;
        }
    }
    let missing = archive
        .lessons
        .iter()
        .zip(placed)
        .find(|(_, placed)| !placed);
    match missing {
        None => Ok(()),
        Some((lesson, _)) => Err(Fault {
            line: lesson.line,
            column: None,
            message: format!(
                "no required AssignTimeConstraint places event '{}'; the engine places every event",
                lesson.named.id
            ),
        }),
    }
}

fn draft(archive: &Archive) -> Draft {
    let mut draft = Draft::default();
    draft.instance.times = archive.times.len();
    draft.names.title = Some(archive.named.name.clone());
    draft.names.days = days(archive);
    for lesson in &archive.lessons {
        draft.names.lessons.push(lesson.named.name.clone());
        draft.instance.events.push(Event {
            duration: lesson.duration,
            resources: Vec::new(),
        });
    }
    for (at, named) in archive.resources.iter().enumerate() {
        let uses = |event: &usize| archive.lessons[*event].resources.contains(&at);
        let events: Vec<usize> = (0..archive.lessons.len()).filter(uses).collect();
        if let Some(resource) = draft.resource(sort(&archive.types[at]), named.name.clone()) {
            draft.use_by(resource, &events);
        }
    }
    draft
}

/// The times by days; as times of no day where a day's times do not stand together.
fn days(archive: &Archive) -> Vec<Day> {
    let mut days: Vec<Day> = Vec::new();
    for (time, day) in archive.times.iter().zip(&archive.days) {
        match days.last_mut() {
            Some(last) if &last.name == day => last.periods.push(time.name.clone()),
            _ => days.push(Day {
                name: day.clone(),
                periods: vec![time.name.clone()],
            }),
        }
    }
    let apart = |at: usize| {
        days[at + 1..]
            .iter()
            .any(|other| other.name == days[at].name)
    };
    if (0..days.len()).any(apart) {
        let periods = archive.times.iter().map(|time| time.name.clone()).collect();
        return vec![Day {
            name: None,
            periods,
        }];
    }
    days
}

fn sort(type_id: &str) -> ResourceSort {
    match type_id.to_lowercase().as_str() {
        "teacher" => ResourceSort::Teacher,
        "class" | "student" => ResourceSort::Class,
        "room" => ResourceSort::Room,
        _ => ResourceSort::Other,
    }
}

/// An event with a given time starts there and is one part.
fn fix_times(writer: &mut Writer, archive: &Archive) -> Result<(), Fault> {
    for (event, lesson) in archive.lessons.iter().enumerate() {
        let Some(start) = lesson.time else { continue };
        let fault = |message: String| Fault {
            line: lesson.line,
            column: None,
            message,
        };
        if start + lesson.duration > archive.times.len() {
            return Err(fault(format!(
                "event '{}' does not fit its time",
                lesson.named.id
            )));
        }
        let start: TimeSet = [start].into_iter().collect();
        let wishes = [Wish::Split(event, 1, 1), Wish::Preferred(event, start)];
        let wishes = &wishes[usize::from(lesson.duration == 1)..];
        writer.draft.add(Weight::Hard, wishes).map_err(fault)?;
    }
    Ok(())
}

fn write(writer: &mut Writer, item: &Item) -> Result<(), Fault> {
    let (line, words) = (item.element.line, item.words());
    let reading = match item.outcome() {
        Ok(reading) => reading,
        Err(Refused::Fault(fault)) => return Err(fault),
        Err(Refused::NoCounterpart(reason)) => {
            writer.drop(line, words, reason);
            return Ok(());
        }
    };
    // A wish without weight costs nothing, whatever it asks.
    let (weight, wishes) = match item.weight() {
        Some(weight) => (weight, reading.wishes),
        None => (Weight::Hard, Vec::new()),
    };
    writer.carry(Carried {
        line,
        item: words,
        weight,
        wishes,
        extras: Vec::new(),
        weaker: reading.weaker,
    });
    Ok(())
}
