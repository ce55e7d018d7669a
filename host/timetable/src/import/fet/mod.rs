//! Schools of FET, the free timetabling program.
//!
//! Days and hours become times, day by day. Each active activity is an event;
//! those that must start together and last equally long are one event. Teachers
//! are resources, and so are classes: subgroups of students with the same
//! events. A room is one where activities are pinned to it.
//!
//! FET prices no broken wish; here one costs its weight times the deviation of
//! the kind of constraint that carries it.

mod context;
mod gather;
mod item;
mod lessons;
mod people;
mod placed;
mod placing;
mod rooms;
mod school;
mod starts;
mod students;

use super::draft::{Draft, Weight};
use super::remark::{Fault, Refused};
use super::writer::{Carried, Imported, Writer};
use super::xml::Element;
use crate::instance::MOST_GROUPS;
use context::{Context, Reading};
use item::Item;
use lessons::{activities, Lessons};
use rooms::Rooms;
use school::School;
use starts::Starts;

/// Imports the school of a FET file; a soft weight is so many of `scale` parts.
pub fn import(root: &Element, scale: u32) -> Result<Imported, Fault> {
    let (school, lessons) = lessons(root)?;
    let time_items = Item::all(root.child(TIME_ITEMS))?;
    let space_items = Item::all(root.child("Space_Constraints_List"))?;
    let mut draft = Draft::default();
    let mut context = gather::people(&school, &lessons, &mut draft)
        .map_err(|message| Fault::at(root, message))?;
    gather::mark_times(&mut context, &time_items)?;
    gather::mark_every_day(&mut context, &time_items);
    let rooms = Rooms::of(&context, &space_items, &mut draft)?;
    let mut readings = Vec::new();
    for item in time_items.iter().chain(&space_items) {
        readings.push((item, read(&context, &rooms, item)?));
    }
    let mut writer = Writer::over(draft);
    let starts = Starts::of(&context, &readings);
    let placed = writer.draft.add(Weight::Hard, &starts.wishes(&context));
    placed.map_err(|message| Fault::at(root, message))?;
    // Hard ones first: if a limit is reached, it costs wishes.
    readings.sort_by_key(|(item, _)| !item.hard());
    for (item, reading) in &readings {
        write(&mut writer, &starts, item, reading, scale);
    }
    Ok(writer.finish())
}

const TIME_ITEMS: &str = "Time_Constraints_List";

/// The lists of a FET file, and the events of its activities.
fn lessons(root: &Element) -> Result<(School, Lessons), Fault> {
    official(root)?;
    let school = School::read(root)?;
    let items = Item::all(root.child(TIME_ITEMS))?;
    let together = starting_together(&school, &items)?;
    let lessons = Lessons::of(&school, &together);
    Ok((school, lessons))
}

/// The timetable that FET made of the school, from its list of placed activities.
pub fn timetable(root: &Element, placed: &Element) -> Result<Vec<u8>, Fault> {
    let (school, lessons) = lessons(root)?;
    placed::timetable(&school, &lessons, placed)
}

/// Narrowed times are groups of their own, and groups are limited.
const GROUPS_FOR_NARROWING: usize = MOST_GROUPS as usize / 2;

/// What an item comes to, or why it comes to nothing.
fn read(context: &Context, rooms: &Rooms, item: &Item) -> Result<Result<Reading, String>, Fault> {
    let known = rooms
        .read(context, item)
        .or_else(|| placing::read(context, item.element, item.hard()))
        .or_else(|| people::read(context, item.element));
    match known {
        None => Ok(Err("the engine has no counterpart for it".to_string())),
        Some(Ok(reading)) => Ok(Ok(reading)),
        Some(Err(Refused::NoCounterpart(reason))) => Ok(Err(reason)),
        Some(Err(Refused::Fault(fault))) => Err(fault),
    }
}

fn write(
    writer: &mut Writer,
    starts: &Starts,
    item: &Item,
    reading: &Result<Reading, String>,
    scale: u32,
) {
    let (line, words) = (item.element.line, item.words());
    let reading = match reading {
        Ok(reading) => reading,
        Err(reason) => return writer.drop(line, words, reason.clone()),
    };
    let mut wishes = reading.wishes.clone();
    if writer.draft.instance.groups.len() < GROUPS_FOR_NARROWING {
        wishes = wishes
            .into_iter()
            .filter_map(|wish| starts.narrowed(wish))
            .collect();
    }
    if !item.hard() {
        let soft = reading.starts.iter();
        wishes.extend(soft.map(|&(event, times)| starts.within(event, times)));
    }
    writer.carry(Carried {
        line,
        item: words,
        weight: item.weight(scale),
        wishes,
        extras: reading.extras.clone(),
        weaker: reading.weaker.clone(),
    });
}

/// FET has modes in which a day is half a day, or a term; their files say so.
fn official(root: &Element) -> Result<(), Fault> {
    if !root.name.eq_ignore_ascii_case("fet") {
        return Err(Fault::at(
            root,
            format!("this is no FET file but '{}'", root.name),
        ));
    }
    let version = root.attribute("version").unwrap_or("");
    let mode = root.field("Mode");
    let plain = version.chars().all(|c| c.is_ascii_digit() || c == '.');
    match plain && matches!(mode, "" | "Official") {
        true => Ok(()),
        false => Err(Fault::at(
            root,
            format!("version '{version}', mode '{mode}': only the official mode is read"),
        )),
    }
}

/// The lists of activities that must start together.
fn starting_together(school: &School, items: &[Item]) -> Result<Vec<Vec<usize>>, Fault> {
    let together =
        |item: &&Item| item.hard() && item.element.name == "ConstraintActivitiesSameStartingTime";
    let items = items.iter().filter(together);
    items
        .map(|item| activities(school, item.element, "Activity_Id"))
        .collect()
}
