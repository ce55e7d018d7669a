//! Rooms: the engine chooses none, so a room matters where activities are pinned to it.

use super::super::draft::{Draft, Who, Wish};
use super::super::remark::{Fault, Refused};
use super::super::times::TimeSet;
use super::super::xml::Element;
use super::context::{Context, Reading};
use super::item::Item;
use super::lessons::activities;
use crate::school::ResourceSort;
use std::collections::{BTreeMap, BTreeSet};

/// A room to which events are pinned.
#[derive(Default)]
struct Room {
    events: BTreeSet<usize>,
    /// Whether some item says when it is not available.
    limited: bool,
    standing: Standing,
}

/// How a room stands in the instance.
#[derive(Clone, Copy, Default)]
enum Standing {
    Resource(usize),
    /// One person has all its events, so that they cannot clash.
    Implied,
    /// There were too many resources.
    #[default]
    NoRoomLeft,
}

pub struct Rooms {
    rooms: BTreeMap<String, Room>,
}

const PINS: &[&str] = &[
    "ConstraintActivityPreferredRoom",
    "ConstraintSubjectPreferredRoom",
    "ConstraintActivityTagPreferredRoom",
    "ConstraintSubjectActivityTagPreferredRoom",
];

impl Rooms {
    /// The rooms to which hard items pin activities, as resources of the draft.
    pub fn of(context: &Context, items: &[Item], draft: &mut Draft) -> Result<Rooms, Fault> {
        let mut rooms = Rooms {
            rooms: BTreeMap::new(),
        };
        let hard = items.iter().filter(|item| item.hard());
        for item in hard.clone().filter(|item| is_pin(item.element)) {
            let events = pinned(context, item.element)?;
            if is_real(context, item.element) {
                rooms.room(item.element).events.extend(events);
            }
        }
        for item in hard.filter(|item| item.element.name == "ConstraintRoomNotAvailableTimes") {
            rooms.room(item.element).limited = true;
        }
        for (name, room) in &mut rooms.rooms {
            let events: Vec<usize> = room.events.iter().copied().collect();
            let all_of = |person: &super::context::Person| {
                events.iter().all(|event| person.events.contains(event))
            };
            let clashless = events.len() < 2 || context.people.iter().any(all_of);
            room.standing = match clashless && (!room.limited || events.is_empty()) {
                true => Standing::Implied,
                false => match draft.resource(ResourceSort::Room, name.clone()) {
                    Some(resource) => Standing::Resource(resource),
                    None => Standing::NoRoomLeft,
                },
            };
            if let Standing::Resource(resource) = room.standing {
                draft.use_by(resource, &events);
            }
        }
        Ok(rooms)
    }

    fn room(&mut self, item: &Element) -> &mut Room {
        self.rooms
            .entry(item.verbatim("Room").to_string())
            .or_default()
    }

    fn standing(&self, item: &Element) -> Standing {
        let room = self.rooms.get(item.verbatim("Room"));
        room.map_or(Standing::NoRoomLeft, |room| room.standing)
    }

    /// What an item about rooms comes to; none if it is not of a known name.
    pub fn read(&self, context: &Context, item: &Item) -> Option<Result<Reading, Refused>> {
        let element = item.element;
        match element.name.as_str() {
            "ConstraintBasicCompulsorySpace" => Some(Ok(self.no_clashes())),
            "ConstraintRoomNotAvailableTimes" => Some(self.not_available(context, element)),
            _ if is_pin(element) => Some(self.pin(context, item)),
            _ => None,
        }
    }

    fn no_clashes(&self) -> Reading {
        let resources = self.rooms.values().filter_map(|room| match room.standing {
            Standing::Resource(resource) => Some(Wish::Clash(Who::Resource(resource))),
            _ => None,
        });
        Reading::wishes(resources.collect())
    }

    fn not_available(&self, context: &Context, item: &Element) -> Result<Reading, Refused> {
        let times: TimeSet = context.times(item, "Not_Available_Time")?;
        match self.standing(item) {
            Standing::Resource(resource) => {
                let wish = Wish::Unavailable(Who::Resource(resource), times);
                Ok(Reading::wishes(vec![wish]))
            }
            Standing::Implied => Ok(Reading::default()),
            Standing::NoRoomLeft => too_many(),
        }
    }

    /// What a pin asks is asked of the room as a whole.
    fn pin(&self, context: &Context, item: &Item) -> Result<Reading, Refused> {
        match self.standing(item.element) {
            _ if !item.hard() => Refused::because("a room can be a rule, not a wish"),
            _ if !is_real(context, item.element) => Refused::because("the room is virtual"),
            Standing::NoRoomLeft => too_many(),
            _ => Ok(Reading::default()),
        }
    }
}

fn too_many<T>() -> Result<T, Refused> {
    Refused::because("the room would be one resource too many")
}

fn is_pin(item: &Element) -> bool {
    PINS.contains(&item.name.as_str())
}

fn is_real(context: &Context, item: &Element) -> bool {
    context
        .school
        .rooms
        .iter()
        .any(|room| room == item.verbatim("Room"))
}

/// The events that an item pins: of one activity, or of a subject and tag.
fn pinned(context: &Context, item: &Element) -> Result<Vec<usize>, Fault> {
    if item.child("Activity_Id").is_some() {
        return Ok(context.events(&activities(context.school, item, "Activity_Id")?));
    }
    let (subject, tag) = (item.verbatim("Subject"), item.verbatim("Activity_Tag"));
    let known = context.school.activities.iter().enumerate();
    let fits = known.filter(|(_, activity)| {
        (subject.is_empty() || activity.subject == subject)
            && (tag.is_empty() || activity.tags.iter().any(|known| known == tag))
    });
    Ok(context.events(&fits.map(|(at, _)| at).collect::<Vec<_>>()))
}
