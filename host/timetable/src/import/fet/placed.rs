//! The timetable that FET made of a school, in the engine's bytes.

use super::super::remark::Fault;
use super::super::xml::Element;
use super::lessons::Lessons;
use super::school::School;
use std::collections::HashMap;

/// A byte for each event and time, taken or not, then a byte each, a start or not, read
/// from FET's list of placed activities.
pub fn timetable(school: &School, lessons: &Lessons, placed: &Element) -> Result<Vec<u8>, Fault> {
    let starts = starts(school, placed)?;
    let cells = lessons.lessons.len() * school.times();
    let (mut taken, mut begun) = (vec![0; cells], vec![0; cells]);
    for (event, lesson) in lessons.lessons.iter().enumerate() {
        let ids = lesson.activities.iter().map(|&at| school.activities[at].id);
        for id in ids {
            let Some(&start) = starts.get(&id) else {
                return Err(Fault::at(placed, format!("activity {id} is not placed")));
            };
            let first = event * school.times() + start;
            begun[first] = 1;
            match taken.get_mut(first..first + lesson.duration) {
                Some(block) => block.fill(1),
                None => return Err(Fault::at(placed, format!("activity {id} leaves the week"))),
            }
        }
    }
    taken.extend(begun);
    Ok(taken)
}

/// The time at which each activity starts, by its id.
fn starts(school: &School, placed: &Element) -> Result<HashMap<usize, usize>, Fault> {
    if placed.name != "Activities_Timetable" {
        let message = format!(
            "this is no list of FET's placed activities but '{}'",
            placed.name
        );
        return Err(Fault::at(placed, message));
    }
    let mut starts = HashMap::new();
    for activity in placed.all("Activity") {
        let (day, hour) = (activity.verbatim("Day"), activity.verbatim("Hour"));
        let day_place = school.days.iter().position(|name| name == day);
        let hour_place = school.hours.iter().position(|name| name == hour);
        if let (Ok(id), Some(day), Some(hour)) =
            (activity.field("Id").parse(), day_place, hour_place)
        {
            starts.insert(id, school.time(day, hour));
        }
    }
    Ok(starts)
}
