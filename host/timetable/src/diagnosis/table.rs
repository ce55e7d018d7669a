//! Refusals 10 and 12: the length that was given, and why an event breaks a
//! timetable.

use super::inputs::{Inputs, Sort};
use super::outline::Outline;
use crate::instance::{read, Instance};
use crate::view::Sheet;

/// The length that was given, and what else has that length.
pub fn wrong_length(inputs: &Inputs) -> String {
    let given = inputs.file.len();
    let other = match (inputs.sort, read(inputs.instance)) {
        (Sort::Model, Ok(instance)) if timetable_length(&instance) == given => {
            ", the length of a timetable"
        }
        (Sort::Timetable, Ok(instance)) if model_length(&instance) == given as u64 => {
            ", the length of a model: 'timetable decode' takes the timetable out of it"
        }
        _ => "",
    };
    format!("it has {given}{other}")
}

fn timetable_length(instance: &Instance) -> usize {
    2 * instance.events.len() * instance.times
}

fn model_length(instance: &Instance) -> u64 {
    Outline::of(instance).size().variables
}

/// Why event `number`, from 1, breaks the timetable.
pub fn broken_event(inputs: &Inputs, number: u64) -> Option<String> {
    let instance = read(inputs.instance).ok()?;
    let sheet = Sheet::over(&instance, inputs.file)?;
    let event = usize::try_from(number).ok()?.checked_sub(1)?;
    let duration = instance.events.get(event)?.duration;
    let taken = sheet.times_of(event).len();
    if taken != duration {
        return Some(format!(
            "it takes {taken} times, its duration is {duration}"
        ));
    }
    (0..instance.times).find_map(|time| {
        let takes = sheet.takes(event, time);
        let begins = takes && (time == 0 || !sheet.takes(event, time - 1));
        match (sheet.starts(event, time), takes, begins) {
            (true, false, _) => Some(format!(
                "it starts at {}, which it does not take",
                instance.time_words(time)
            )),
            (false, _, true) => Some(format!(
                "it takes {} and not the one before, and does not start there",
                instance.time_words(time)
            )),
            _ => None,
        }
    })
}
