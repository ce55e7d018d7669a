//! Instance files.

use crate::reference::{write_number, Calendar, Constraint, Instance, Kind, Range};

/// The instance file of `instance`.
pub fn encode(instance: &Instance) -> Vec<u8> {
    let mut file = Vec::new();
    match &instance.calendar {
        None => number(&mut file, instance.times),
        Some(calendar) => write_days(&mut file, calendar),
    }
    number(&mut file, instance.events.len());
    number(&mut file, instance.resources);
    for event in &instance.events {
        number(&mut file, event.duration);
        list(&mut file, &event.resources);
    }
    let groups = instance.time_groups();
    number(&mut file, groups.len());
    for group in groups {
        list(&mut file, group);
    }
    if let Some(calendar) = &instance.calendar {
        write_windows(&mut file, calendar);
    }
    number(&mut file, instance.constraints.len());
    for constraint in &instance.constraints {
        write_constraint(&mut file, constraint);
    }
    file
}

/// The 0 in place of T, and the periods of each day.
fn write_days(file: &mut Vec<u8>, calendar: &Calendar) {
    number(file, 0);
    for periods in &calendar.days {
        number(file, periods.len());
        for period in periods {
            write_number(period.start, file);
            write_number(period.end, file);
        }
    }
}

fn write_windows(file: &mut Vec<u8>, calendar: &Calendar) {
    number(file, calendar.windows.len());
    for window in &calendar.windows {
        for value in [window.day, window.from, window.to] {
            write_number(value, file);
        }
    }
}

fn write_constraint(file: &mut Vec<u8>, constraint: &Constraint) {
    let code = code(&constraint.kind);
    number(file, code);
    number(file, constraint.weight as usize);
    match &constraint.kind {
        Kind::Clash { resource } => reference(file, *resource),
        Kind::Unavailable { resource, group }
        | Kind::BusyLimit {
            resource, group, ..
        } => {
            reference(file, *resource);
            reference(file, *group);
        }
        Kind::PreferredTimes { event, group } => {
            reference(file, *event);
            reference(file, *group);
        }
        Kind::Split { event, .. } => reference(file, *event),
        Kind::Spread { events, group, .. } => {
            list(file, events);
            reference(file, *group);
        }
        Kind::Cluster {
            resource, groups, ..
        }
        | Kind::Idle {
            resource, groups, ..
        } => {
            reference(file, *resource);
            list(file, groups);
        }
        Kind::Distribute { event, length, .. } => {
            reference(file, *event);
            number(file, *length);
        }
        Kind::Lengths {
            event,
            shortest,
            longest,
        } => {
            reference(file, *event);
            number(file, *shortest);
            number(file, *longest);
        }
        Kind::Precedence { first, second, gap } => {
            reference(file, *first);
            reference(file, *second);
            bounds(file, *gap);
        }
    }
    if (4..=9).contains(&code) {
        bounds(file, constraint.kind.range());
    }
}

/// The number of a kind in a file.
fn code(kind: &Kind) -> usize {
    match kind {
        Kind::Clash { .. } => 1,
        Kind::Unavailable { .. } => 2,
        Kind::PreferredTimes { .. } => 3,
        Kind::Split { .. } => 4,
        Kind::Spread { .. } => 5,
        Kind::BusyLimit { .. } => 6,
        Kind::Cluster { .. } => 7,
        Kind::Idle { .. } => 8,
        Kind::Distribute { .. } => 9,
        Kind::Lengths { .. } => 10,
        Kind::Precedence { .. } => 11,
    }
}

fn number(file: &mut Vec<u8>, value: usize) {
    write_number(value as u32, file);
}

fn bounds(file: &mut Vec<u8>, range: Range) {
    number(file, range.lo as usize);
    number(file, range.hi as usize);
}

fn reference(file: &mut Vec<u8>, index: usize) {
    number(file, index + 1);
}

fn list(file: &mut Vec<u8>, members: &[usize]) {
    number(file, members.len());
    for &member in members {
        reference(file, member);
    }
}
