//! Writing an instance file.

use super::kinds::Value;
use super::{Calendar, Constraint, Instance, Window};
use crate::number::write_number;

/// The bytes of `instance`. They are accepted if it is within the limits.
pub fn write(instance: &Instance) -> Vec<u8> {
    let mut out = Vec::new();
    match &instance.calendar {
        Some(calendar) => write_days(&mut out, calendar),
        None => number(&mut out, instance.times),
    }
    number(&mut out, instance.events.len());
    number(&mut out, instance.resources);
    for event in &instance.events {
        number(&mut out, event.duration);
        list(&mut out, &event.resources);
    }
    number(&mut out, instance.written_groups().len());
    for group in instance.written_groups() {
        list(&mut out, group);
    }
    if let Some(calendar) = &instance.calendar {
        write_windows(&mut out, &calendar.windows);
    }
    number(&mut out, instance.constraints.len());
    for constraint in &instance.constraints {
        write_constraint(&mut out, constraint);
    }
    out
}

/// The 0 in place of the number of times, and the days.
fn write_days(out: &mut Vec<u8>, calendar: &Calendar) {
    number(out, 0);
    for periods in &calendar.days {
        number(out, periods.len());
        for period in periods {
            write_number(period.start, out);
            write_number(period.end, out);
        }
    }
}

fn write_windows(out: &mut Vec<u8>, windows: &[Window]) {
    number(out, windows.len());
    for window in windows {
        number(out, window.day + 1);
        write_number(window.from, out);
        write_number(window.to, out);
    }
}

fn write_constraint(out: &mut Vec<u8>, Constraint { weight, kind }: &Constraint) {
    let facts = kind.facts();
    write_number(facts.number, out);
    write_number(*weight, out);
    for (field, value) in facts.fields.iter().zip(kind.values()) {
        match (value, field.sort.thing()) {
            (Value::One(index), Some(_)) => number(out, index + 1),
            (Value::One(value), None) => number(out, value),
            (Value::Many(indices), _) => list(out, indices),
        }
    }
}

fn number(out: &mut Vec<u8>, value: usize) {
    let value = u32::try_from(value).expect("a number of an instance fits 32 bits");
    write_number(value, out);
}

/// A count and as many references.
fn list(out: &mut Vec<u8>, indices: &[usize]) {
    number(out, indices.len());
    for index in indices {
        number(out, index + 1);
    }
}
