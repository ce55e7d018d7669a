//! Reading an instance file: in one walk, each number with its name.

use super::fault::{Fault, Reason};
use super::field::{Entry, Field, Part, Path};
use super::kinds::{FieldFacts, Kind, Source, KINDS};
use super::limits::*;
use super::{Constraint, Event, Instance};
use crate::number::read_number;
use std::ops::RangeInclusive;

/// The instance that `bytes` hold, or the first fault in the order of the file.
pub fn read(bytes: &[u8]) -> Result<Instance, Fault> {
    Reader::over(bytes).instance()
}

/// The number that starts at `offset`, if the walk over the file comes to it:
/// every number of an accepted file, and those of a refused one up to its fault.
pub fn field_at(bytes: &[u8], offset: usize) -> Option<Field> {
    let mut reader = Reader::over(bytes);
    reader.watched = Some(offset);
    // A fault ends the walk; what was met before it counts.
    let _ = reader.instance();
    reader.met
}

pub struct Reader<'a> {
    bytes: &'a [u8],
    offset: usize,
    /// The offset whose number is wanted.
    watched: Option<usize>,
    met: Option<Field>,
}

impl<'a> Reader<'a> {
    fn over(bytes: &'a [u8]) -> Self {
        Reader {
            bytes,
            offset: 0,
            watched: None,
            met: None,
        }
    }

    fn instance(&mut self) -> Result<Instance, Fault> {
        let mut instance = Instance::default();
        let times = self.number(alone(Part::Counts, "times"), 0..=MOST_TIMES)?;
        instance.times = inside(&times)?;
        if instance.times == 0 {
            let calendar = self.calendar(&times)?;
            instance.times = calendar.times();
            instance.calendar = Some(calendar);
        }
        let events = self.count("events", 1..=MOST_EVENTS)?;
        instance.resources = self.count("resources", 0..=MOST_RESOURCES)?;
        for number in 1..=events {
            instance.events.push(self.event(number, instance.counts())?);
        }
        for number in 1..=self.count("groups", 0..=MOST_GROUPS)? {
            let members = self.list(Part::Group(number), "times", instance.times)?;
            instance.groups.push(members);
        }
        if instance.calendar.is_some() {
            for window in self.windows()? {
                instance.add_window(window);
            }
        }
        for number in 1..=self.count("constraints", 0..=MOST_CONSTRAINTS)? {
            let constraint = self.constraint(number, &instance)?;
            instance.constraints.push(constraint);
        }
        self.end()?;
        Ok(instance)
    }

    fn event(&mut self, number: usize, counts: Counts) -> Result<Event, Fault> {
        let part = Part::Event(number);
        Ok(Event {
            duration: self.within(alone(part, "duration"), 1..=counts.times as u32)?,
            resources: self.list(part, "resource list", counts.resources)?,
        })
    }

    fn constraint(&mut self, number: usize, instance: &Instance) -> Result<Constraint, Fault> {
        let mut part = Part::Constraint(number, None);
        let field = self.number(alone(part, "kind"), 1..=KINDS.len() as u32)?;
        let facts = &KINDS[inside(&field)? - 1];
        part = Part::Constraint(number, Some(facts));
        let weight = self.within(alone(part, "weight"), 0..=LARGEST_WEIGHT)? as u32;
        let mut fields = ConstraintFields {
            reader: self,
            part,
            counts: instance.counts(),
        };
        let kind = Kind::from_source(facts, &mut fields)?;
        match instance.constraint_end(&kind) {
            None => Ok(Constraint { weight, kind }),
            Some(reason) => Err(Fault {
                reason,
                field: Field {
                    path: alone(part, "kind"),
                    ..field
                },
            }),
        }
    }

    /// Nothing may stand after the last constraint.
    fn end(&mut self) -> Result<(), Fault> {
        let field = Field {
            path: alone(Part::End, ""),
            offset: self.offset,
            value: None,
            limits: EMPTY,
        };
        self.meet(&field);
        match self.bytes.len() - self.offset {
            0 => Ok(()),
            left => Err(Fault {
                reason: Reason::LeftOver(left),
                field,
            }),
        }
    }

    fn meet(&mut self, field: &Field) {
        if self.watched == Some(field.offset) {
            self.met = Some(field.clone());
        }
    }

    /// The next number, whatever it is.
    pub fn number(&mut self, path: Path, limits: RangeInclusive<u32>) -> Result<Field, Fault> {
        let read = read_number(self.bytes, self.offset);
        let field = Field {
            path,
            offset: self.offset,
            value: read.map(|(value, _)| value),
            limits,
        };
        self.meet(&field);
        match read {
            Some((_, next)) => {
                self.offset = next;
                Ok(field)
            }
            None => Err(Fault {
                reason: Reason::Malformed,
                field,
            }),
        }
    }

    /// A number within its limits.
    fn within(&mut self, path: Path, limits: RangeInclusive<u32>) -> Result<usize, Fault> {
        inside(&self.number(path, limits)?)
    }

    fn count(&mut self, name: &'static str, limits: RangeInclusive<u32>) -> Result<usize, Fault> {
        self.within(alone(Part::Counts, name), limits)
    }

    /// The index of one of `things` things, not below `least`.
    fn reference(&mut self, path: Path, least: usize, things: usize) -> Result<usize, Fault> {
        let field = self.number(path, least as u32 + 1..=things as u32)?;
        let index = field
            .value
            .and_then(|value| (value as usize).checked_sub(1));
        match index {
            Some(index) if (least..things).contains(&index) => Ok(index),
            Some(index) if index < least => Err(Fault {
                reason: Reason::NotAscending,
                field,
            }),
            _ => Err(Fault {
                reason: Reason::Nothing,
                field,
            }),
        }
    }

    /// A strictly ascending list of indices of `things` things.
    fn list(&mut self, part: Part, name: &'static str, things: usize) -> Result<Vec<usize>, Fault> {
        let path = |entry| Path { part, name, entry };
        let count = self.within(path(Entry::Count), 0..=things as u32)?;
        let mut members = Vec::with_capacity(count);
        for number in 1..=count {
            let least = members.last().map_or(0, |last| last + 1);
            members.push(self.reference(path(Entry::Member(number)), least, things)?);
        }
        Ok(members)
    }
}

/// The limits of what may not stand at all.
const EMPTY: RangeInclusive<u32> = 1..=0;

pub fn alone(part: Part, name: &'static str) -> Path {
    Path {
        part,
        name,
        entry: Entry::Alone,
    }
}

/// The value of a number, if it is within its limits.
fn inside(field: &Field) -> Result<usize, Fault> {
    match field.value {
        Some(value) if field.limits.contains(&value) => Ok(value as usize),
        _ => Err(Fault {
            reason: Reason::Outside,
            field: field.clone(),
        }),
    }
}

/// The fields of one constraint, read from the file.
struct ConstraintFields<'r, 'a> {
    reader: &'r mut Reader<'a>,
    part: Part,
    counts: Counts,
}

impl Source for ConstraintFields<'_, '_> {
    type Fault = Fault;

    fn one(&mut self, field: &'static FieldFacts) -> Result<usize, Fault> {
        let path = alone(self.part, field.words());
        match field.sort.thing() {
            Some(thing) => self.reader.reference(path, 0, self.counts.of(thing)),
            None => self.reader.within(path, field.sort.limits(&self.counts)),
        }
    }

    fn many(&mut self, field: &'static FieldFacts) -> Result<Vec<usize>, Fault> {
        let things = field.sort.thing().map_or(0, |thing| self.counts.of(thing));
        self.reader.list(self.part, field.words(), things)
    }
}
