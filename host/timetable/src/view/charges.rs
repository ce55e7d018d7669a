//! What each constraint charges a timetable, and where it is broken.

use super::counts::Usage;
use super::sheet::Sheet;
use crate::instance::{Constraint, Instance};
use std::collections::HashSet;

/// What one constraint charges.
#[derive(Clone, Debug, PartialEq, Eq)]
pub struct Charge {
    /// The constraint's weight; 0 means hard.
    pub weight: u32,
    pub deviation: u64,
    /// Where it is broken, each place once; empty if it is kept, or if what is
    /// missing has no place.
    pub places: Vec<Place>,
}

/// A place in a grid: a resource or a lesson at a time.
#[derive(Clone, Copy, Debug, PartialEq, Eq, Hash)]
pub struct Place {
    pub subject: Subject,
    pub time: usize,
}

#[derive(Clone, Copy, Debug, PartialEq, Eq, Hash)]
pub enum Subject {
    Resource(usize),
    Event(usize),
}

impl Charge {
    pub fn is_hard(&self) -> bool {
        self.weight == 0
    }

    /// What it adds to the infeasibility if it is hard, to the objective if not.
    pub fn amount(&self) -> u64 {
        self.deviation * u64::from(self.weight.max(1))
    }
}

/// The sums of the charges: of the hard ones and of the others.
#[derive(Clone, Copy, Debug, Default, PartialEq, Eq)]
pub struct Totals {
    pub infeasibility: u64,
    pub objective: u64,
}

impl Totals {
    pub fn of(charges: &[Charge]) -> Totals {
        let sum = |hard: bool| {
            let charges = charges.iter().filter(|charge| charge.is_hard() == hard);
            charges.map(Charge::amount).sum()
        };
        Totals {
            infeasibility: sum(true),
            objective: sum(false),
        }
    }
}

/// What each constraint of `instance` charges, in the order of the file.
pub fn charges(instance: &Instance, sheet: &Sheet) -> Vec<Charge> {
    let usage = Usage::of(instance, sheet);
    let charge = |constraint: &Constraint| {
        let (deviation, places) = usage.deviation(&constraint.kind);
        Charge {
            weight: constraint.weight,
            deviation,
            places: if deviation > 0 {
                once(places)
            } else {
                Vec::new()
            },
        }
    };
    instance.constraints.iter().map(charge).collect()
}

/// Each place once, in the order in which they come up.
fn once(places: Vec<Place>) -> Vec<Place> {
    let mut seen = HashSet::new();
    let new = places.into_iter().filter(|&place| seen.insert(place));
    new.collect()
}
