//! The operations on a school whose lessons each come before another one.

use crate::schools::operations;
use crate::Bench;
use testing::generate::{school, Random};
use testing::reference::{Constraint, Instance, Kind, Range, LARGEST_GAP};

/// Prints a row for each operation.
pub fn rows(bench: &Bench) {
    let mut random = Random::new(1);
    let lessons = bench.scale.precedence;
    let instance = wished(&mut random, lessons);
    let name = format!("{lessons} lessons, each with kind 11");
    operations(bench, &mut random, &name, &instance);
}

/// The lessons of a generated school, each before the next one: half of them at any
/// gap from 0, 1 or 2 on, the others at one of up to five such gaps. All is soft, so
/// that every timetable has a model.
fn wished(random: &mut Random, lessons: usize) -> Instance {
    let mut instance = school(random, lessons);
    instance.constraints.clear();
    for first in 0..lessons {
        let lo = random.below(3) as u32;
        let hi = match random.chance(50) {
            true => LARGEST_GAP,
            false => lo + random.below(5) as u32,
        };
        let kind = Kind::Precedence {
            first,
            second: (first + 1) % lessons,
            gap: Range { lo, hi },
        };
        instance.constraints.push(Constraint { weight: 4, kind });
    }
    instance
}
