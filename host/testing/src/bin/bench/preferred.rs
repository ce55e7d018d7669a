//! The operations on a school whose lessons of one to three times each have a
//! kind 3.

use crate::schools::operations;
use crate::Bench;
use testing::generate::{school, Random};
use testing::reference::{Constraint, Instance, Kind};

/// Times of a day of the generated schools.
const DAY: usize = 8;

/// Prints a row for each operation.
pub fn rows(bench: &Bench) {
    let mut random = Random::new(1);
    let lessons = bench.scale.preferred;
    let instance = wished(&mut random, lessons);
    let name = format!("{lessons} lessons, each with kind 3");
    operations(bench, &mut random, &name, &instance);
}

/// The lessons of a generated school, for half of them a group that leaves out the
/// last two times of each day, for the others a day or half day. All is soft, so
/// that every timetable has a model.
fn wished(random: &mut Random, lessons: usize) -> Instance {
    let mut instance = school(random, lessons);
    instance.constraints.clear();
    let early = |time: &usize| time % DAY < DAY - 2;
    let others = instance.groups.len();
    instance
        .groups
        .push((0..instance.times).filter(early).collect());
    for (event, lesson) in instance.events.iter_mut().enumerate() {
        lesson.duration = 1 + random.below(3);
        let group = match random.chance(50) {
            true => others,
            false => random.below(others),
        };
        let kind = Kind::PreferredTimes { event, group };
        instance.constraints.push(Constraint { weight: 4, kind });
    }
    instance
}
