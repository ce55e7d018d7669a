//! The operations on a school in clock time, whose groups are windows, beside the same
//! school without a calendar.

use crate::schools::operations;
use crate::Bench;
use testing::generate::{in_clock_time, school, Random};
use testing::reference::Instance;

/// Prints a row for each operation on each of the two.
pub fn rows(bench: &Bench) {
    let lessons = bench.scale.windows;
    let without = wished(lessons);
    let with = in_clock_time(&without);
    for (name, instance) in [("windows", &with), ("the same as groups", &without)] {
        let name = format!("{lessons} lessons, {name}");
        operations(bench, &mut Random::new(1), &name, instance);
    }
}

/// A generated school. All is soft, so that every timetable has a model.
fn wished(lessons: usize) -> Instance {
    let mut instance = school(&mut Random::new(1), lessons);
    for constraint in &mut instance.constraints {
        constraint.weight = constraint.weight.max(1);
    }
    instance
}
