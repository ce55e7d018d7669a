//! The operations on a school whose lessons each have a kind 9 and a kind 10.

use crate::schools::operations;
use crate::Bench;
use testing::generate::{school, Random};
use testing::reference::{Constraint, Instance, Kind, Range};

/// Prints a row for each operation.
pub fn rows(bench: &Bench) {
    let mut random = Random::new(1);
    let lessons = bench.scale.lengths;
    let instance = wished(&mut random, lessons);
    let name = format!("{lessons} lessons, each with kinds 9 and 10");
    operations(bench, &mut random, &name, &instance);
}

/// The lessons of a generated school, for each so many singles or doubles and the
/// lengths that its parts may have. All is soft, so that every timetable has a
/// model.
fn wished(random: &mut Random, lessons: usize) -> Instance {
    let mut instance = school(random, lessons);
    instance.constraints.clear();
    for event in 0..lessons {
        let wanted = random.below(3) as u32;
        let distribute = Kind::Distribute {
            event,
            length: 1 + random.below(2),
            range: Range {
                lo: wanted,
                hi: wanted,
            },
        };
        let shortest = 1 + random.below(2);
        let lengths = Kind::Lengths {
            event,
            shortest,
            longest: shortest + random.below(2),
        };
        for (weight, kind) in [(3, distribute), (2, lengths)] {
            instance.constraints.push(Constraint { weight, kind });
        }
    }
    instance
}
