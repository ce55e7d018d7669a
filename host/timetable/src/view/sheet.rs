//! The bytes of a timetable.

use crate::instance::Instance;
use std::ops::Range;

/// A timetable: for each event and time whether it is taken, and whether it is a start.
pub struct Sheet<'a> {
    times: usize,
    taken: &'a [u8],
    starts: &'a [u8],
}

impl<'a> Sheet<'a> {
    /// None unless `table` has the length of a timetable of `instance`.
    pub fn over(instance: &Instance, table: &'a [u8]) -> Option<Self> {
        let half = instance.events.len() * instance.times;
        let (taken, starts) = (table.len() == 2 * half).then(|| table.split_at(half))?;
        Some(Sheet {
            times: instance.times,
            taken,
            starts,
        })
    }

    pub fn takes(&self, event: usize, time: usize) -> bool {
        self.taken[event * self.times + time] != 0
    }

    pub fn starts(&self, event: usize, time: usize) -> bool {
        self.starts[event * self.times + time] != 0
    }

    /// The times that `event` takes.
    pub fn times_of(&self, event: usize) -> Vec<usize> {
        (0..self.times)
            .filter(|&time| self.takes(event, time))
            .collect()
    }

    /// The blocks of `event`: each from a start up to the next start or time not taken.
    pub fn blocks(&self, event: usize) -> Vec<Range<usize>> {
        let mut blocks: Vec<Range<usize>> = Vec::new();
        for time in self.times_of(event) {
            match blocks.last_mut() {
                Some(block) if block.end == time && !self.starts(event, time) => block.end += 1,
                _ => blocks.push(time..time + 1),
            }
        }
        blocks
    }
}
