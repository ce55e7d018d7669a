//! Sets of times, as bits; an instance has at most 125 times.

use crate::instance::MOST_TIMES;
use std::ops::{BitAnd, BitOr, Not};

const _: () = assert!(MOST_TIMES <= u128::BITS, "a bit for each time");

/// A set of times, by their indices from 0.
#[derive(Clone, Copy, Debug, Default, PartialEq, Eq, Hash)]
pub struct TimeSet(u128);

impl TimeSet {
    /// The times below `count`.
    pub fn below(count: usize) -> TimeSet {
        (0..count).collect()
    }

    pub fn contains(self, time: usize) -> bool {
        time < u128::BITS as usize && self.0 >> time & 1 == 1
    }

    pub fn insert(&mut self, time: usize) {
        self.0 |= 1 << time;
    }

    pub fn len(self) -> usize {
        self.0.count_ones() as usize
    }

    pub fn is_empty(self) -> bool {
        self.0 == 0
    }

    /// Its times, ascending.
    pub fn iter(self) -> impl Iterator<Item = usize> {
        (0..u128::BITS as usize).filter(move |&time| self.contains(time))
    }
}

impl FromIterator<usize> for TimeSet {
    fn from_iter<I: IntoIterator<Item = usize>>(times: I) -> TimeSet {
        let mut set = TimeSet::default();
        times.into_iter().for_each(|time| set.insert(time));
        set
    }
}

impl BitAnd for TimeSet {
    type Output = TimeSet;
    fn bitand(self, other: TimeSet) -> TimeSet {
        TimeSet(self.0 & other.0)
    }
}

impl BitOr for TimeSet {
    type Output = TimeSet;
    fn bitor(self, other: TimeSet) -> TimeSet {
        TimeSet(self.0 | other.0)
    }
}

/// What is not in it, above the last time too; to be cut down by `&`.
impl Not for TimeSet {
    type Output = TimeSet;
    fn not(self) -> TimeSet {
        TimeSet(!self.0)
    }
}
