//! The counted list of a constraint: how long it is, and what its count may be.

use super::fault::{ConstraintEnd, Reason};
use super::limits::LONGEST_LIST;
use super::{Instance, Kind};

/// What a count may be, both ends included.
#[derive(Clone, Copy, Debug, PartialEq, Eq)]
pub struct Range {
    pub lo: usize,
    pub hi: usize,
}

impl Range {
    /// How far `count` lies outside.
    pub fn deviation(self, count: usize) -> u64 {
        let outside = match count < self.lo {
            true => self.lo - count,
            false => count.saturating_sub(self.hi),
        };
        outside as u64
    }
}

/// A time that a subevent that starts outside of a group can hold.
#[derive(Clone, Copy, Debug, PartialEq, Eq)]
pub struct Reach {
    pub time: usize,
    /// It can start there.
    pub outside: bool,
    /// It can have started before.
    pub reachable: bool,
}

impl Kind {
    /// What the count may be, as written.
    pub fn range(&self) -> Range {
        match *self {
            Kind::Clash { .. } => Range { lo: 0, hi: 1 },
            Kind::Unavailable { .. }
            | Kind::PreferredTimes { .. }
            | Kind::Lengths { .. }
            | Kind::Precedence { .. } => Range { lo: 0, hi: 0 },
            Kind::Split { lo, hi, .. }
            | Kind::Spread { lo, hi, .. }
            | Kind::BusyLimit { lo, hi, .. }
            | Kind::Cluster { lo, hi, .. }
            | Kind::Idle { lo, hi, .. }
            | Kind::Distribute { lo, hi, .. } => Range { lo, hi },
        }
    }
}

impl Kind {
    /// What is wrong with fields that are no bounds of the count: two events that
    /// are one, then a shortest length above the longest, or a lo above hi of a gap.
    fn crossed_fields(&self) -> Option<Reason> {
        match *self {
            Kind::Lengths {
                shortest, longest, ..
            } if shortest > longest => Some(Reason::CrossedLengths { shortest, longest }),
            Kind::Precedence { first, second, .. } if first == second => {
                Some(Reason::SameEvent { event: first })
            }
            Kind::Precedence { lo, hi, .. } if lo > hi => Some(Reason::CrossedGaps { lo, hi }),
            _ => None,
        }
    }
}

impl Instance {
    /// The length of the counted list of `kind`; a clash has one for each
    /// time, all equally long.
    pub fn counted_length(&self, kind: &Kind) -> usize {
        let size = |group: &usize| self.groups[*group].len();
        match kind {
            Kind::Clash { resource } => {
                let events = 0..self.events.len();
                events.filter(|&event| self.uses(event, *resource)).count()
            }
            Kind::Unavailable { group, .. } | Kind::BusyLimit { group, .. } => size(group),
            Kind::PreferredTimes { event, group } => self.reach(*event, *group).count(),
            Kind::Split { .. } | Kind::Distribute { .. } | Kind::Lengths { .. } => self.times,
            Kind::Precedence { .. } => 1,
            Kind::Spread { events, group, .. } => events.len() * size(group),
            Kind::Cluster { groups, .. } => groups.len(),
            Kind::Idle { groups, .. } => {
                let inner = |group| size(group).saturating_sub(2);
                groups.iter().map(inner).sum()
            }
        }
    }

    /// The times that a subevent of `event` that starts outside of `group` can hold,
    /// ascending: what kind 3 counts.
    pub fn reach(&self, event: usize, group: usize) -> impl Iterator<Item = Reach> + '_ {
        let (duration, group) = (self.events[event].duration, &self.groups[group]);
        // The last time before this one that is outside.
        let mut last = None;
        (0..self.times).filter_map(move |time| {
            let outside = group.binary_search(&time).is_err();
            let reachable = last.is_some_and(|start| time - start < duration);
            if outside {
                last = Some(time);
            }
            let reach = Reach {
                time,
                outside,
                reachable,
            };
            (outside || reachable).then_some(reach)
        })
    }

    /// What is wrong with a constraint once its last field is read.
    pub fn constraint_end(&self, kind: &Kind) -> Option<Reason> {
        let length = self.counted_length(kind);
        let Range { lo, hi } = kind.range();
        let end = ConstraintEnd { lo, hi, length };
        if length > LONGEST_LIST {
            return Some(Reason::LongList(end));
        }
        if let Some(crossed) = kind.crossed_fields() {
            return Some(crossed);
        }
        if lo > hi {
            return Some(Reason::Crossed(end));
        }
        (lo > length).then_some(Reason::Unreachable(end))
    }
}

#[cfg(test)]
mod tests {
    use super::*;
    use crate::instance::Event;

    /// In six times and one group: the times that are outside, that can be reached,
    /// and that are both.
    fn reached(duration: usize, group: &[usize]) -> [Vec<usize>; 3] {
        let event = Event {
            duration,
            resources: Vec::new(),
        };
        let instance = Instance {
            times: 6,
            events: vec![event],
            groups: vec![group.to_vec()],
            ..Instance::default()
        };
        let kind = Kind::PreferredTimes { event: 0, group: 0 };
        let count = instance.reach(0, 0).count();
        assert_eq!(instance.counted_length(&kind), count);
        [(true, false), (false, true), (true, true)].map(|wanted| {
            let found = instance.reach(0, 0);
            let found = found.filter(|found| (found.outside, found.reachable) == wanted);
            found.map(|found| found.time).collect()
        })
    }

    #[test]
    fn a_subevent_from_outside_reaches_as_far_as_it_can_last() {
        let group = [0, 1, 3];
        assert_eq!(reached(1, &group), [vec![2, 4, 5], vec![], vec![]]);
        assert_eq!(reached(2, &group), [vec![2, 4], vec![3], vec![5]]);
        assert_eq!(reached(3, &group), [vec![2], vec![3], vec![4, 5]]);
        assert_eq!(
            reached(4, &[1, 2, 3, 4]),
            [vec![0, 5], vec![1, 2, 3], vec![]]
        );
        assert_eq!(reached(6, &[]), [vec![0], vec![], vec![1, 2, 3, 4, 5]]);
        assert_eq!(reached(6, &[0, 1, 2, 3, 4, 5]), [vec![], vec![], vec![]]);
    }
}
