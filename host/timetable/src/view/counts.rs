//! What each kind of constraint counts in a timetable, and where.

use super::charges::{Place, Subject};
use super::gap::Gap;
use super::sheet::Sheet;
use crate::engine::{idle_step, Kept};
use crate::instance::{Instance, Kind, Range};

/// A timetable with the number of each resource's events at each time.
pub struct Usage<'a> {
    instance: &'a Instance,
    sheet: &'a Sheet<'a>,
    /// Resource by resource.
    events: Vec<usize>,
}

/// How far a constraint is from kept, and the places that its count is taken from.
type Deviation = (u64, Vec<Place>);

impl<'a> Usage<'a> {
    pub fn of(instance: &'a Instance, sheet: &'a Sheet<'a>) -> Self {
        let mut events = vec![0; instance.resources * instance.times];
        for (event, fields) in instance.events.iter().enumerate() {
            for time in sheet.times_of(event) {
                for resource in &fields.resources {
                    events[resource * instance.times + time] += 1;
                }
            }
        }
        Usage {
            instance,
            sheet,
            events,
        }
    }

    pub fn deviation(&self, kind: &Kind) -> Deviation {
        let range = kind.range();
        let counted = |places: Vec<Place>| (range.deviation(places.len()), places);
        match kind {
            Kind::Clash { resource } => self.clash(*resource, range),
            Kind::Unavailable { resource, group } => counted(self.busy_places(*resource, *group)),
            Kind::PreferredTimes { event, group } => counted(self.from_outside(*event, *group)),
            Kind::Split { event, .. } => counted(self.starts(*event, &self.all_times())),
            Kind::Spread { events, group, .. } => self.spread(events, *group, range),
            Kind::BusyLimit {
                resource, group, ..
            } => match self.busy_places(*resource, *group) {
                none if none.is_empty() => (0, none),
                busy => counted(busy),
            },
            Kind::Cluster {
                resource, groups, ..
            } => self.cluster(*resource, groups, range),
            Kind::Idle {
                resource, groups, ..
            } => self.idle(*resource, groups, range),
            Kind::Distribute { event, length, .. } => self.distribute(*event, *length, range),
            Kind::Lengths {
                event,
                shortest,
                longest,
            } => counted(self.blocks(*event, |length| !(shortest..=longest).contains(&&length))),
            Kind::Precedence { .. } => self.precedence(kind),
        }
    }

    fn clash(&self, resource: usize, range: Range) -> Deviation {
        let over = |time: usize| range.deviation(self.events(resource, time));
        let times = 0..self.instance.times;
        let clashes = times.clone().filter(|&time| over(time) > 0);
        let places = at(Subject::Resource(resource), clashes);
        (times.map(over).sum(), places)
    }

    /// The times of the blocks of `event` that start outside of `group`.
    fn from_outside(&self, event: usize, group: usize) -> Vec<Place> {
        let wanted = &self.instance.groups[group];
        let blocks = self.sheet.blocks(event).into_iter();
        let outside = blocks.filter(|block| !wanted.contains(&block.start));
        at(Subject::Event(event), outside.flatten())
    }

    fn spread(&self, events: &[usize], group: usize, range: Range) -> Deviation {
        let starts = |times: &[usize]| -> Vec<Place> {
            let of = |&event: &usize| self.starts(event, times);
            events.iter().flat_map(of).collect()
        };
        let inside = starts(&self.instance.groups[group]);
        let deviation = range.deviation(inside.len());
        match inside.len() < range.lo {
            // Too few: any of the starts might have been one of them.
            true => (deviation, starts(&self.all_times())),
            false => (deviation, inside),
        }
    }

    fn distribute(&self, event: usize, length: usize, range: Range) -> Deviation {
        let counted = self.blocks(event, |found| found == length);
        let deviation = range.deviation(counted.len());
        match counted.len() < range.lo {
            // Too few: any of the blocks might have been one of them.
            true => (deviation, self.blocks(event, |_| true)),
            false => (deviation, counted),
        }
    }

    /// The starts of the blocks of `event` whose length is `wanted`.
    fn blocks(&self, event: usize, wanted: impl Fn(usize) -> bool) -> Vec<Place> {
        let blocks = self.sheet.blocks(event).into_iter();
        let wanted = blocks.filter(|block| wanted(block.len()));
        at(Subject::Event(event), wanted.map(|block| block.start))
    }

    /// One gap outside at most, taken from the two times that it lies between.
    fn precedence(&self, kind: &Kind) -> Deviation {
        let gap = Gap::found(kind, self.sheet).filter(|gap| gap.is_outside());
        let ends = gap.iter().flat_map(|gap| [gap.before, gap.after]);
        let places = ends.map(|(event, time)| Place {
            subject: Subject::Event(event),
            time,
        });
        (u64::from(gap.is_some()), places.collect())
    }

    fn cluster(&self, resource: usize, groups: &[usize], range: Range) -> Deviation {
        let busy = groups
            .iter()
            .map(|&group| self.busy_places(resource, group));
        let busy: Vec<Vec<Place>> = busy.filter(|places| !places.is_empty()).collect();
        (range.deviation(busy.len()), busy.concat())
    }

    fn idle(&self, resource: usize, groups: &[usize], range: Range) -> Deviation {
        let walks = groups.iter().map(|&group| self.walk(resource, group));
        let (counts, idle): (Vec<usize>, Vec<Vec<usize>>) = walks.unzip();
        let places = at(Subject::Resource(resource), idle.into_iter().flatten());
        (range.deviation(counts.iter().sum()), places)
    }

    /// The engine's walk over `group`: how many members are idle for `resource`, and which.
    fn walk(&self, resource: usize, group: usize) -> (usize, Vec<usize>) {
        let members = &self.instance.groups[group];
        let mut kept = Kept::default();
        let mut idle = Vec::new();
        for (before, &time) in members.iter().enumerate() {
            let next = idle_step(kept, self.events(resource, time) > 0);
            // So many members right before this one are idle, now that one after them is busy.
            let new = (next.idle - kept.idle) as usize;
            idle.extend_from_slice(&members[before - new..before]);
            kept = next;
        }
        (kept.idle as usize, idle)
    }

    fn all_times(&self) -> Vec<usize> {
        (0..self.instance.times).collect()
    }

    fn events(&self, resource: usize, time: usize) -> usize {
        self.events[resource * self.instance.times + time]
    }

    /// The members of `group` at which `resource` is busy.
    fn busy_places(&self, resource: usize, group: usize) -> Vec<Place> {
        let members = self.instance.groups[group].iter().copied();
        let busy = members.filter(|&time| self.events(resource, time) > 0);
        at(Subject::Resource(resource), busy)
    }

    /// The starts of `event` among `times`.
    fn starts(&self, event: usize, times: &[usize]) -> Vec<Place> {
        let times = times.iter().copied();
        let starts = times.filter(|&time| self.sheet.starts(event, time));
        at(Subject::Event(event), starts)
    }
}

fn at(subject: Subject, times: impl Iterator<Item = usize>) -> Vec<Place> {
    times.map(|time| Place { subject, time }).collect()
}

#[cfg(test)]
mod tests {
    use super::*;
    use crate::instance::Event;

    /// What is charged, and where, if the resource is busy at the times with 1 in `row`.
    fn idle(row: &[u8], groups: &[&[usize]]) -> (u64, Vec<usize>) {
        let instance = Instance {
            times: row.len(),
            resources: 1,
            events: vec![Event {
                duration: row.iter().filter(|&&busy| busy == 1).count(),
                resources: vec![0],
            }],
            groups: groups.iter().map(|group| group.to_vec()).collect(),
            ..Instance::default()
        };
        let table = row.repeat(2);
        let sheet = Sheet::over(&instance, &table).expect("a timetable");
        let (deviation, places) = Usage::of(&instance, &sheet).deviation(&Kind::Idle {
            resource: 0,
            groups: (0..groups.len()).collect(),
            lo: 0,
            hi: 0,
        });
        let times = places.iter().map(|place| place.time);
        (deviation, times.collect())
    }

    #[test]
    fn free_times_are_idle_between_two_uses_only() {
        let all: &[usize] = &[0, 1, 2, 3, 4, 5];
        assert_eq!(idle(&[0, 1, 0, 0, 1, 0], &[all]), (2, vec![2, 3]));
        assert_eq!(idle(&[0, 0, 1, 1, 0, 0], &[all]), (0, vec![]));
        assert_eq!(idle(&[0, 0, 1, 0, 0, 0], &[all]), (0, vec![]));
        assert_eq!(idle(&[0; 6], &[all]), (0, vec![]));
        assert_eq!(idle(&[1, 0, 1, 0, 0, 1], &[all]), (3, vec![1, 3, 4]));
    }

    #[test]
    fn each_group_is_walked_from_its_start() {
        let row = &[0, 1, 0, 0, 1, 0, 0, 1];
        assert_eq!(idle(row, &[&[0, 1, 2, 3], &[4, 5, 6, 7]]), (2, vec![5, 6]));
        assert_eq!(idle(row, &[&[0, 1, 2], &[], &[3, 4, 5]]), (0, vec![]));
        // A time that is idle in two groups counts twice.
        assert_eq!(idle(row, &[&[1, 3, 4], &[1, 3, 7]]), (2, vec![3, 3]));
        assert_eq!(idle(row, &[]), (0, vec![]));
    }

    /// Every way to hold two events in four times, under every gap: what
    /// is charged, and the two times that it is charged at.
    #[test]
    fn a_gap_is_charged_once_and_at_its_ends() {
        let rows: Vec<[u8; 4]> = (1..16)
            .map(|bits: u8| [0, 1, 2, 3].map(|time| bits >> time & 1))
            .collect();
        for (one, other) in rows
            .iter()
            .flat_map(|one| rows.iter().map(move |other| (one, other)))
        {
            let times = |row: &[u8; 4]| (0..4).filter(|&time| row[time] == 1).collect::<Vec<_>>();
            let event = |row: &[u8; 4]| Event {
                duration: times(row).len(),
                resources: Vec::new(),
            };
            let instance = Instance {
                times: 4,
                events: vec![event(one), event(other)],
                ..Instance::default()
            };
            let table = [*one, *other, *one, *other].concat();
            let sheet = Sheet::over(&instance, &table).expect("a timetable");
            let usage = Usage::of(&instance, &sheet);
            let (last, first) = (*times(one).last().unwrap(), times(other)[0]);
            // The gaps that are allowed, by the time at which the second begins.
            for (lo, hi) in (0..4).flat_map(|lo| (lo..4).map(move |hi| (lo, hi))) {
                let kept = (last + 1 + lo..=last + 1 + hi).contains(&first);
                let (deviation, places) = usage.deviation(&Kind::Precedence {
                    first: 0,
                    second: 1,
                    lo,
                    hi,
                });
                assert_eq!(deviation, u64::from(!kept), "{one:?} {other:?} {lo} {hi}");
                let ends = [(0, last), (1, first)].map(|(event, time)| Place {
                    subject: Subject::Event(event),
                    time,
                });
                assert_eq!(places, if kept { vec![] } else { ends.to_vec() });
            }
        }
    }

    #[test]
    fn the_idle_times_of_every_row_of_six() {
        let all: Vec<usize> = (0..6).collect();
        for bits in 0..64_u8 {
            let row: Vec<u8> = all.iter().map(|time| bits >> time & 1).collect();
            let busy = |times: &[u8]| times.contains(&1);
            let between =
                |&time: &usize| row[time] == 0 && busy(&row[..time]) && busy(&row[time..]);
            let expected: Vec<usize> = all.iter().copied().filter(between).collect();
            assert_eq!(
                idle(&row, &[&all]),
                (expected.len() as u64, expected),
                "{row:?}"
            );
        }
    }
}
