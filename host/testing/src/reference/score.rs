//! Infeasibility and objective of a timetable, from the table of kinds alone.
//! No clause and no size is involved.

use super::instance::{Instance, Kind, Range};
use super::sheet::Sheet;
use timetable::engine::{Infeasibility, Objective, Refusal, Score};

/// The score of a timetable, or 1 to 6, 10 to 12, 19, 22.
pub fn score(file: &[u8], table: &[u8]) -> Result<Score, Refusal> {
    let instance = Instance::read(file)?;
    let sheet = Sheet::read(&instance, table)?;
    let usage = Usage::new(&instance, &sheet);
    let mut infeasibility = 0;
    let mut objective = 0;
    for constraint in &instance.constraints {
        let deviation = usage.deviation(&constraint.kind);
        match constraint.weight {
            0 => infeasibility += deviation,
            weight => objective += u64::from(weight) * deviation,
        }
    }
    Ok(Score {
        infeasibility: Infeasibility(infeasibility),
        objective: Objective(objective),
    })
}

/// How far `count` lies outside the range.
pub fn deviation(count: usize, range: Range) -> u64 {
    let (count, lo, hi) = (count as u64, u64::from(range.lo), u64::from(range.hi));
    if count < lo {
        lo - count
    } else {
        count.saturating_sub(hi)
    }
}

/// A timetable with, for each resource and time, the number of its events then.
struct Usage<'a> {
    instance: &'a Instance,
    sheet: &'a Sheet<'a>,
    events: Vec<usize>,
}

impl<'a> Usage<'a> {
    fn new(instance: &'a Instance, sheet: &'a Sheet<'a>) -> Self {
        let mut events = vec![0; instance.resources * instance.times];
        for (event, fields) in instance.events.iter().enumerate() {
            for time in (0..instance.times).filter(|&t| sheet.takes(event, t)) {
                for resource in &fields.resources {
                    events[resource * instance.times + time] += 1;
                }
            }
        }
        Usage {
            instance,
            sheet,
            events,
        }
    }

    fn events(&self, resource: usize, time: usize) -> usize {
        self.events[resource * self.instance.times + time]
    }

    /// X(r, t).
    fn busy(&self, resource: usize, time: usize) -> bool {
        self.events(resource, time) > 0
    }

    fn busy_in(&self, resource: usize, group: usize) -> usize {
        let members = &self.instance.groups[group];
        members.iter().filter(|&&t| self.busy(resource, t)).count()
    }

    /// The members of `group` without X, with X at an earlier and at a later member.
    fn idle_in(&self, resource: usize, group: usize) -> usize {
        let members = &self.instance.groups[group];
        let busy = |&time: &usize| self.busy(resource, time);
        let first = members.iter().position(busy);
        let last = members.iter().rposition(busy);
        match (first, last) {
            (Some(first), Some(last)) => {
                let between = &members[first..=last];
                between.iter().filter(|&time| !busy(time)).count()
            }
            _ => 0,
        }
    }

    fn deviation(&self, kind: &Kind) -> u64 {
        let range = kind.range();
        let times = 0..self.instance.times;
        match kind {
            Kind::Clash { resource } => times
                .map(|time| deviation(self.events(*resource, time), range))
                .sum(),
            Kind::Unavailable { resource, group } => {
                deviation(self.busy_in(*resource, *group), range)
            }
            Kind::PreferredTimes { event, group } => {
                let starts = self.sheet.starts_of(*event);
                let outside = starts.filter(|&start| self.instance.outside(*group, start));
                let lengths = outside.map(|start| self.sheet.length_from(*event, start));
                deviation(lengths.sum(), range)
            }
            Kind::Split { event, .. } => deviation(self.sheet.starts_of(*event).count(), range),
            Kind::Spread { events, group, .. } => {
                let members = &self.instance.groups[*group];
                let starts = |&event: &usize| {
                    let at = |&&time: &&usize| self.sheet.starts(event, time);
                    members.iter().filter(at).count()
                };
                deviation(events.iter().map(starts).sum(), range)
            }
            Kind::BusyLimit {
                resource, group, ..
            } => match self.busy_in(*resource, *group) {
                0 => 0,
                count => deviation(count, range),
            },
            Kind::Cluster {
                resource, groups, ..
            } => {
                let count = groups
                    .iter()
                    .filter(|&&group| self.busy_in(*resource, group) > 0);
                deviation(count.count(), range)
            }
            Kind::Idle {
                resource, groups, ..
            } => {
                let idle = groups.iter().map(|&group| self.idle_in(*resource, group));
                deviation(idle.sum(), range)
            }
            Kind::Distribute { event, length, .. } => {
                let lengths = self.sheet.lengths(*event);
                deviation(lengths.filter(|found| found == length).count(), range)
            }
            Kind::Lengths {
                event,
                shortest,
                longest,
            } => {
                let outside = |length: &usize| length < shortest || length > longest;
                deviation(self.sheet.lengths(*event).filter(outside).count(), range)
            }
            Kind::Precedence { first, second, gap } => {
                let allowed = i64::from(gap.lo)..=i64::from(gap.hi);
                let outside = !allowed.contains(&self.sheet.gap(*first, *second));
                deviation(usize::from(outside), range)
            }
        }
    }
}
