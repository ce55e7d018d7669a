//! Models that extend a timetable, with the tail or without.

use crate::reference::{Constraint, Instance, Kind, Range};
use std::ops::RangeInclusive;

/// The model that extends `table`, a timetable of `instance`, by the meaning
/// of each variable. It breaks hard clauses if the timetable breaks hard
/// constraints.
pub fn model(instance: &Instance, table: &[u8]) -> Vec<u8> {
    Extension::of(instance, table).model()
}

/// As `model`, with the variables of the tail for `bound`.
pub fn model_with_tail(instance: &Instance, table: &[u8], bound: u64) -> Vec<u8> {
    let mut extension = Extension::of(instance, table);
    let falsified: Vec<(bool, u32)> = extension
        .soft
        .iter()
        .map(|&(satisfied, weight)| (!satisfied, weight))
        .collect();
    extension.counter(&falsified, bound as usize + 1);
    extension.model()
}

/// A timetable of an instance, looked at by its variables.
struct Sheet<'a> {
    instance: &'a Instance,
    table: &'a [u8],
}

impl Sheet<'_> {
    fn y(&self, event: usize, time: usize) -> bool {
        self.table[event * self.instance.times + time] == 1
    }

    fn s(&self, event: usize, time: usize) -> bool {
        self.y(self.instance.events.len() + event, time)
    }

    /// Whether the event takes `time` and does not start there: M(t). Not so
    /// after the last time.
    fn goes_on(&self, event: usize, time: usize) -> bool {
        time < self.instance.times && self.y(event, time) && !self.s(event, time)
    }

    /// Whether the subevent before goes on at all of `times`, those after the
    /// last left out but for the first of them.
    fn goes_on_at(&self, event: usize, mut times: RangeInclusive<usize>) -> bool {
        times.all(|time| time > self.instance.times || self.goes_on(event, time))
    }

    /// The start of the subevent that holds `time`, if one does.
    fn start(&self, event: usize, time: usize) -> Option<usize> {
        let last = (0..=time).rev().find(|&t| !self.goes_on(event, t));
        last.filter(|&start| self.s(event, start))
    }

    /// The length of the subevent that starts at `time`; 0 if none does.
    fn length(&self, event: usize, time: usize) -> usize {
        match self.s(event, time) {
            true => 1 + (time + 1..).take_while(|&t| self.goes_on(event, t)).count(),
            false => 0,
        }
    }

    fn x(&self, resource: usize, time: usize) -> bool {
        (0..self.instance.events.len())
            .any(|event| self.instance.uses(event, resource) && self.y(event, time))
    }

    fn x_in(&self, resource: usize, group: usize) -> Vec<bool> {
        let members = self.instance.groups[group].iter();
        members.map(|&time| self.x(resource, time)).collect()
    }
}

/// The values of the variables so far.
struct Extension {
    values: Vec<bool>,
    /// Whether each soft unit is satisfied, with its weight.
    soft: Vec<(bool, u32)>,
}

impl Extension {
    fn of(instance: &Instance, table: &[u8]) -> Extension {
        let sheet = Sheet { instance, table };
        let times = instance.times;
        let mut extension = Extension {
            values: table.iter().map(|&byte| byte == 1).collect(),
            soft: Vec::new(),
        };
        for resource in 0..instance.resources {
            for time in 0..times {
                extension.values.push(sheet.x(resource, time));
            }
        }
        for (event, fields) in instance.events.iter().enumerate() {
            let list: Vec<bool> = (0..times).map(|time| sheet.y(event, time)).collect();
            let columns = (fields.duration + 1).min(times);
            extension.counter(&unweighted(&list), columns);
        }
        for constraint in &instance.constraints {
            extension.constraint(&sheet, constraint);
        }
        extension
    }

    /// The gates of a constraint's list, its counter and its bounds.
    fn constraint(&mut self, sheet: &Sheet, constraint: &Constraint) {
        let Instance { times, groups, .. } = sheet.instance;
        let times = 0..*times;
        let list: Vec<bool> = match &constraint.kind {
            Kind::Clash { resource } => {
                let events = sheet.instance.events_of(*resource);
                for time in times {
                    let list: Vec<bool> =
                        events.iter().map(|&event| sheet.y(event, time)).collect();
                    self.counted(&list, constraint);
                }
                return;
            }
            Kind::Unavailable { resource, group }
            | Kind::BusyLimit {
                resource, group, ..
            } => sheet.x_in(*resource, *group),
            Kind::PreferredTimes { event, group } => {
                self.held_from_outside(sheet, *event, &groups[*group])
            }
            Kind::Split { event, .. } => times.map(|time| sheet.s(*event, time)).collect(),
            Kind::Spread { events, group, .. } => {
                let starts =
                    |&event: &usize| groups[*group].iter().map(move |&time| sheet.s(event, time));
                events.iter().flat_map(starts).collect()
            }
            Kind::Cluster {
                resource, groups, ..
            } => self.cluster(sheet, *resource, groups),
            Kind::Idle {
                resource, groups, ..
            } => self.idle(sheet, *resource, groups),
            Kind::Distribute { event, length, .. } => {
                self.goes_on(sheet, *event);
                let list: Vec<bool> = times
                    .map(|time| sheet.length(*event, time) == *length)
                    .collect();
                self.values.extend_from_slice(&list);
                list
            }
            Kind::Lengths {
                event,
                shortest,
                longest,
            } => self.lengths(sheet, *event, *shortest, *longest),
            Kind::Precedence { first, second, gap } => {
                vec![self.gap_outside(sheet, [*first, *second], *gap)]
            }
        };
        self.counted(&list, constraint);
    }

    /// For each time that a subevent that starts outside `group` can hold, whether
    /// one does.
    fn held_from_outside(&mut self, sheet: &Sheet, event: usize, group: &[usize]) -> Vec<bool> {
        let duration = sheet.instance.events[event].duration;
        let outside = |time: usize| !group.contains(&time);
        let mut list = Vec::new();
        for time in 0..sheet.instance.times {
            let held = sheet.start(event, time).is_some_and(outside);
            let reachable = (0..time).any(|start| outside(start) && time - start < duration);
            if reachable {
                let goes_on = sheet.goes_on(event, time);
                self.values.extend_from_slice(&[goes_on, held && goes_on]);
                self.values.extend(outside(time).then_some(held));
            }
            list.extend((reachable || outside(time)).then_some(held));
        }
        list
    }

    /// For each group whether the resource is used in it.
    fn cluster(&mut self, sheet: &Sheet, resource: usize, groups: &[usize]) -> Vec<bool> {
        let used = groups
            .iter()
            .map(|&group| sheet.x_in(resource, group).contains(&true));
        let list: Vec<bool> = used.collect();
        self.values.extend_from_slice(&list);
        list
    }

    /// For each member of each group but its first and last whether it is idle.
    fn idle(&mut self, sheet: &Sheet, resource: usize, groups: &[usize]) -> Vec<bool> {
        let mut list = Vec::new();
        for &group in groups {
            let busy = sheet.x_in(resource, group);
            for member in 1..busy.len().saturating_sub(1) {
                let earlier = busy[..member].contains(&true);
                let later = busy[member + 1..].contains(&true);
                let idle = !busy[member] && earlier && later;
                self.values.extend_from_slice(&[earlier, later, idle]);
                list.push(idle);
            }
        }
        list
    }

    /// For each time but the first, and for the one after the last, whether the
    /// subevent before goes on there.
    fn goes_on(&mut self, sheet: &Sheet, event: usize) {
        let times = 1..=sheet.instance.times;
        self.values
            .extend(times.map(|time| sheet.goes_on(event, time)));
    }

    /// For each time whether a subevent of a length outside starts there.
    fn lengths(
        &mut self,
        sheet: &Sheet,
        event: usize,
        shortest: usize,
        longest: usize,
    ) -> Vec<bool> {
        self.goes_on(sheet, event);
        let mut list = Vec::new();
        for time in 0..sheet.instance.times {
            if shortest > 1 {
                let q = sheet.goes_on_at(event, time + shortest..=time + longest);
                let long_enough = sheet.goes_on_at(event, time + 1..=time + shortest - 1);
                self.values.extend_from_slice(&[q, q || !long_enough]);
            }
            let length = sheet.length(event, time);
            let outside = length > 0 && !(shortest..=longest).contains(&length);
            self.values.push(outside);
            list.push(outside);
        }
        list
    }

    /// Whether the gap between two events lies outside, after whether the second has
    /// begun, or the first goes on, and so too soon or too late. Times count from 1
    /// here; an event without a time, which no timetable has, neither begins nor goes on.
    fn gap_outside(&mut self, sheet: &Sheet, [first, second]: [usize; 2], gap: Range) -> bool {
        let times = sheet.instance.times as i64;
        let (lo, hi) = (i64::from(gap.lo), i64::from(gap.hi));
        let takes = |event: usize, time: &i64| sheet.y(event, *time as usize - 1);
        let begin = (1..=times).find(|time| takes(second, time));
        let last = (1..=times).rfind(|time| takes(first, time));
        let begun = |time: i64| begin.is_some_and(|begin| begin <= time);
        let goes_on = |time: i64| last.is_some_and(|last| last > time);
        // Of the times from which the second event can still begin after lo times, and
        // after more than hi; none where these numbers are below 1.
        let (early, late) = (times - 1 - lo, times - 2 - hi);
        let soon = |time: i64| takes(first, &time) && begun(time + lo);
        let tardy = |time: i64| !begun(time + hi + 1) && !goes_on(time);
        self.values.extend((1..=early).map(|time| begun(time + lo)));
        self.values.extend((2..=early).map(soon));
        self.values.extend((1..=late).rev().map(goes_on));
        self.values.extend((1..=late).map(tardy));
        let between = begin.zip(last).map(|(begin, last)| begin - last - 1);
        let outside = !between.is_some_and(|gap| lo <= gap && gap <= hi);
        self.values.push(outside);
        outside
    }

    /// c(i, j): the first i weights of true inputs sum to at least j.
    fn counter(&mut self, inputs: &[(bool, u32)], columns: usize) {
        let mut sum = 0;
        for &(input, weight) in inputs {
            if input {
                sum += weight as usize;
            }
            self.values.extend((1..=columns).map(|j| sum >= j));
        }
    }

    fn counted(&mut self, list: &[bool], constraint: &Constraint) {
        let Constraint { weight, kind } = constraint;
        let n = list.len();
        let Range { lo, hi } = kind.range();
        let (lo, hi) = (lo as usize, (hi as usize).min(n));
        let columns = if *weight == 0 { n.min(hi + 1) } else { n };
        self.counter(&unweighted(list), columns);
        let count = list.iter().filter(|&&input| input).count();
        let mut units = Vec::new();
        if let Kind::BusyLimit { .. } = kind {
            for j in 2..=lo {
                let v = count >= 1 && count < j;
                self.values.push(v);
                units.push(!v);
            }
        } else {
            units.extend((1..=lo).map(|j| count >= j));
        }
        units.extend((hi + 1..=n).map(|j| count < j));
        if *weight > 0 {
            self.soft.extend(units.iter().map(|&unit| (unit, *weight)));
        }
    }

    fn model(&self) -> Vec<u8> {
        self.values.iter().map(|&value| value as u8).collect()
    }
}

fn unweighted(list: &[bool]) -> Vec<(bool, u32)> {
    list.iter().map(|&input| (input, 1)).collect()
}
