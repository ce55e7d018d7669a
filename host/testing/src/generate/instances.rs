//! Random instances of a given size.

use super::calendars::{calendar, window};
use super::file::encode;
use super::random::Random;
use super::timetables::timetable;
use crate::reference::{
    score, Constraint, Event, Infeasibility, Instance, Kind, Range, LARGEST_GAP, LARGEST_HI,
    LONGEST_LIST,
};
use std::ops::RangeInclusive;

/// The size of generated instances.
#[derive(Clone, Debug)]
pub struct Shape {
    pub times: RangeInclusive<usize>,
    pub events: RangeInclusive<usize>,
    pub resources: RangeInclusive<usize>,
    /// Time groups, and as many windows where there is a calendar.
    pub groups: RangeInclusive<usize>,
    pub constraints: RangeInclusive<usize>,
    /// How many of 100 constraints are soft.
    pub soft: usize,
    pub largest_weight: usize,
    /// How many of 100 instances have a calendar.
    pub calendars: usize,
    /// Hard constraints are drawn so that one random timetable keeps them all.
    pub feasible: bool,
}

impl Shape {
    /// A few hundred variables at most.
    pub fn tiny() -> Shape {
        Shape {
            times: 1..=3,
            events: 1..=2,
            resources: 0..=2,
            groups: 0..=3,
            constraints: 0..=4,
            soft: 60,
            largest_weight: 4,
            calendars: 30,
            feasible: false,
        }
    }

    /// Some thousand variables.
    pub fn small() -> Shape {
        Shape {
            times: 2..=9,
            events: 1..=8,
            resources: 0..=5,
            groups: 0..=6,
            constraints: 0..=20,
            soft: 50,
            largest_weight: 1_000,
            calendars: 30,
            feasible: false,
        }
    }

    /// The size of a school: some hundred thousand variables.
    pub fn school() -> Shape {
        Shape {
            times: 25..=40,
            events: 30..=60,
            resources: 10..=20,
            groups: 10..=20,
            constraints: 150..=250,
            soft: 60,
            largest_weight: 20,
            calendars: 30,
            feasible: true,
        }
    }
}

/// A random instance that the reader accepts.
pub fn instance(random: &mut Random, shape: &Shape) -> Instance {
    let times = random.within(&shape.times);
    let resources = random.within(&shape.resources);
    let with_calendar = random.chance(shape.calendars);
    let mut instance = Instance {
        times,
        resources,
        calendar: with_calendar.then(|| calendar(random, times)),
        events: Vec::new(),
        groups: Vec::new(),
        constraints: Vec::new(),
    };
    for _ in 0..random.within(&shape.events) {
        instance.events.push(Event {
            duration: duration(random, times),
            resources: random.subset(resources),
        });
    }
    for _ in 0..random.within(&shape.groups) {
        instance.groups.push(group(random, times));
    }
    if let Some(calendar) = &mut instance.calendar {
        for _ in 0..random.within(&shape.groups) {
            let window = window(random, calendar);
            instance.groups.push(calendar.group(window));
            calendar.windows.push(window);
        }
    }
    let table = timetable(random, &instance);
    let mut constraints = Vec::new();
    for _ in 0..random.within(&shape.constraints) {
        constraints.extend(constraint(random, shape, &mut instance, &table));
    }
    instance.constraints = constraints;
    instance
}

/// A duration: 1, 2 and 3 more often than longer ones.
fn duration(random: &mut Random, times: usize) -> usize {
    let most = if random.chance(60) { 3 } else { times };
    1 + random.below(times.min(most))
}

/// No times, times that follow each other, all but such, or any.
fn group(random: &mut Random, times: usize) -> Vec<usize> {
    let ends = [random.below(times + 1), random.below(times + 1)];
    let run = ends[0].min(ends[1])..ends[0].max(ends[1]);
    match random.below(8) {
        0 => Vec::new(),
        1 => run.collect(),
        2 | 3 => (0..times).filter(|time| !run.contains(time)).collect(),
        _ => random.subset(times),
    }
}

/// A random constraint on `instance`, which has none; none if no try fits.
fn constraint(
    random: &mut Random,
    shape: &Shape,
    instance: &mut Instance,
    table: &[u8],
) -> Option<Constraint> {
    for _ in 0..20 {
        let Some(kind) = kind(random, instance) else {
            continue;
        };
        let weight = match random.chance(shape.soft) {
            true => 1 + random.below(shape.largest_weight) as u32,
            false => 0,
        };
        let constraint = Constraint { weight, kind };
        if weight > 0 || !shape.feasible {
            return Some(constraint);
        }
        instance.constraints.push(constraint);
        let kept = score(&encode(instance), table).map(|score| score.infeasibility);
        let constraint = instance.constraints.pop();
        if kept == Ok(Infeasibility(0)) {
            return constraint;
        }
    }
    None
}

/// A random kind with its fields; none if what it refers to does not exist or
/// its list is too long.
fn kind(random: &mut Random, instance: &Instance) -> Option<Kind> {
    let code = 1 + random.below(11);
    let events = instance.events.len();
    let no_resource = instance.resources == 0 && ![3, 4, 5, 9, 10, 11].contains(&code);
    let no_group = instance.groups.is_empty() && [2, 3, 5, 6].contains(&code);
    let no_second = events == 1 && code == 11;
    if no_resource || no_group || no_second {
        return None;
    }
    let fields = Fields {
        resource: random.below(instance.resources.max(1)),
        event: random.below(events),
        pair: pair(random, instance),
        group: random.below(instance.groups.len().max(1)),
        groups: random.subset(instance.groups.len()),
        events: random.subset(events),
        lengths: lengths(random, instance.times),
        gap: gap(random, instance.times),
    };
    let length = instance.list_length(&fields.clone().kind(code, Range { lo: 0, hi: 0 }));
    if length > LONGEST_LIST {
        return None;
    }
    let lo = random.below(length + 1);
    let lo = lo.min(random.below(length + 1));
    let hi = match random.below(10) {
        0 => LARGEST_HI as usize,
        1 => lo,
        _ => (lo + random.below(length + 2)).min(LARGEST_HI as usize),
    };
    let range = Range {
        lo: lo as u32,
        hi: hi as u32,
    };
    Some(fields.kind(code, range))
}

/// Two lengths of subevents, ascending: short ones, equal ones and the longest
/// more often than others.
fn lengths(random: &mut Random, times: usize) -> [usize; 2] {
    let first = length(random, times);
    let second = match random.chance(30) {
        true => first,
        false => length(random, times),
    };
    [first.min(second), first.max(second)]
}

fn length(random: &mut Random, times: usize) -> usize {
    match random.below(8) {
        0 => times,
        1 => 1 + random.below(times),
        _ => 1 + random.below(times.min(3)),
    }
}

/// Two events where there are two: short ones, of which one can end before the other
/// begins, more often than others.
fn pair(random: &mut Random, instance: &Instance) -> [usize; 2] {
    let events = instance.events.len();
    let [first, second] = [(); 2].map(|()| {
        let drawn = [random.below(events), random.below(events)];
        let durations = drawn.map(|event| instance.events[event].duration);
        drawn[usize::from(durations[0] > durations[1])]
    });
    match first == second {
        true => [first, (first + 1) % events],
        false => [first, second],
    }
}

/// The bounds of a gap: small ones, equal ones, those up to the first that changes
/// nothing more and the largest more often than others.
fn gap(random: &mut Random, times: usize) -> Range {
    let first = bound_of_gap(random, times);
    let second = match random.chance(30) {
        true => first,
        false => bound_of_gap(random, times),
    };
    Range {
        lo: first.min(second),
        hi: first.max(second),
    }
}

fn bound_of_gap(random: &mut Random, times: usize) -> u32 {
    // With T − 1 as lo the gap always lies outside, with T − 2 as hi it is never above.
    let bound = match random.below(12) {
        0 => times - 1,
        1 => times.saturating_sub(2),
        2 => times.saturating_sub(3),
        3 => LARGEST_GAP as usize,
        4 => random.below(LARGEST_GAP as usize + 1),
        5 => random.below(times),
        _ => random.below(times.min(3)),
    };
    bound as u32
}

/// What a kind may refer to.
#[derive(Clone)]
struct Fields {
    resource: usize,
    event: usize,
    pair: [usize; 2],
    group: usize,
    groups: Vec<usize>,
    events: Vec<usize>,
    lengths: [usize; 2],
    gap: Range,
}

impl Fields {
    /// The kind `code` with those of the fields that it has.
    fn kind(self, code: usize, range: Range) -> Kind {
        let Fields {
            resource,
            event,
            pair: [first, second],
            group,
            groups,
            events,
            lengths: [shortest, longest],
            gap,
        } = self;
        match code {
            1 => Kind::Clash { resource },
            2 => Kind::Unavailable { resource, group },
            3 => Kind::PreferredTimes { event, group },
            4 => Kind::Split { event, range },
            5 => Kind::Spread {
                events,
                group,
                range,
            },
            6 => Kind::BusyLimit {
                resource,
                group,
                range,
            },
            7 => Kind::Cluster {
                resource,
                groups,
                range,
            },
            8 => Kind::Idle {
                resource,
                groups,
                range,
            },
            9 => Kind::Distribute {
                event,
                length: shortest,
                range,
            },
            10 => Kind::Lengths {
                event,
                shortest,
                longest,
            },
            _ => Kind::Precedence { first, second, gap },
        }
    }
}
