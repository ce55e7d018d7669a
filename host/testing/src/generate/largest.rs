//! Instances at the limits, each with a timetable that keeps its hard
//! constraints: formulas of many ORs, long files, many variables, a long tail.

use super::calendars::calendar;
use super::random::Random;
use crate::reference::{
    Calendar, Constraint, Event, Instance, Kind, Range, Sizes, Window, DAYS, LONGEST_LIST,
    MOST_TIMES, MOST_WINDOWS,
};

/// Most groups of an instance.
const MOST_GROUPS: usize = 1_024;
/// Events of each instance here, each with a resource of its own.
const EVENTS: usize = 90;

/// Limits of idle times and of used groups, as many of each, over groups that
/// have most of 125 times: nearly every clause is of an OR.
pub fn many_ors(random: &mut Random, constraints: usize) -> (Instance, Vec<u8>) {
    let (mut instance, table) = apart(random, MOST_TIMES as usize);
    let times = instance.times;
    let dense = |random: &mut Random| (0..times).filter(|_| random.chance(90)).collect();
    instance.groups = (0..40).map(|_| dense(random)).collect();
    for constraint in 0..constraints {
        let resource = random.below(instance.resources);
        let hi = if constraint % 2 == 0 { 0 } else { 20 };
        let range = Range { lo: 0, hi };
        let (weight, kind) = if constraint % 2 == 0 {
            let groups = random.choose(2, 40);
            (0, idle(resource, groups, range))
        } else {
            let groups = (0..40).collect();
            let cluster = Kind::Cluster {
                resource,
                groups,
                range,
            };
            (1 + random.below(9) as u32, cluster)
        };
        instance.constraints.push(Constraint { weight, kind });
    }
    (instance, table)
}

/// Limits of idle times that each name all of 1,024 groups, two of them with
/// 125 times: 4,096 make the longest file without a calendar and the most clauses of
/// one kind.
pub fn idle_limits(random: &mut Random, constraints: usize) -> (Instance, Vec<u8>) {
    let (mut instance, table) = apart(random, MOST_TIMES as usize);
    let times = instance.times;
    let short = (2..MOST_GROUPS).map(|group| vec![group % (times - 1), times - 1]);
    instance.groups = vec![(0..times).collect(); 2];
    instance.groups.extend(short);
    for constraint in 0..constraints {
        let resource = constraint % instance.resources;
        let range = Range { lo: 0, hi: 0 };
        let kind = idle(resource, (0..MOST_GROUPS).collect(), range);
        instance.constraints.push(Constraint { weight: 0, kind });
    }
    (instance, table)
}

/// The same in a calendar of 125 periods, and over 1,024 windows too: 4,096 make the
/// longest file. All but one window have two periods; that one makes each list as long
/// as it may be.
pub fn idle_limits_in_windows(random: &mut Random, constraints: usize) -> (Instance, Vec<u8>) {
    let (mut instance, table) = idle_limits(random, constraints);
    let mut calendar = calendar(random, instance.times);
    let of_long_groups = 2 * (instance.times - 2);
    let mut periods = LONGEST_LIST - of_long_groups + 2;
    for _ in 0..MOST_WINDOWS {
        let window = window_of(random, &calendar, periods);
        calendar.windows.push(window);
        periods = 2;
    }
    let windows = calendar.windows.iter();
    instance
        .groups
        .extend(windows.map(|&window| calendar.group(window)));
    for constraint in &mut instance.constraints {
        if let Kind::Idle { groups, .. } = &mut constraint.kind {
            *groups = (0..instance.groups.len()).collect();
        }
    }
    instance.calendar = Some(calendar);
    (instance, table)
}

/// A window of so many periods of a day that has as many.
fn window_of(random: &mut Random, calendar: &Calendar, periods: usize) -> Window {
    let long = |day: &usize| calendar.days[*day].len() >= periods;
    let days: Vec<usize> = (0..DAYS).filter(long).collect();
    let day = random.pick(&days);
    let first = random.below(calendar.days[day].len() - periods + 1);
    Window {
        day: day as u32 + 1,
        from: calendar.days[day][first].start,
        to: calendar.days[day][first + periods - 1].end,
    }
}

/// Kinds 9 and 10 over 125 times that look for subevents as long as the week, in
/// turn: the most words that their starts can have.
pub fn long_lengths(random: &mut Random, constraints: usize) -> (Instance, Vec<u8>) {
    let (mut instance, table) = apart(random, MOST_TIMES as usize);
    let longest = instance.times;
    for constraint in 0..constraints {
        let event = constraint % EVENTS;
        let kind = match constraint % 2 {
            0 => Kind::Distribute {
                event,
                length: longest,
                range: Range { lo: 0, hi: 0 },
            },
            _ => Kind::Lengths {
                event,
                shortest: instance.events[event].duration,
                longest,
            },
        };
        instance.constraints.push(Constraint { weight: 0, kind });
    }
    (instance, table)
}

/// A formula of so many variables, nearly all in counters. All constraints are
/// hard, so that a check has as many.
pub fn many_variables(random: &mut Random, variables: u64) -> (Instance, Vec<u8>) {
    let (mut instance, table) = apart(random, MOST_TIMES as usize);
    let sizes = Sizes::of(&instance, None).expect("few variables");
    let mut rest = (variables - sizes.variables) as usize;
    while rest > 0 {
        let counted = rest.isqrt().min(instance.times);
        let group = instance.groups.len();
        let range = Range {
            lo: 0,
            hi: counted as u32,
        };
        let spread = Kind::Spread {
            events: vec![group % EVENTS],
            group,
            range,
        };
        instance.groups.push((0..counted).collect());
        instance.constraints.push(Constraint {
            weight: 0,
            kind: spread,
        });
        rest -= counted * counted;
    }
    (instance, table)
}

/// So many soft units that a tail for `bound` just fits into `variables`.
pub fn long_tail(random: &mut Random, bound: u64, variables: u64) -> (Instance, Vec<u8>) {
    let (mut instance, table) = apart(random, 40);
    instance.groups.push((10..40).collect());
    loop {
        let event = random.below(EVENTS);
        instance.constraints.push(Constraint {
            weight: 1 + random.below(9) as u32,
            kind: Kind::PreferredTimes { event, group: 0 },
        });
        let sizes = Sizes::of(&instance, Some(bound));
        if !sizes.is_ok_and(|sizes| sizes.variables <= variables) {
            instance.constraints.pop();
            return (instance, table);
        }
    }
}

fn idle(resource: usize, groups: Vec<usize>, range: Range) -> Kind {
    Kind::Idle {
        resource,
        groups,
        range,
    }
}

/// Events with a resource each, and a timetable in which each takes times that
/// follow each other, so that no resource has an idle time.
fn apart(random: &mut Random, times: usize) -> (Instance, Vec<u8>) {
    let half = EVENTS * times;
    let mut table = vec![0; 2 * half];
    let event = |event| {
        let duration = 1 + random.below(4);
        let first = event * times + random.below(times - duration + 1);
        table[first..first + duration].fill(1);
        table[half + first] = 1;
        Event {
            duration,
            resources: vec![event],
        }
    };
    let instance = Instance {
        times,
        resources: EVENTS,
        calendar: None,
        events: (0..EVENTS).map(event).collect(),
        groups: Vec::new(),
        constraints: Vec::new(),
    };
    (instance, table)
}
