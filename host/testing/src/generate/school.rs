//! Schools with a week, classes, teachers, rooms and the usual wishes.

use super::random::Random;
use crate::reference::{
    Calendar, Constraint, Event, Instance, Kind, Period, Range, Window, LARGEST_GAP, LAST_MINUTE,
};

const DAYS: usize = 5;
const TIMES: usize = 8;
/// The first minute of a day's lessons in clock time, and of the second half day.
const MORNING: u32 = 480;
const AFTERNOON: u32 = 780;

/// A school of `events` lessons in a week of five days with eight times each.
/// A lesson has a class, a teacher and mostly a room. Hard: no clashes, days
/// off. Soft: free half days, short days, few days and few idle times for
/// teachers, wanted times and few parts for lessons, lessons of a class spread
/// over the days.
pub fn school(random: &mut Random, events: usize) -> Instance {
    let staff = Staff::for_lessons(events);
    let mut instance = Instance {
        times: DAYS * TIMES,
        resources: staff.all(),
        calendar: None,
        events: (0..events)
            .map(|event| staff.lesson(random, event))
            .collect(),
        groups: week(),
        constraints: Vec::new(),
    };
    let constraints = &mut instance.constraints;
    for resource in 0..staff.all() {
        add(constraints, 0, Kind::Clash { resource });
    }
    for teacher in staff.classes..staff.classes + staff.teachers {
        teacher_wishes(constraints, random, teacher);
    }
    for class in 0..staff.classes {
        class_wishes(constraints, class, events, staff.classes);
    }
    for event in 0..events {
        lesson_wishes(constraints, random, event);
    }
    instance
}

/// A school as above in which lessons have wishes for doubles, half of them for
/// lengths that their parts may have, and a fifth for another lesson after them.
pub fn school_of_every_kind(random: &mut Random, events: usize) -> Instance {
    let mut instance = school(random, events);
    for event in 0..events {
        let doubles = (instance.events[event].duration / 2) as u32;
        let distribute = Kind::Distribute {
            event,
            length: 2,
            range: Range {
                lo: doubles,
                hi: doubles,
            },
        };
        add(&mut instance.constraints, 3, distribute);
        if random.chance(50) {
            let shortest = 1 + random.below(2);
            let lengths = Kind::Lengths {
                event,
                shortest,
                longest: shortest + random.below(2),
            };
            add(&mut instance.constraints, 2, lengths);
        }
    }
    for first in 0..events {
        if random.chance(20) {
            let lo = random.below(3) as u32;
            let precedence = Kind::Precedence {
                first,
                second: (first + 1 + random.below(events - 1)) % events,
                gap: Range {
                    lo,
                    hi: random.pick(&[lo, lo + TIMES as u32, LARGEST_GAP]),
                },
            };
            add(&mut instance.constraints, 2, precedence);
        }
    }
    instance
}

/// A school as above in clock time: four lessons of 45 minutes on the hour from eight
/// o'clock on, four more from one o'clock on; the days and half days are windows.
pub fn in_clock_time(school: &Instance) -> Instance {
    let half = TIMES / 2;
    let lesson = |at: usize| {
        let begin = [MORNING, AFTERNOON][at / half];
        let start = begin + 60 * (at % half) as u32;
        Period {
            start,
            end: start + 45,
        }
    };
    let mut calendar = Calendar::default();
    for periods in &mut calendar.days[..DAYS] {
        *periods = (0..TIMES).map(lesson).collect();
    }
    let window = |day: usize, from, to| Window {
        day: day as u32 + 1,
        from,
        to,
    };
    let days = (0..DAYS).map(|day| window(day, 0, LAST_MINUTE));
    let halves = (0..2 * DAYS).map(|half| match half % 2 {
        0 => window(half / 2, 0, AFTERNOON),
        _ => window(half / 2, AFTERNOON, LAST_MINUTE),
    });
    calendar.windows = days.chain(halves).collect();
    let mut school = school.clone();
    let windows = calendar.windows.iter();
    school.groups = windows.map(|&window| calendar.group(window)).collect();
    school.calendar = Some(calendar);
    school
}

/// How many resources of each sort there are; classes come first, then
/// teachers, then rooms.
struct Staff {
    classes: usize,
    teachers: usize,
    rooms: usize,
}

impl Staff {
    fn for_lessons(events: usize) -> Staff {
        Staff {
            classes: (events / 16).clamp(1, 40),
            teachers: (events / 12).clamp(1, 40),
            rooms: (events / 20).clamp(1, 19),
        }
    }

    fn all(&self) -> usize {
        self.classes + self.teachers + self.rooms
    }

    fn lesson(&self, random: &mut Random, event: usize) -> Event {
        let teacher = self.classes + random.below(self.teachers);
        let mut resources = vec![event % self.classes, teacher];
        if random.chance(80) {
            resources.push(self.classes + self.teachers + random.below(self.rooms));
        }
        Event {
            duration: 1 + random.below(4),
            resources,
        }
    }
}

/// The days, then the half days.
fn week() -> Vec<Vec<usize>> {
    let days = (0..DAYS).map(|day| (day * TIMES..(day + 1) * TIMES).collect());
    let halves = (0..2 * DAYS).map(|half| {
        let first = half * TIMES / 2;
        (first..first + TIMES / 2).collect()
    });
    days.chain(halves).collect()
}

fn add(constraints: &mut Vec<Constraint>, weight: u32, kind: Kind) {
    constraints.push(Constraint { weight, kind });
}

/// A day off, hard or not, a free half day, short days, few days, few idle times.
fn teacher_wishes(constraints: &mut Vec<Constraint>, random: &mut Random, resource: usize) {
    let group = random.below(DAYS);
    let weight = if random.chance(30) { 0 } else { 8 };
    add(constraints, weight, Kind::Unavailable { resource, group });
    let group = DAYS + random.below(2 * DAYS);
    add(constraints, 5, Kind::Unavailable { resource, group });
    for group in 0..DAYS {
        let busy = Kind::BusyLimit {
            resource,
            group,
            range: Range { lo: 2, hi: 6 },
        };
        add(constraints, 2, busy);
    }
    let cluster = Kind::Cluster {
        resource,
        groups: (0..DAYS).collect(),
        range: Range { lo: 0, hi: 4 },
    };
    add(constraints, 3, cluster);
    let idle = Kind::Idle {
        resource,
        groups: (0..DAYS).collect(),
        range: Range { lo: 0, hi: 2 },
    };
    add(constraints, 1, idle);
}

/// Some lessons of a class on every day.
fn class_wishes(constraints: &mut Vec<Constraint>, class: usize, events: usize, classes: usize) {
    for group in 0..DAYS {
        let spread = Kind::Spread {
            events: (class..events).step_by(classes).take(12).collect(),
            group,
            range: Range { lo: 1, hi: 4 },
        };
        add(constraints, 2, spread);
    }
}

/// Few parts, and for half of the lessons a wanted day or half day.
fn lesson_wishes(constraints: &mut Vec<Constraint>, random: &mut Random, event: usize) {
    let split = Kind::Split {
        event,
        range: Range { lo: 1, hi: 2 },
    };
    add(constraints, 1, split);
    if random.chance(50) {
        let group = random.below(3 * DAYS);
        add(constraints, 4, Kind::PreferredTimes { event, group });
    }
}
