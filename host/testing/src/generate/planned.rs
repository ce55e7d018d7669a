//! Schools that have a timetable: lessons are placed first, and what is hard is
//! drawn so that the placed lessons keep it.

use super::random::Random;
use crate::reference::{Constraint, Event, Instance, Kind, Range};

const DAYS: usize = 5;

/// How large a planned school is.
#[derive(Clone, Copy, Debug)]
pub struct Plan {
    pub lessons: usize,
    /// Times of a day, at least 2.
    pub periods: usize,
}

/// A school whose placed lessons keep every hard constraint. Hard: no clashes,
/// each lesson in one part, a half day off for each teacher who has one. Soft:
/// half days off, short days, few days and few idle times for teachers, wanted
/// days for lessons, lessons of a class spread over the days.
pub fn planned_school(random: &mut Random, plan: Plan) -> Instance {
    let classes = 1 + plan.lessons / 10;
    let teachers = 1 + plan.lessons / 7;
    let mut school = Planned {
        plan,
        classes,
        teachers,
        taken: vec![vec![false; DAYS * plan.periods]; classes + teachers],
        instance: Instance {
            times: DAYS * plan.periods,
            resources: classes + teachers,
            calendar: None,
            events: Vec::new(),
            groups: Vec::new(),
            constraints: Vec::new(),
        },
    };
    for _ in 0..plan.lessons {
        school.lesson(random);
    }
    school.groups();
    school.hard(random);
    school.soft_teachers(random);
    school.soft_lessons(random);
    school.instance
}

struct Planned {
    plan: Plan,
    classes: usize,
    teachers: usize,
    /// For each resource and time whether a placed lesson takes it.
    taken: Vec<Vec<bool>>,
    instance: Instance,
}

impl Planned {
    /// Adds a lesson of a class and a teacher where both are free, if they are.
    fn lesson(&mut self, random: &mut Random) {
        let class = random.below(self.classes);
        let teacher = self.classes + random.below(self.teachers);
        let duration = 1 + random.below(2);
        let day = random.below(DAYS);
        for shift in 0..DAYS {
            let first = (day + shift) % DAYS * self.plan.periods;
            for start in first..=first + self.plan.periods - duration {
                let free = |resource: usize| {
                    let times = &self.taken[resource][start..start + duration];
                    !times.contains(&true)
                };
                if !free(class) || !free(teacher) {
                    continue;
                }
                for resource in [class, teacher] {
                    self.taken[resource][start..start + duration].fill(true);
                }
                let resources = vec![class, teacher];
                return self.instance.events.push(Event {
                    duration,
                    resources,
                });
            }
        }
    }

    /// The days, then the half days.
    fn groups(&mut self) {
        let periods = self.plan.periods;
        for day in 0..DAYS {
            let times = day * periods..(day + 1) * periods;
            self.instance.groups.push(times.collect());
        }
        for day in 0..DAYS {
            let [first, middle, end] = [0, periods / 2, periods].map(|time| day * periods + time);
            self.instance.groups.push((first..middle).collect());
            self.instance.groups.push((middle..end).collect());
        }
    }

    fn add(&mut self, weight: u32, kind: Kind) {
        self.instance.constraints.push(Constraint { weight, kind });
    }

    fn hard(&mut self, random: &mut Random) {
        for resource in 0..self.classes + self.teachers {
            self.add(0, Kind::Clash { resource });
        }
        for event in 0..self.instance.events.len() {
            let range = Range { lo: 1, hi: 1 };
            self.add(0, Kind::Split { event, range });
        }
        for resource in self.classes..self.classes + self.teachers {
            let free = |group: &usize| {
                let times = &self.instance.groups[*group];
                times.iter().all(|&time| !self.taken[resource][time])
            };
            let free: Vec<usize> = (DAYS..3 * DAYS).filter(free).collect();
            if !free.is_empty() {
                let group = random.pick(&free);
                self.add(0, Kind::Unavailable { resource, group });
            }
        }
    }

    fn soft_teachers(&mut self, random: &mut Random) {
        for resource in self.classes..self.classes + self.teachers {
            let group = DAYS + random.below(2 * DAYS);
            self.add(3, Kind::Unavailable { resource, group });
            let range = Range { lo: 2, hi: 4 };
            let group = random.below(DAYS);
            self.add(
                2,
                Kind::BusyLimit {
                    resource,
                    group,
                    range,
                },
            );
            let groups: Vec<usize> = (0..DAYS).collect();
            let range = Range { lo: 0, hi: 3 };
            self.add(
                2,
                Kind::Cluster {
                    resource,
                    groups: groups.clone(),
                    range,
                },
            );
            let range = Range { lo: 0, hi: 1 };
            self.add(
                1,
                Kind::Idle {
                    resource,
                    groups,
                    range,
                },
            );
        }
    }

    fn soft_lessons(&mut self, random: &mut Random) {
        let lessons = self.instance.events.len();
        for event in 0..lessons {
            if random.chance(40) {
                let group = random.below(DAYS);
                self.add(1, Kind::PreferredTimes { event, group });
            }
        }
        for class in 0..self.classes {
            let uses = |event: &usize| self.instance.events[*event].resources.contains(&class);
            let events: Vec<usize> = (0..lessons).filter(uses).take(8).collect();
            for group in 0..DAYS {
                let range = Range { lo: 0, hi: 2 };
                let events = events.clone();
                self.add(
                    2,
                    Kind::Spread {
                        events,
                        group,
                        range,
                    },
                );
            }
        }
    }
}
