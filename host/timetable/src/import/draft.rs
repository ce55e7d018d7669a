//! An instance in the making: wishes over sets of times become constraints over
//! numbered groups, all or none of an item, within the limits of the engine.

use super::times::TimeSet;
use crate::instance::{
    Constraint, Instance, Kind, Reason, LARGEST_BOUND_OF_COUNT, LARGEST_GAP, LONGEST_LIST,
    MOST_CONSTRAINTS, MOST_EVENTS, MOST_GROUPS, MOST_RESOURCES, MOST_TIMES,
};
use crate::school::{Names, Resource, ResourceSort};
use std::collections::HashMap;

/// Whose times are counted.
#[derive(Clone, Debug)]
pub enum Who {
    Resource(usize),
    /// A set of events as one: a resource of its own, which all of them use.
    Events(Vec<usize>),
}

/// What is asked, before groups and resources have numbers. The cases are the
/// kinds of constraint; the last two numbers are lo and hi.
#[derive(Clone, Debug)]
pub enum Wish {
    Clash(Who),
    Unavailable(Who, TimeSet),
    Preferred(usize, TimeSet),
    Split(usize, usize, usize),
    Spread(Vec<usize>, TimeSet, usize, usize),
    Busy(Who, TimeSet, usize, usize),
    Cluster(Who, Vec<TimeSet>, usize, usize),
    Idle(Who, Vec<TimeSet>, usize, usize),
    /// An event, a length, lo and hi.
    Distribute(usize, usize, usize, usize),
    /// An event, the shortest and the longest length.
    Lengths(usize, usize, usize),
    /// The first event, the second, lo and hi.
    Precedence(usize, usize, usize, usize),
}

/// How hard a constraint is.
#[derive(Clone, Copy, Debug, PartialEq, Eq)]
pub enum Weight {
    Hard,
    /// 1 or more.
    Soft(u32),
}

#[derive(Default)]
pub struct Draft {
    pub instance: Instance,
    /// Groups are named at the end.
    pub names: Names,
    group_of: HashMap<TimeSet, usize>,
    /// The resource that exactly these events use.
    resource_of: HashMap<Vec<usize>, usize>,
}

/// How far the draft has come, to go back to.
struct Mark {
    groups: usize,
    constraints: usize,
    resources: usize,
}

impl Draft {
    /// Adds a resource that nothing uses yet; none if there are too many.
    pub fn resource(&mut self, sort: ResourceSort, name: String) -> Option<usize> {
        if self.instance.resources >= MOST_RESOURCES as usize {
            return None;
        }
        self.names.resources.push(Resource { sort, name });
        self.instance.resources += 1;
        Some(self.instance.resources - 1)
    }

    /// Lets the events use a resource.
    pub fn use_by(&mut self, resource: usize, events: &[usize]) {
        for &event in events {
            let used = &mut self.instance.events[event].resources;
            if let Err(place) = used.binary_search(&resource) {
                used.insert(place, resource);
            }
        }
        self.resource_of.entry(events.to_vec()).or_insert(resource);
    }

    /// Adds all the wishes, or none of them and says why.
    pub fn add(&mut self, weight: Weight, wishes: &[Wish]) -> Result<(), String> {
        let mark = Mark {
            groups: self.instance.groups.len(),
            constraints: self.instance.constraints.len(),
            resources: self.instance.resources,
        };
        let added = wishes
            .iter()
            .try_for_each(|wish| self.add_one(weight, wish));
        if added.is_err() {
            self.back_to(mark);
        }
        added
    }

    fn back_to(&mut self, mark: Mark) {
        let Mark {
            groups,
            constraints,
            resources,
        } = mark;
        self.instance.groups.truncate(groups);
        self.instance.constraints.truncate(constraints);
        self.instance.resources = resources;
        self.names.resources.truncate(resources);
        self.group_of.retain(|_, &mut group| group < groups);
        self.resource_of
            .retain(|_, &mut resource| resource < resources);
        for event in &mut self.instance.events {
            event.resources.retain(|&resource| resource < resources);
        }
    }

    fn add_one(&mut self, weight: Weight, wish: &Wish) -> Result<(), String> {
        let kind = self.kind(wish)?;
        match self.instance.constraint_end(&kind) {
            Some(Reason::LongList(end)) => {
                return Err(format!(
                    "it counts over {} places, {LONGEST_LIST} are the most",
                    end.length
                ))
            }
            Some(Reason::Unreachable(end)) => {
                return Err(format!("it asks for {} of {}", end.lo, end.length))
            }
            Some(Reason::SameEvent { .. }) => return Err("its two events are one".to_string()),
            Some(_) => return Err("its least is above its most".to_string()),
            None => {}
        }
        let weight = match weight {
            Weight::Hard => 0,
            Weight::Soft(weight) => weight,
        };
        let constraint = Constraint { weight, kind };
        // A hard constraint that stands twice says no more than once.
        if weight == 0 && self.instance.constraints.contains(&constraint) {
            return Ok(());
        }
        if self.instance.constraints.len() >= MOST_CONSTRAINTS as usize {
            return Err(format!("more than {MOST_CONSTRAINTS} constraints"));
        }
        self.instance.constraints.push(constraint);
        Ok(())
    }

    fn kind(&mut self, wish: &Wish) -> Result<Kind, String> {
        let bound = |hi: &usize| (*hi).min(LARGEST_BOUND_OF_COUNT as usize);
        let kind = match wish {
            Wish::Clash(who) => {
                let resource = self.who(who)?;
                Kind::Clash { resource }
            }
            Wish::Unavailable(who, times) => {
                let (resource, group) = (self.who(who)?, self.group(*times)?);
                Kind::Unavailable { resource, group }
            }
            Wish::Preferred(event, times) => {
                let (event, group) = (*event, self.group(*times)?);
                Kind::PreferredTimes { event, group }
            }
            Wish::Split(event, lo, hi) => {
                let (event, lo, hi) = (*event, *lo, bound(hi));
                Kind::Split { event, lo, hi }
            }
            Wish::Spread(events, times, lo, hi) => {
                let (events, group) = (ascending(events), self.group(*times)?);
                let (lo, hi) = (*lo, bound(hi));
                Kind::Spread {
                    events,
                    group,
                    lo,
                    hi,
                }
            }
            Wish::Busy(who, times, lo, hi) => {
                let (resource, group) = (self.who(who)?, self.group(*times)?);
                let (lo, hi) = (*lo, bound(hi));
                Kind::BusyLimit {
                    resource,
                    group,
                    lo,
                    hi,
                }
            }
            Wish::Cluster(who, sets, lo, hi) => {
                let (resource, groups) = (self.who(who)?, self.group_list(sets)?);
                let (lo, hi) = (*lo, bound(hi));
                Kind::Cluster {
                    resource,
                    groups,
                    lo,
                    hi,
                }
            }
            Wish::Idle(who, sets, lo, hi) => {
                let (resource, groups) = (self.who(who)?, self.group_list(sets)?);
                let (lo, hi) = (*lo, bound(hi));
                Kind::Idle {
                    resource,
                    groups,
                    lo,
                    hi,
                }
            }
            Wish::Distribute(event, length, lo, hi) => Kind::Distribute {
                event: *event,
                length: *length,
                lo: *lo,
                hi: bound(hi),
            },
            Wish::Lengths(event, shortest, longest) => Kind::Lengths {
                event: *event,
                shortest: *shortest,
                longest: *longest,
            },
            // No gap is as long as the largest, so what lies above it says no more.
            Wish::Precedence(first, second, lo, hi) => Kind::Precedence {
                first: *first,
                second: *second,
                lo: (*lo).min(LARGEST_GAP as usize),
                hi: (*hi).min(LARGEST_GAP as usize),
            },
        };
        Ok(kind)
    }

    fn who(&mut self, who: &Who) -> Result<usize, String> {
        let events = match who {
            Who::Resource(resource) => return Ok(*resource),
            Who::Events(events) => ascending(events),
        };
        if let Some(&resource) = self.resource_of.get(&events) {
            return Ok(resource);
        }
        let first = events
            .first()
            .map_or("nothing", |&event| &self.names.lessons[event]);
        let name = match events.len() {
            0 | 1 => format!("set {first}"),
            count => format!("set {first} and {} more", count - 1),
        };
        let resource = self.resource(ResourceSort::Other, name).ok_or_else(|| {
            format!("its set of events needs a resource, and {MOST_RESOURCES} are the most")
        })?;
        self.use_by(resource, &events);
        Ok(resource)
    }

    fn group(&mut self, times: TimeSet) -> Result<usize, String> {
        if let Some(&group) = self.group_of.get(&times) {
            return Ok(group);
        }
        if self.instance.groups.len() >= MOST_GROUPS as usize {
            return Err(format!("more than {MOST_GROUPS} groups of times"));
        }
        self.instance.groups.push(times.iter().collect());
        self.group_of.insert(times, self.instance.groups.len() - 1);
        Ok(self.instance.groups.len() - 1)
    }

    fn group_list(&mut self, sets: &[TimeSet]) -> Result<Vec<usize>, String> {
        let groups: Result<Vec<usize>, String> = sets.iter().map(|set| self.group(*set)).collect();
        let ascending = ascending(&groups?);
        match ascending.len() == sets.len() {
            true => Ok(ascending),
            false => Err("one group of times stands twice in its list".to_string()),
        }
    }

    /// Divides the soft weights by their greatest common divisor, and gives it.
    pub fn reduce_weights(&mut self) -> u32 {
        let weights = self.instance.constraints.iter().map(|known| known.weight);
        let divisor = weights.fold(0, common_divisor).max(1);
        for constraint in &mut self.instance.constraints {
            constraint.weight /= divisor;
        }
        divisor
    }

    /// What is over a limit of the engine, if anything is.
    pub fn over_limit(times: usize, events: usize, resources: usize) -> Option<String> {
        let limits = [
            ("times", times, MOST_TIMES),
            ("events", events, MOST_EVENTS),
            ("resources", resources, MOST_RESOURCES),
        ];
        let over = limits
            .into_iter()
            .find(|&(_, count, most)| count > most as usize);
        match over {
            Some((name, count, most)) => Some(format!("{count} {name}, {most} are the most")),
            None if times == 0 => Some("no time".to_string()),
            None if events == 0 => Some("no event".to_string()),
            None => None,
        }
    }
}

fn ascending(indices: &[usize]) -> Vec<usize> {
    let mut sorted = indices.to_vec();
    sorted.sort_unstable();
    sorted.dedup();
    sorted
}

/// Of 0 and a number, that number.
fn common_divisor(a: u32, b: u32) -> u32 {
    match b {
        0 => a,
        _ => common_divisor(b, a % b),
    }
}
