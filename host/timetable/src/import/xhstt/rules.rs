//! The constraints of an XHSTT instance, each with its counterpart.

use super::super::draft::{Weight, Who, Wish};
use super::super::remark::{number, Fault, Refused};
use super::super::times::TimeSet;
use super::super::xml::Element;
use super::archive::Archive;
use crate::instance::{LARGEST_GAP, LARGEST_WEIGHT};

/// A constraint of the file.
pub struct Item<'a> {
    pub archive: &'a Archive,
    pub element: &'a Element,
    pub required: bool,
    /// 0 to 1,000.
    weight: u32,
}

/// What a constraint comes to.
#[derive(Default)]
pub struct Reading {
    pub wishes: Vec<Wish>,
    /// What of it is not carried.
    pub weaker: Option<String>,
    /// Whether each wish deviates by 1 however far it is missed, as under a step.
    steps: bool,
}

type Outcome = Result<Reading, Refused>;

const RULES: &[(&str, fn(&Item) -> Outcome)] = &[
    ("AssignTimeConstraint", assign_time),
    ("SplitEventsConstraint", split_events),
    ("DistributeSplitEventsConstraint", distribute_split_events),
    ("PreferTimesConstraint", prefer_times),
    ("SpreadEventsConstraint", spread_events),
    ("LinkEventsConstraint", link_events),
    ("OrderEventsConstraint", order_events),
    ("AvoidClashesConstraint", avoid_clashes),
    ("AvoidUnavailableTimesConstraint", avoid_unavailable),
    ("LimitIdleTimesConstraint", limit_idle),
    ("ClusterBusyTimesConstraint", cluster_busy),
    ("LimitBusyTimesConstraint", limit_busy),
    ("LimitWorkloadConstraint", limit_workload),
    ("AssignResourceConstraint", choice_of_resources),
    ("PreferResourcesConstraint", choice_of_resources),
    ("AvoidSplitAssignmentsConstraint", choice_of_resources),
];

impl<'a> Item<'a> {
    pub fn read(archive: &'a Archive, element: &'a Element) -> Result<Item<'a>, Fault> {
        let weight = number(element, "Weight")?;
        if weight > LARGEST_WEIGHT as usize {
            return Err(Fault::at(element, format!("a weight of {weight}")));
        }
        let required = match element.field("Required") {
            "true" => true,
            "false" => false,
            text => return Err(Fault::at(element, format!("'{text}' for Required"))),
        };
        Ok(Item {
            archive,
            element,
            required,
            weight: weight as u32,
        })
    }

    /// None for a wish that costs nothing.
    pub fn weight(&self) -> Option<Weight> {
        match (self.required, self.weight) {
            (true, _) => Some(Weight::Hard),
            (false, 0) => None,
            (false, weight) => Some(Weight::Soft(weight)),
        }
    }

    pub fn words(&self) -> String {
        let id = self.element.attribute("Id").unwrap_or("");
        format!("{} '{id}'", self.element.name)
    }

    /// What the constraint comes to.
    pub fn outcome(&self) -> Outcome {
        let Some((_, rule)) = RULES.iter().find(|(name, _)| *name == self.element.name) else {
            return Refused::because("the engine has no counterpart for it");
        };
        let mut reading = rule(self)?;
        if self.required || reading.wishes.is_empty() {
            return Ok(reading);
        }
        match self.element.field("CostFunction") {
            "Linear" | "Sum" => {}
            "Step" | "SumSteps" if reading.steps => reading.weaker = None,
            "Quadratic" | "SumSquares" => {
                let lost = "its square is carried as the deviation itself";
                reading.weaker.get_or_insert(lost.to_string());
            }
            other => {
                return Refused::because(format!("no counterpart for the cost function '{other}'"))
            }
        }
        Ok(reading)
    }

    fn range(&self) -> Result<(usize, usize), Fault> {
        Ok((
            number(self.element, "Minimum")?,
            number(self.element, "Maximum")?,
        ))
    }

    /// A wish for each resource to which the constraint applies.
    fn for_resources(&self, wish: impl Fn(Who) -> Vec<Wish>) -> Outcome {
        let resources = self.archive.resources(self.element)?;
        let wishes = resources
            .into_iter()
            .flat_map(|resource| wish(Who::Resource(resource)));
        Ok(carried(wishes.collect()))
    }

    fn groups(&self) -> Result<Vec<TimeSet>, Fault> {
        let groups = self.archive.time_groups(self.element)?;
        Ok(groups.into_iter().map(|(_, times)| times).collect())
    }

    fn duration(&self, event: usize) -> usize {
        self.archive.lessons[event].duration
    }

    fn all_times(&self) -> TimeSet {
        TimeSet::below(self.archive.times.len())
    }
}

fn carried(wishes: Vec<Wish>) -> Reading {
    Reading {
        wishes,
        ..Reading::default()
    }
}

/// The engine places every event; that each has to be is looked at before.
fn assign_time(_: &Item) -> Outcome {
    Ok(Reading::default())
}

/// The number of parts is counted, and the parts of a length outside, unless the
/// number says it all: each part has length 1, or there is one part.
fn split_events(item: &Item) -> Outcome {
    let shortest = number(item.element, "MinimumDuration")?.max(1);
    let longest = number(item.element, "MaximumDuration")?.max(1);
    let least = number(item.element, "MinimumAmount")?;
    let most = number(item.element, "MaximumAmount")?;
    let mut reading = Reading::default();
    for event in item.archive.events(item.element)? {
        let duration = item.duration(event);
        let (lo, hi) = match item.required {
            true => (
                least.max(duration.div_ceil(longest)),
                most.min(duration / shortest),
            ),
            false => (least, most),
        };
        if lo > hi || shortest > longest {
            return Refused::because(format!("event {} cannot be split so", event + 1));
        }
        if lo > 1 || hi < duration {
            reading.wishes.push(Wish::Split(event, lo, hi));
        }
        let free = shortest == 1 && longest >= duration;
        let settled =
            item.required && (shortest == 1 || hi == 1) && (longest >= duration || lo == duration);
        if !free && !settled {
            reading.lengths(item, event, shortest, longest);
        }
    }
    Ok(reading)
}

impl Reading {
    /// A wish for the lengths of an event's parts. A part is charged once; how far
    /// it lies outside matters for a soft wish alone.
    fn lengths(&mut self, item: &Item, event: usize, shortest: usize, longest: usize) {
        let times = item.archive.times.len();
        let within = |length: usize| length.min(times);
        self.wishes
            .push(Wish::Lengths(event, within(shortest), within(longest)));
        let far = shortest > 2.min(times) || longest + 1 < item.duration(event);
        if far && !item.required {
            let lost = "a part is charged once, however far its length lies outside";
            self.weaker = Some(lost.to_string());
        }
    }
}

/// The parts of one length are counted, unless every split keeps the limits.
fn distribute_split_events(item: &Item) -> Outcome {
    let length = number(item.element, "Duration")?;
    let (least, most) = item.range()?;
    let mut wishes = Vec::new();
    for event in item.archive.events(item.element)? {
        let fitting = item.duration(event).checked_div(length).unwrap_or(0);
        // An event of length 1 has one part; any other may have none of a length.
        let fewest = if item.duration(event) == 1 {
            fitting
        } else {
            0
        };
        if least <= fewest && fitting <= most {
            continue;
        }
        if length < 1 || length > item.archive.times.len() {
            return Refused::because(format!("no part can have length {length}"));
        }
        wishes.push(Wish::Distribute(event, length, least, most));
    }
    Ok(carried(wishes))
}

/// A part is to start within the times, or it costs its length. Where the item speaks
/// of parts of one length alone, it says nothing of an event that has none, and all of
/// an event of length 1.
fn prefer_times(item: &Item) -> Outcome {
    let times = item.archive.times(item.element)?;
    let only = match item.element.child("Duration") {
        Some(_) => Some(number(item.element, "Duration")?),
        None => None,
    };
    let mut reading = Reading::default();
    for event in item.archive.events(item.element)? {
        match (item.duration(event), only) {
            (duration, Some(length)) if !(1..=duration).contains(&length) => {}
            (_, None) | (1, _) => reading.wishes.push(Wish::Preferred(event, times)),
            _ => {
                let lost = "parts of one length cannot be told apart in longer events";
                reading.weaker = Some(lost.to_string());
            }
        }
    }
    match (reading.wishes.is_empty(), &reading.weaker) {
        (true, Some(reason)) => Refused::because(reason.clone()),
        _ => Ok(reading),
    }
}

fn spread_events(item: &Item) -> Outcome {
    let mut wishes = Vec::new();
    for events in item.archive.event_groups(item.element)? {
        for (group, times) in item.archive.time_groups(item.element)? {
            let (least, most) = (number(group, "Minimum")?, number(group, "Maximum")?);
            wishes.push(Wish::Spread(events.clone(), times, least, most));
        }
    }
    Ok(carried(wishes))
}

/// Events that last equally long are together where they take no more times than one.
fn link_events(item: &Item) -> Outcome {
    let mut reading = Reading::default();
    for events in item.archive.event_groups(item.element)? {
        let mut durations: Vec<usize> = events.iter().map(|&event| item.duration(event)).collect();
        durations.dedup();
        match durations[..] {
            [] => {}
            [duration] => {
                let who = Who::Events(events);
                reading
                    .wishes
                    .push(Wish::Busy(who, item.all_times(), 0, duration));
            }
            _ => return Refused::because("the events are not equally long"),
        }
    }
    if !item.required {
        reading.weaker = Some("only times beyond the duration are charged".to_string());
    }
    Ok(reading)
}

/// So many times lie between the last of the first event and the first of the second. A
/// pair is charged once; how far it is missed matters for a soft wish alone.
fn order_events(item: &Item) -> Outcome {
    let mut wishes = Vec::new();
    for (pair, [first, second]) in item.archive.event_pairs(item.element)? {
        let limit = |field: &str, unsaid: usize| match pair.child(field) {
            Some(_) => number(pair, field),
            None => Ok(unsaid),
        };
        let least = limit("MinSeparation", 0)?;
        let most = limit("MaxSeparation", LARGEST_GAP as usize)?;
        wishes.push(Wish::Precedence(first, second, least, most));
    }
    let lost = "a pair is charged once, however far it lies outside";
    let weaker = !item.required && !wishes.is_empty();
    Ok(Reading {
        wishes,
        weaker: weaker.then(|| lost.to_string()),
        steps: true,
    })
}

fn avoid_clashes(item: &Item) -> Outcome {
    item.for_resources(|who| vec![Wish::Clash(who)])
}

fn avoid_unavailable(item: &Item) -> Outcome {
    let times = item.archive.times(item.element)?;
    item.for_resources(|who| vec![Wish::Unavailable(who, times)])
}

fn limit_idle(item: &Item) -> Outcome {
    let ((least, most), groups) = (item.range()?, item.groups()?);
    item.for_resources(|who| vec![Wish::Idle(who, groups.clone(), least, most)])
}

fn cluster_busy(item: &Item) -> Outcome {
    let ((least, most), groups) = (item.range()?, item.groups()?);
    item.for_resources(|who| vec![Wish::Cluster(who, groups.clone(), least, most)])
}

fn limit_busy(item: &Item) -> Outcome {
    let ((least, most), groups) = (item.range()?, item.groups()?);
    let busy = |who: &Who, times: &TimeSet| Wish::Busy(who.clone(), *times, least, most);
    item.for_resources(|who| groups.iter().map(|times| busy(&who, times)).collect())
}

/// Where no resource is left to choose, each has the work of its events.
fn limit_workload(item: &Item) -> Outcome {
    let (least, most) = item.range()?;
    for resource in item.archive.resources(item.element)? {
        let events = item.archive.lessons.iter();
        let mine = events.filter(|lesson| lesson.resources.contains(&resource));
        let work: usize = mine.map(|lesson| lesson.workload).sum();
        let open = item.archive.lessons.iter().any(|lesson| lesson.open);
        if open || !(least..=most).contains(&work) {
            return Refused::because("the work of a resource is not counted");
        }
    }
    Ok(Reading::default())
}

/// Nothing is asked of events whose resources are all given, but which of them are preferred.
fn choice_of_resources(item: &Item) -> Outcome {
    let events = item.archive.events(item.element)?;
    let given = events
        .iter()
        .all(|&event| !item.archive.lessons[event].open);
    match given && item.element.name != "PreferResourcesConstraint" {
        true => Ok(Reading::default()),
        false => Refused::because("the engine chooses no resources"),
    }
}
