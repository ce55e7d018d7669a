//! The lists of an XHSTT instance: times, resources and events, with their groups.

use super::super::remark::{number, Fault};
use super::super::times::TimeSet;
use super::super::xml::Element;
use crate::instance::MOST_TIMES;
use std::collections::HashMap;

/// A thing with an id.
pub struct Named {
    pub id: String,
    pub name: String,
}

/// An event of the archive.
pub struct Lesson {
    pub line: usize,
    pub named: Named,
    pub duration: usize,
    /// What it counts for as work; its duration if the file does not say.
    pub workload: usize,
    /// The time at which it is fixed to start.
    pub time: Option<usize>,
    /// Ascending.
    pub resources: Vec<usize>,
    /// Whether a resource is left for the solver to choose.
    pub open: bool,
}

/// An instance of an archive.
pub struct Archive {
    pub named: Named,
    pub times: Vec<Named>,
    /// The name of each time's day, where the file names one.
    pub days: Vec<Option<String>>,
    pub resources: Vec<Named>,
    /// The type of each resource, by id.
    pub types: Vec<String>,
    pub lessons: Vec<Lesson>,
    time_of: HashMap<String, usize>,
    resource_of: HashMap<String, usize>,
    event_of: HashMap<String, usize>,
    /// Members of the groups, by the group's id.
    time_groups: HashMap<String, Vec<usize>>,
    resource_groups: HashMap<String, Vec<usize>>,
    event_groups: HashMap<String, Vec<usize>>,
}

/// The instance with this id, or the only one.
pub fn instance<'a>(root: &'a Element, id: Option<&str>) -> Result<&'a Element, Fault> {
    if root.name != "HighSchoolTimetableArchive" {
        return Err(Fault::at(
            root,
            format!("this is no XHSTT archive but '{}'", root.name),
        ));
    }
    let list = root
        .child("Instances")
        .map_or(&[][..], |list| &list.children);
    let ids: Vec<&str> = list
        .iter()
        .filter_map(|known| known.attribute("Id"))
        .collect();
    let found = match (id, list) {
        (Some(id), _) => list.iter().find(|known| known.attribute("Id") == Some(id)),
        (None, [only]) => Some(only),
        (None, _) => None,
    };
    found.ok_or_else(|| {
        let wanted = id.map_or("one has to be named".to_string(), |id| {
            format!("none is '{id}'")
        });
        Fault::at(
            root,
            format!(
                "the archive holds the instances [{}]; {wanted}",
                ids.join(", ")
            ),
        )
    })
}

impl Archive {
    pub fn read(instance: &Element) -> Result<Archive, Fault> {
        let mut archive = Archive {
            named: title(instance)?,
            times: Vec::new(),
            days: Vec::new(),
            resources: Vec::new(),
            types: Vec::new(),
            lessons: Vec::new(),
            time_of: HashMap::new(),
            resource_of: HashMap::new(),
            event_of: HashMap::new(),
            time_groups: HashMap::new(),
            resource_groups: HashMap::new(),
            event_groups: HashMap::new(),
        };
        archive.read_times(list(instance, "Times")?)?;
        archive.read_resources(list(instance, "Resources")?)?;
        archive.read_events(list(instance, "Events")?)?;
        Ok(archive)
    }

    fn read_times(&mut self, times: &Element) -> Result<(), Fault> {
        self.time_groups = groups(times.child("TimeGroups"))?;
        for time in times.all("Time") {
            let at = self.times.len();
            if at >= MOST_TIMES as usize {
                return Err(Fault::at(time, format!("more than {MOST_TIMES} times")));
            }
            self.times.push(named(time)?);
            enter(&mut self.time_of, time, at)?;
            join(
                &mut self.time_groups,
                time,
                &["TimeGroups", "Day", "Week"],
                at,
            )?;
            let day = time.child("Day").and_then(|day| day.attribute("Reference"));
            self.days.push(day.map(|id| day_name(times, id)));
        }
        Ok(())
    }

    fn read_resources(&mut self, resources: &Element) -> Result<(), Fault> {
        self.resource_groups = groups(resources.child("ResourceGroups"))?;
        for resource in resources.all("Resource") {
            let at = self.resources.len();
            self.resources.push(named(resource)?);
            let sort = resource
                .child("ResourceType")
                .and_then(|sort| sort.attribute("Reference"));
            self.types.push(sort.unwrap_or("").to_string());
            enter(&mut self.resource_of, resource, at)?;
            join(&mut self.resource_groups, resource, &["ResourceGroups"], at)?;
        }
        Ok(())
    }

    fn read_events(&mut self, events: &Element) -> Result<(), Fault> {
        self.event_groups = groups(events.child("EventGroups"))?;
        for event in events.all("Event") {
            let at = self.lessons.len();
            let lesson = self.lesson(event)?;
            self.lessons.push(lesson);
            enter(&mut self.event_of, event, at)?;
            join(
                &mut self.event_groups,
                event,
                &["EventGroups", "Course"],
                at,
            )?;
        }
        Ok(())
    }

    fn lesson(&self, event: &Element) -> Result<Lesson, Fault> {
        let duration = number(event, "Duration")?;
        if !(1..=self.times.len()).contains(&duration) {
            return Err(Fault::at(event, format!("a duration of {duration}")));
        }
        let workload = match event.child("Workload") {
            Some(_) => number(event, "Workload")?,
            None => duration,
        };
        let time = event
            .child("Time")
            .map(|time| find(&self.time_of, time, "time"));
        let (resources, open) = self.given_resources(event)?;
        Ok(Lesson {
            line: event.line,
            named: named(event)?,
            duration,
            workload,
            time: time.transpose()?,
            resources,
            open,
        })
    }

    /// The resources that an event is given, ascending, and whether one is left to choose.
    fn given_resources(&self, event: &Element) -> Result<(Vec<usize>, bool), Fault> {
        let (mut given, mut open) = (Vec::new(), false);
        for asked in event
            .child("Resources")
            .iter()
            .flat_map(|list| &list.children)
        {
            match asked.attribute("Reference") {
                Some(_) => given.push(find(&self.resource_of, asked, "resource")?),
                None => open = true,
            }
        }
        for group in event
            .child("ResourceGroups")
            .iter()
            .flat_map(|list| &list.children)
        {
            given.extend(members(&self.resource_groups, group, "resource group")?);
        }
        given.sort_unstable();
        given.dedup();
        Ok((given, open))
    }

    /// The groups of times that an item names, each with its element.
    pub fn time_groups<'a>(&self, item: &'a Element) -> Result<Vec<(&'a Element, TimeSet)>, Fault> {
        let named = item
            .child("TimeGroups")
            .map_or(&[][..], |list| &list.children);
        let times = |group| members(&self.time_groups, group, "time group");
        named
            .iter()
            .map(|group| Ok((group, times(group)?.iter().copied().collect())))
            .collect()
    }

    /// All the times that an item names, alone or by groups.
    pub fn times(&self, item: &Element) -> Result<TimeSet, Fault> {
        let mut all: TimeSet = self
            .time_groups(item)?
            .into_iter()
            .flat_map(|(_, set)| set.iter())
            .collect();
        for time in item.child("Times").iter().flat_map(|list| &list.children) {
            all.insert(find(&self.time_of, time, "time")?);
        }
        Ok(all)
    }

    /// The resources to which an item applies, ascending, each once.
    pub fn resources(&self, item: &Element) -> Result<Vec<usize>, Fault> {
        applied(
            item,
            "Resources",
            &self.resource_of,
            "ResourceGroups",
            &self.resource_groups,
        )
    }

    /// The events to which an item applies, ascending, each once.
    pub fn events(&self, item: &Element) -> Result<Vec<usize>, Fault> {
        applied(
            item,
            "Events",
            &self.event_of,
            "EventGroups",
            &self.event_groups,
        )
    }

    /// The pairs of events to which an item applies, each with its element.
    pub fn event_pairs<'a>(
        &self,
        item: &'a Element,
    ) -> Result<Vec<(&'a Element, [usize; 2])>, Fault> {
        let pairs = item
            .child("AppliesTo")
            .and_then(|applies| applies.child("EventPairs"));
        let pairs = pairs.map_or(&[][..], |list| &list.children);
        let event = |pair: &Element, field: &str| match pair.child(field) {
            Some(event) => find(&self.event_of, event, "event"),
            None => Err(Fault::at(pair, format!("{} has no {field}", pair.name))),
        };
        pairs
            .iter()
            .map(|pair| {
                let events = [event(pair, "FirstEvent")?, event(pair, "SecondEvent")?];
                Ok((pair, events))
            })
            .collect()
    }

    /// The groups of events to which an item applies.
    pub fn event_groups(&self, item: &Element) -> Result<Vec<Vec<usize>>, Fault> {
        let groups = item
            .child("AppliesTo")
            .and_then(|applies| applies.child("EventGroups"));
        let groups = groups.map_or(&[][..], |list| &list.children);
        groups
            .iter()
            .map(|group| members(&self.event_groups, group, "event group").cloned())
            .collect()
    }
}

fn list<'a>(instance: &'a Element, name: &str) -> Result<&'a Element, Fault> {
    instance
        .child(name)
        .ok_or_else(|| Fault::at(instance, format!("no {name}")))
}

fn id(element: &Element) -> Result<String, Fault> {
    match element.attribute("Id") {
        Some(id) => Ok(id.to_string()),
        None => Err(Fault::at(element, format!("{} has no Id", element.name))),
    }
}

/// The instance's id, and its name in the metadata.
fn title(instance: &Element) -> Result<Named, Fault> {
    let named = named(instance)?;
    let name = instance
        .child("MetaData")
        .map_or("", |data| data.field("Name"));
    Ok(match name {
        "" => named,
        name => Named {
            name: name.to_string(),
            ..named
        },
    })
}

fn day_name(times: &Element, id: &str) -> String {
    let groups = times
        .child("TimeGroups")
        .map_or(&[][..], |list| &list.children);
    let day = groups
        .iter()
        .find(|group| group.attribute("Id") == Some(id));
    match day.map_or("", |day| day.field("Name")) {
        "" => id.to_string(),
        name => name.to_string(),
    }
}

fn named(element: &Element) -> Result<Named, Fault> {
    let id = id(element)?;
    let name = match element.field("Name") {
        "" => id.clone(),
        name => name.to_string(),
    };
    Ok(Named { id, name })
}

/// The groups of a list, empty.
fn groups(list: Option<&Element>) -> Result<HashMap<String, Vec<usize>>, Fault> {
    let groups = list.map_or(&[][..], |list| &list.children);
    groups
        .iter()
        .map(|group| Ok((id(group)?, Vec::new())))
        .collect()
}

fn enter(known: &mut HashMap<String, usize>, element: &Element, at: usize) -> Result<(), Fault> {
    match known.insert(id(element)?, at) {
        None => Ok(()),
        Some(_) => Err(Fault::at(element, format!("a second '{}'", id(element)?))),
    }
}

/// Enters a thing into the groups that its fields name.
fn join(
    groups: &mut HashMap<String, Vec<usize>>,
    element: &Element,
    fields: &[&str],
    at: usize,
) -> Result<(), Fault> {
    let fields = fields.iter().filter_map(|field| element.child(field));
    let references = fields.flat_map(|field| match field.attribute("Reference") {
        Some(_) => std::slice::from_ref(field),
        None => &field.children[..],
    });
    for reference in references {
        let name = reference.attribute("Reference").unwrap_or("");
        match groups.get_mut(name) {
            Some(group) if group.last() == Some(&at) => {}
            Some(group) => group.push(at),
            None => return Err(Fault::at(reference, format!("there is no group '{name}'"))),
        }
    }
    Ok(())
}

fn find(known: &HashMap<String, usize>, reference: &Element, what: &str) -> Result<usize, Fault> {
    let name = reference.attribute("Reference").unwrap_or("");
    let found = known.get(name).copied();
    found.ok_or_else(|| Fault::at(reference, format!("there is no {what} '{name}'")))
}

fn members<'a>(
    groups: &'a HashMap<String, Vec<usize>>,
    reference: &Element,
    what: &str,
) -> Result<&'a Vec<usize>, Fault> {
    let name = reference.attribute("Reference").unwrap_or("");
    groups
        .get(name)
        .ok_or_else(|| Fault::at(reference, format!("there is no {what} '{name}'")))
}

/// The things and the members of the groups that an item's AppliesTo names.
fn applied(
    item: &Element,
    list: &str,
    known: &HashMap<String, usize>,
    group_list: &str,
    groups: &HashMap<String, Vec<usize>>,
) -> Result<Vec<usize>, Fault> {
    let Some(applies) = item.child("AppliesTo") else {
        return Err(Fault::at(item, format!("{} has no AppliesTo", item.name)));
    };
    let mut all = Vec::new();
    for reference in applies.child(list).iter().flat_map(|list| &list.children) {
        all.push(find(known, reference, "member")?);
    }
    for reference in applies
        .child(group_list)
        .iter()
        .flat_map(|list| &list.children)
    {
        all.extend(members(groups, reference, "group")?);
    }
    all.sort_unstable();
    all.dedup();
    Ok(all)
}
