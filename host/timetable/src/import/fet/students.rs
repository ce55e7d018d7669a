//! Years, groups and subgroups. The subgroups are what is busy: a group is busy
//! with its subgroups, a year with those of its groups. A group without
//! subgroups, or a year without groups, is a subgroup itself.

use super::super::xml::Element;
use std::collections::{BTreeMap, BTreeSet, HashMap};

#[derive(Default)]
pub struct Students {
    /// The names of the subgroups.
    subgroups: Vec<String>,
    /// The subgroups of each year, group and subgroup.
    of: HashMap<String, BTreeSet<usize>>,
    /// The names of years, groups and subgroups, the larger first.
    names: Vec<String>,
}

/// Subgroups that have the same events, and so are busy at the same times.
pub struct Class {
    pub name: String,
    pub subgroups: BTreeSet<usize>,
    /// Ascending.
    pub events: Vec<usize>,
}

impl Students {
    pub fn read(list: Option<&Element>) -> Students {
        let mut students = Students::default();
        for year in list.iter().flat_map(|list| list.all("Year")) {
            students.add(year, &["Group", "Subgroup"]);
        }
        let size = |name: &String| std::cmp::Reverse(students.of[name].len());
        let mut names: Vec<String> = students.of.keys().cloned().collect();
        names.sort_by_key(|name| (size(name), name.clone()));
        students.names = names;
        students
    }

    /// Adds a year or a group, and gives its subgroups. A set that stands at several
    /// places is one set.
    fn add(&mut self, set: &Element, inner: &[&str]) -> BTreeSet<usize> {
        let name = set.verbatim("Name").to_string();
        let mut members = BTreeSet::new();
        if let [parts, further @ ..] = inner {
            for part in set.all(parts) {
                members.extend(self.add(part, further));
            }
        }
        if members.is_empty() && !self.of.contains_key(&name) {
            members.insert(self.subgroups.len());
            self.subgroups.push(name.clone());
        }
        let known = self.of.entry(name).or_default();
        known.extend(members);
        known.clone()
    }

    pub fn knows(&self, name: &str) -> bool {
        self.of.contains_key(name)
    }

    /// The subgroups of a year, group or subgroup.
    pub fn subgroups(&self, name: &str) -> Option<&BTreeSet<usize>> {
        self.of.get(name)
    }

    /// The subgroups of all the named sets.
    pub fn all_subgroups(&self, names: &[String]) -> BTreeSet<usize> {
        let known = names.iter().filter_map(|name| self.of.get(name));
        known.flatten().copied().collect()
    }

    /// Whether two sets have a subgroup in common.
    pub fn share(&self, one: &str, other: &str) -> bool {
        match (self.of.get(one), self.of.get(other)) {
            (Some(one), Some(other)) => !one.is_disjoint(other),
            _ => false,
        }
    }

    /// The subgroups with events, those with the same events together;
    /// `busy` names the subgroups of each event.
    pub fn classes(&self, busy: &[BTreeSet<usize>]) -> Vec<Class> {
        let mut events: Vec<Vec<usize>> = vec![Vec::new(); self.subgroups.len()];
        for (event, subgroups) in busy.iter().enumerate() {
            for &subgroup in subgroups {
                events[subgroup].push(event);
            }
        }
        let mut together: BTreeMap<Vec<usize>, BTreeSet<usize>> = BTreeMap::new();
        for (subgroup, events) in events.into_iter().enumerate() {
            if !events.is_empty() {
                together.entry(events).or_default().insert(subgroup);
            }
        }
        let mut classes: Vec<Class> = together
            .into_iter()
            .map(|(events, subgroups)| Class {
                name: self.name_of(&subgroups),
                subgroups,
                events,
            })
            .collect();
        classes.sort_by_key(|class| class.subgroups.first().copied());
        classes
    }

    /// The name of the set that these subgroups make up, or those of the subgroups.
    fn name_of(&self, subgroups: &BTreeSet<usize>) -> String {
        let whole = self.names.iter().find(|name| &self.of[*name] == subgroups);
        match whole {
            Some(name) => name.clone(),
            None => {
                let names = subgroups.iter().map(|&at| self.subgroups[at].as_str());
                names.collect::<Vec<_>>().join("+")
            }
        }
    }
}
