//! Activities become events: one each, but those that must start together and
//! last equally long become one event, which uses the resources of all.

use super::super::remark::Fault;
use super::super::xml::Element;
use super::school::School;
use std::collections::BTreeSet;

/// An event of the instance.
pub struct Lesson {
    /// Places in the school's list of activities, ascending.
    pub activities: Vec<usize>,
    pub duration: usize,
}

pub struct Lessons {
    pub lessons: Vec<Lesson>,
    /// The event of each activity.
    pub event_of: Vec<usize>,
}

impl Lessons {
    /// The events, given the lists of activities that must start together.
    pub fn of(school: &School, together: &[Vec<usize>]) -> Lessons {
        // Each activity points at an earlier one of its event, or at itself.
        let mut first: Vec<usize> = (0..school.activities.len()).collect();
        for list in together {
            for pair in list.windows(2) {
                let (a, b) = (root(&first, pair[0]), root(&first, pair[1]));
                if school.activities[a].duration == school.activities[b].duration {
                    first[a.max(b)] = a.min(b);
                }
            }
        }
        let mut lessons: Vec<Lesson> = Vec::new();
        let mut event_of = vec![0; school.activities.len()];
        for (at, activity) in school.activities.iter().enumerate() {
            let earlier = root(&first, at);
            if earlier == at {
                event_of[at] = lessons.len();
                lessons.push(Lesson {
                    activities: Vec::new(),
                    duration: activity.duration,
                });
            }
            event_of[at] = event_of[earlier];
            lessons[event_of[at]].activities.push(at);
        }
        Lessons { lessons, event_of }
    }

    /// The subgroups of each event.
    pub fn subgroups(&self, school: &School) -> Vec<BTreeSet<usize>> {
        let of = |&at: &usize| {
            school
                .students
                .all_subgroups(&school.activities[at].students)
        };
        let lessons = self.lessons.iter();
        lessons
            .map(|lesson| lesson.activities.iter().flat_map(of).collect())
            .collect()
    }

    /// The events of a teacher, ascending.
    pub fn of_teacher(&self, school: &School, teacher: &String) -> Vec<usize> {
        let taught = |&at: &usize| school.activities[at].teachers.contains(teacher);
        let lessons = self.lessons.iter().enumerate();
        let taught = lessons.filter(|(_, lesson)| lesson.activities.iter().any(taught));
        taught.map(|(event, _)| event).collect()
    }

    pub fn name(&self, school: &School, event: usize) -> String {
        let names = self.lessons[event].activities.iter();
        let names = names.map(|&at| school.activities[at].name());
        names.collect::<Vec<_>>().join(" & ")
    }
}

fn root(first: &[usize], mut at: usize) -> usize {
    while first[at] != at {
        at = first[at];
    }
    at
}

/// The places of the active activities that an item names in its fields `field`.
pub fn activities(school: &School, item: &Element, field: &str) -> Result<Vec<usize>, Fault> {
    let mut places = Vec::new();
    for child in item.all(field) {
        let id = child.text.trim().parse().ok();
        match id.and_then(|id: usize| school.activity_of.get(&id)) {
            Some(place) => places.extend(place),
            None => {
                let text = child.text.trim();
                return Err(Fault::at(child, format!("there is no activity '{text}'")));
            }
        }
    }
    Ok(places)
}
