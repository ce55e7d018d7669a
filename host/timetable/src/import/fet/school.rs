//! The lists of a FET file: days, hours, teachers, students, rooms, activities.

use super::super::remark::{number, Fault};
use super::super::times::TimeSet;
use super::super::xml::Element;
use super::students::Students;
use std::collections::HashMap;

/// What a FET file says before its constraints.
pub struct School {
    pub title: Option<String>,
    pub days: Vec<String>,
    pub hours: Vec<String>,
    pub teachers: Vec<String>,
    pub students: Students,
    /// The rooms that are not virtual.
    pub rooms: Vec<String>,
    /// The active ones.
    pub activities: Vec<Activity>,
    /// The place in `activities` by id; none for one that is not active.
    pub activity_of: HashMap<usize, Option<usize>>,
}

/// An activity: one block of hours of one day.
pub struct Activity {
    pub id: usize,
    /// The first id of the activities that it was split from; 0 if it stands alone.
    pub group: usize,
    pub teachers: Vec<String>,
    pub subject: String,
    pub tags: Vec<String>,
    pub students: Vec<String>,
    pub duration: usize,
}

impl Activity {
    /// Its number among the activities that it was split from, from 1.
    pub fn component(&self) -> usize {
        match self.group {
            0 => 1,
            group => (self.id + 1).saturating_sub(group),
        }
    }

    pub fn name(&self) -> String {
        let students = self.students.join("+");
        let words = [self.subject.as_str(), students.as_str()];
        let words: Vec<&str> = words.into_iter().filter(|word| !word.is_empty()).collect();
        format!("{} #{}", words.join(" "), self.id)
    }
}

impl School {
    pub fn read(root: &Element) -> Result<School, Fault> {
        let days = names(root, "Days_List", "Day");
        let hours = names(root, "Hours_List", "Hour");
        if days.is_empty() || hours.is_empty() {
            return Err(Fault::at(root, "the days or the hours are missing"));
        }
        let title = root.field("Institution_Name");
        let mut school = School {
            title: (!title.is_empty()).then(|| title.to_string()),
            days,
            hours,
            teachers: names(root, "Teachers_List", "Teacher"),
            students: Students::read(root.child("Students_List")),
            rooms: real_rooms(root),
            activities: Vec::new(),
            activity_of: HashMap::new(),
        };
        let activities = root.child("Activities_List");
        for element in activities.iter().flat_map(|list| list.all("Activity")) {
            school.add_activity(element)?;
        }
        Ok(school)
    }

    fn add_activity(&mut self, element: &Element) -> Result<(), Fault> {
        let id = number(element, "Id")?;
        let place = (element.field("Active") != "false").then_some(self.activities.len());
        if self.activity_of.insert(id, place).is_some() {
            return Err(Fault::at(element, format!("a second activity {id}")));
        }
        if place.is_none() {
            return Ok(());
        }
        let activity = Activity {
            id,
            group: number(element, "Activity_Group_Id").unwrap_or(0),
            teachers: texts(element, "Teacher"),
            subject: element.verbatim("Subject").to_string(),
            tags: texts(element, "Activity_Tag"),
            students: texts(element, "Students"),
            duration: number(element, "Duration")?,
        };
        self.fits(&activity)
            .map_err(|message| Fault::at(element, message))?;
        self.activities.push(activity);
        Ok(())
    }

    /// Whether the school has the people of an activity, and days that are long enough.
    fn fits(&self, activity: &Activity) -> Result<(), String> {
        if !(1..=self.hours.len()).contains(&activity.duration) {
            return Err(format!("activity {} does not fit a day", activity.id));
        }
        let mut teachers = activity.teachers.iter();
        if let Some(name) = teachers.find(|name| !self.teachers.contains(name)) {
            return Err(format!("there is no teacher '{name}'"));
        }
        let mut students = activity.students.iter();
        match students.find(|name| !self.students.knows(name)) {
            Some(name) => Err(format!("there are no students '{name}'")),
            None => Ok(()),
        }
    }

    pub fn times(&self) -> usize {
        self.days.len() * self.hours.len()
    }

    pub fn time(&self, day: usize, hour: usize) -> usize {
        day * self.hours.len() + hour
    }

    /// The hours from `first` up to `end`, without it, of a day.
    pub fn part_of_day(&self, day: usize, first: usize, end: usize) -> TimeSet {
        (first..end).map(|hour| self.time(day, hour)).collect()
    }

    pub fn day(&self, day: usize) -> TimeSet {
        self.part_of_day(day, 0, self.hours.len())
    }

    pub fn day_sets(&self) -> Vec<TimeSet> {
        (0..self.days.len()).map(|day| self.day(day)).collect()
    }

    /// One hour on every day.
    pub fn hour(&self, hour: usize) -> TimeSet {
        (0..self.days.len())
            .map(|day| self.time(day, hour))
            .collect()
    }

    /// The times from which a block of `duration` hours lies within a day and `times`.
    pub fn starts_within(&self, duration: usize, times: TimeSet) -> TimeSet {
        let fits = |&start: &usize| {
            let hour = start % self.hours.len();
            hour + duration <= self.hours.len()
                && (start..start + duration).all(|time| times.contains(time))
        };
        (0..self.times()).filter(fits).collect()
    }
}

/// The texts of all children of this name that are not empty. Spaces count: FET has names
/// of nothing else.
pub fn texts(element: &Element, name: &str) -> Vec<String> {
    let texts = element.all(name).map(|child| child.text.as_str());
    texts
        .filter(|text| !text.is_empty())
        .map(str::to_string)
        .collect()
}

/// The names of a list's members. Older files hold a day's or hour's name without an
/// element around it.
fn names(root: &Element, list: &str, member: &str) -> Vec<String> {
    let Some(list) = root.child(list) else {
        return Vec::new();
    };
    let members = list
        .all(member)
        .map(|known| known.verbatim("Name").to_string());
    members.chain(texts(list, "Name")).collect()
}

fn real_rooms(root: &Element) -> Vec<String> {
    let rooms = root.child("Rooms_List");
    let rooms = rooms.iter().flat_map(|list| list.all("Room"));
    let real = rooms.filter(|room| room.field("Virtual") != "true");
    real.map(|room| room.verbatim("Name").to_string()).collect()
}
