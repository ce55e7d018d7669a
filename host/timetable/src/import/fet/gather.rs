//! The people of a FET file: teachers and classes as resources of the draft, with the
//! times at which they are available, and whether they must come every day.

use super::super::draft::{Draft, Who, Wish};
use super::super::remark::Fault;
use super::super::times::TimeSet;
use super::context::{Context, Person};
use super::item::Item;
use super::lessons::Lessons;
use super::people as rules;
use super::school::School;
use crate::instance::Event;
use crate::school::{Day, ResourceSort};
use std::collections::HashMap;

/// Puts times, events, teachers and classes into the draft.
pub fn people<'a>(
    school: &'a School,
    lessons: &'a Lessons,
    draft: &mut Draft,
) -> Result<Context<'a>, String> {
    let classes = school.students.classes(&lessons.subgroups(school));
    let taught = school
        .teachers
        .iter()
        .map(|name| (name, lessons.of_teacher(school, name)));
    let taught: Vec<_> = taught.filter(|(_, events)| !events.is_empty()).collect();
    let resources = taught.len() + classes.len();
    if let Some(over) = Draft::over_limit(school.times(), lessons.lessons.len(), resources) {
        return Err(over);
    }
    name_things(school, lessons, draft);
    let mut context = Context {
        school,
        lessons,
        teachers: HashMap::new(),
        classes: Vec::new(),
        people: Vec::new(),
        working: TimeSet::below(school.times()),
    };
    for (name, events) in taught {
        let resource = person(draft, &mut context, ResourceSort::Teacher, name, &events)?;
        context.teachers.insert(name.clone(), resource);
    }
    for class in classes {
        let resource = person(
            draft,
            &mut context,
            ResourceSort::Class,
            &class.name,
            &class.events,
        )?;
        context.classes.push((class, resource));
    }
    Ok(context)
}

fn name_things(school: &School, lessons: &Lessons, draft: &mut Draft) {
    draft.instance.times = school.times();
    draft.names.title = school.title.clone();
    let day = |name: &String| Day {
        name: Some(name.clone()),
        periods: school.hours.clone(),
    };
    draft.names.days = school.days.iter().map(day).collect();
    for (event, lesson) in lessons.lessons.iter().enumerate() {
        draft.names.lessons.push(lessons.name(school, event));
        draft.instance.events.push(Event {
            duration: lesson.duration,
            resources: Vec::new(),
        });
    }
}

fn person(
    draft: &mut Draft,
    context: &mut Context,
    sort: ResourceSort,
    name: &str,
    events: &[usize],
) -> Result<usize, String> {
    let resource = draft.resource(sort, name.to_string());
    let resource = resource.ok_or_else(|| format!("'{name}' is one resource too many"))?;
    draft.use_by(resource, events);
    context.people.push(Person {
        events: events.to_vec(),
        available: context.working,
        every_day: false,
    });
    Ok(resource)
}

/// Takes breaks and times at which a person is not available out of the times.
pub fn mark_times(context: &mut Context, items: &[Item]) -> Result<(), Fault> {
    for item in items.iter().filter(|item| item.hard()) {
        if item.element.name == "ConstraintBreakTimes" {
            let breaks = context.times(item.element, "Break_Time")?;
            context.working = context.working & !breaks;
        }
    }
    for person in &mut context.people {
        person.available = context.working;
    }
    for wish in hard_wishes(context, items) {
        if let Wish::Unavailable(Who::Resource(resource), times) = wish {
            let person = &mut context.people[resource];
            person.available = person.available & !times;
        }
    }
    Ok(())
}

/// Marks the people who must come every day: because an item says so, or
/// because their hours do not fit the other days.
pub fn mark_every_day(context: &mut Context, items: &[Item]) {
    let days = context.school.day_sets();
    for wish in hard_wishes(context, items) {
        match wish {
            Wish::Cluster(Who::Resource(resource), sets, least, _) if sets == days => {
                context.people[resource].every_day |= least == days.len();
            }
            _ => {}
        }
    }
    let lessons = &context.lessons.lessons;
    for person in &mut context.people {
        let hours: usize = person
            .events
            .iter()
            .map(|&event| lessons[event].duration)
            .sum();
        let fits_without = |&day: &TimeSet| hours <= (person.available & !day).len();
        person.every_day |= !days.iter().any(fits_without);
    }
}

/// The wishes of the hard items about people; faults are told of when their turn comes.
fn hard_wishes(context: &Context, items: &[Item]) -> Vec<Wish> {
    let hard = items.iter().filter(|item| item.hard());
    let readings = hard.filter_map(|item| rules::read(context, item.element));
    readings
        .filter_map(Result::ok)
        .flat_map(|reading| reading.wishes)
        .collect()
}
