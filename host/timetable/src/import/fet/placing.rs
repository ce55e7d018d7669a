//! Rules about activities: where they start, and how they stand to each other.

use super::super::draft::{Who, Wish};
use super::super::remark::{number, Fault, Refused};
use super::super::times::TimeSet;
use super::super::xml::Element;
use super::context::{Context, Reading};
use super::lessons::activities;
use crate::instance::LARGEST_GAP;

/// An item about activities.
struct Case<'a> {
    context: &'a Context<'a>,
    item: &'a Element,
    hard: bool,
}

type Outcome = Result<Reading, Refused>;

const RULES: &[(&str, fn(&Case) -> Outcome)] = &[
    ("ConstraintBasicCompulsoryTime", no_clashes),
    ("ConstraintBreakTimes", break_times),
    ("ConstraintMinDaysBetweenActivities", min_days),
    ("ConstraintMaxDaysBetweenActivities", max_days),
    ("ConstraintActivityPreferredStartingTime", starting_time),
    ("ConstraintActivityPreferredStartingTimes", starting_times),
    ("ConstraintActivitiesPreferredStartingTimes", starting_times),
    (
        "ConstraintSubactivitiesPreferredStartingTimes",
        starting_times,
    ),
    ("ConstraintActivityPreferredTimeSlots", time_slots),
    ("ConstraintActivitiesPreferredTimeSlots", time_slots),
    ("ConstraintSubactivitiesPreferredTimeSlots", time_slots),
    ("ConstraintActivitiesSameStartingTime", same_time),
    ("ConstraintActivitiesSameStartingDay", same_day),
    ("ConstraintActivitiesSameStartingHour", same_hour),
    ("ConstraintActivitiesNotOverlapping", not_overlapping),
    ("ConstraintTwoActivitiesGrouped", grouped),
    ("ConstraintThreeActivitiesGrouped", grouped),
    ("ConstraintTwoActivitiesConsecutive", consecutive),
    ("ConstraintTwoActivitiesOrdered", ordered),
    (
        "ConstraintActivitiesOccupyMaxTimeSlotsFromSelection",
        occupy_most,
    ),
    (
        "ConstraintActivitiesOccupyMinTimeSlotsFromSelection",
        occupy_least,
    ),
    (
        "ConstraintActivitiesMaxSimultaneousInSelectedTimeSlots",
        most_at_once,
    ),
];

/// What an item about activities comes to; none if it is not of a known name.
pub fn read(context: &Context, item: &Element, hard: bool) -> Option<Outcome> {
    let (_, rule) = RULES.iter().find(|(name, _)| *name == item.name)?;
    Some(rule(&Case {
        context,
        item,
        hard,
    }))
}

impl Case<'_> {
    /// The activities that the item names.
    fn named(&self) -> Result<Vec<usize>, Fault> {
        let fields = [
            "Activity_Id",
            "First_Activity_Id",
            "Second_Activity_Id",
            "Third_Activity_Id",
        ];
        let mut all = Vec::new();
        for field in fields {
            all.extend(activities(self.context.school, self.item, field)?);
        }
        Ok(all)
    }

    /// The events of the named activities.
    fn events(&self) -> Result<Vec<usize>, Fault> {
        Ok(self.context.events(&self.named()?))
    }

    /// The events of the named activities, which must be as many.
    fn distinct_events(&self) -> Result<Vec<usize>, Refused> {
        let named = self.named()?;
        let events = self.context.events(&named);
        match events.len() == named.len() {
            true => Ok(events),
            false => Refused::because("two of its activities must start together"),
        }
    }

    /// The events of the item's two activities in its order; none unless both are active.
    fn pair(&self) -> Result<Option<[usize; 2]>, Refused> {
        let [first, second] = self.named()?[..] else {
            return Ok(None);
        };
        match [first, second].map(|at| self.context.lessons.event_of[at]) {
            [one, other] if one == other => Refused::because("its activities must start together"),
            pair => Ok(Some(pair)),
        }
    }

    /// How many breaks follow one another on a day at most.
    fn longest_break(&self) -> usize {
        let working = self.context.working;
        let rows = self.day_sets().into_iter().map(|day| {
            let times: Vec<usize> = day.iter().collect();
            let rows = times.split(|&time| working.contains(time));
            rows.map(<[usize]>::len).max().unwrap_or(0)
        });
        rows.max().unwrap_or(0)
    }

    /// The events that the item is about: named by id, or all that fit its fields.
    fn chosen(&self) -> Result<Vec<usize>, Fault> {
        if self.item.child("Activity_Id").is_some() {
            return self.events();
        }
        let duration = optional_number(self.item, "Duration")?;
        let component = optional_number(self.item, "Component_Number")?;
        let field = |name: &str| self.item.verbatim(name).to_string();
        let (teacher, students) = (field("Teacher_Name"), field("Students_Name"));
        let (subject, tag) = (field("Subject_Name"), field("Activity_Tag_Name"));
        let school = self.context.school;
        let fits = |&at: &usize| {
            let activity = &school.activities[at];
            let shares = |set: &String| school.students.share(set, &students);
            (teacher.is_empty() || activity.teachers.contains(&teacher))
                && (students.is_empty() || activity.students.iter().any(shares))
                && (subject.is_empty() || activity.subject == subject)
                && (tag.is_empty() || activity.tags.contains(&tag))
                && duration.is_none_or(|wanted| activity.duration == wanted)
                && component.is_none_or(|wanted| activity.component() == wanted)
        };
        let all: Vec<usize> = (0..school.activities.len()).filter(fits).collect();
        Ok(self.context.events(&all))
    }

    fn duration(&self, event: usize) -> usize {
        self.context.lessons.lessons[event].duration
    }

    fn day_sets(&self) -> Vec<TimeSet> {
        self.context.school.day_sets()
    }

    /// What counts the hours of an event outside of the slots. A longer event is one
    /// block, so its start says which hours it has; a start with several of them
    /// outside is counted as often.
    fn hours_outside(&self, event: usize, slots: TimeSet) -> Vec<Wish> {
        let duration = self.duration(event);
        if duration == 1 {
            return vec![Wish::Preferred(event, slots)];
        }
        let school = self.context.school;
        let starts = school.starts_within(duration, TimeSet::below(school.times()));
        let outside = |start: usize| {
            let hours = start..start + duration;
            hours.filter(|&hour| !slots.contains(hour)).count()
        };
        let counted = (1..=duration).map(|least| -> TimeSet {
            let counted = starts.iter().filter(|&start| outside(start) >= least);
            counted.collect()
        });
        let counted = counted.filter(|starts| !starts.is_empty());
        counted
            .map(|starts| Wish::Spread(vec![event], starts, 0, 0))
            .collect()
    }
}

fn optional_number(item: &Element, field: &str) -> Result<Option<usize>, Fault> {
    match item.field(field) {
        "" => Ok(None),
        _ => number(item, field).map(Some),
    }
}

/// Nobody is at two places at once.
fn no_clashes(case: &Case) -> Outcome {
    let people = case.context.people.iter().enumerate();
    let busy = people.filter(|(_, person)| person.events.len() > 1);
    let wishes = busy.map(|(resource, _)| Wish::Clash(Who::Resource(resource)));
    Ok(Reading::wishes(wishes.collect()))
}

/// No activity at a break.
fn break_times(case: &Case) -> Outcome {
    let breaks = case.context.times(case.item, "Break_Time")?;
    let lessons = case.context.lessons.lessons.iter().enumerate();
    let starts = lessons.map(|(event, lesson)| {
        (
            event,
            case.context.school.starts_within(lesson.duration, !breaks),
        )
    });
    Ok(Reading::starts(starts.collect()))
}

/// At most one start in any so many days in a row. A soft wish counts the
/// windows at both ends of the week too, so that two activities on days that are
/// too close cost as many times as days are missing between them.
fn min_days(case: &Case) -> Outcome {
    let least = number(case.item, "MinDays")? as isize;
    let events = case.distinct_events()?;
    if events.len() < 2 || least == 0 {
        return Ok(Reading::default());
    }
    let days = case.context.school.days.len() as isize;
    if least > days {
        return Refused::because("it asks for more days than there are");
    }
    let first_days = match case.hard {
        true => 0..(days - least).max(0) + 1,
        false => 1 - least..days,
    };
    let window = |first: isize| -> TimeSet {
        let within = first.max(0)..(first + least).min(days);
        within
            .flat_map(|day| case.context.school.day(day as usize).iter())
            .collect()
    };
    let spread = |first| Wish::Spread(events.clone(), window(first), 0, 1);
    let mut reading = Reading::wishes(first_days.map(spread).collect());
    let adjacent = case.item.field("Consecutive_If_Same_Day") == "true";
    if adjacent && !case.hard {
        reading.extras = vec![Wish::Idle(Who::Events(events), case.day_sets(), 0, 0)];
    }
    Ok(reading)
}

/// If one of them is on a day, none is on a day that is too far after it.
fn max_days(case: &Case) -> Outcome {
    let most = number(case.item, "MaxDays")?;
    let (who, days) = (Who::Events(case.events()?), case.day_sets());
    let pairs = (0..days.len().saturating_sub(most + 1)).map(|day| {
        let far = days[day + most + 1..]
            .iter()
            .fold(TimeSet::default(), |all, &day| all | day);
        Wish::Cluster(who.clone(), vec![days[day], far], 0, 1)
    });
    Ok(Reading::wishes(pairs.collect()))
}

fn starting_time(case: &Case) -> Outcome {
    let time = case.context.time(case.item)?;
    let events = case.events()?.into_iter();
    Ok(Reading::starts(
        events
            .map(|event| (event, [time].into_iter().collect()))
            .collect(),
    ))
}

fn starting_times(case: &Case) -> Outcome {
    let times = case.context.times(case.item, "Preferred_Starting_Time")?;
    let events = case.chosen()?.into_iter();
    Ok(Reading::starts(
        events.map(|event| (event, times)).collect(),
    ))
}

/// Every hour of the activity lies in the slots; a soft wish counts those that do not.
fn time_slots(case: &Case) -> Outcome {
    let slots = case.context.times(case.item, "Preferred_Time_Slot")?;
    let events = case.chosen()?.into_iter();
    if !case.hard {
        return Ok(Reading::wishes(
            events
                .flat_map(|event| case.hours_outside(event, slots))
                .collect(),
        ));
    }
    let starts = |event| {
        (
            event,
            case.context
                .school
                .starts_within(case.duration(event), slots),
        )
    };
    Ok(Reading::starts(events.map(starts).collect()))
}

/// Activities that must start together are one event already. Those that are wished
/// to, and last equally long, do so where they take no more times than one of them.
fn same_time(case: &Case) -> Outcome {
    let named = case.named()?;
    let events = case.context.events(&named);
    let mut durations: Vec<usize> = events.iter().map(|&event| case.duration(event)).collect();
    durations.dedup();
    match (case.hard, &durations[..]) {
        (_, []) => Ok(Reading::default()),
        (true, _) if events.len() == 1 => {
            let lost = "two of the activities need the same person, and are carried as one event";
            let weaker = shares_people(case.context, &named).then(|| lost.to_string());
            Ok(Reading {
                weaker,
                ..Reading::default()
            })
        }
        (false, &[duration]) => {
            let all = TimeSet::below(case.context.school.times());
            Ok(Reading::wishes(vec![Wish::Busy(
                Who::Events(events),
                all,
                0,
                duration,
            )]))
        }
        _ => Refused::because("the activities are not equally long"),
    }
}

/// Whether two of the activities have a teacher or a subgroup in common.
fn shares_people(context: &Context, named: &[usize]) -> bool {
    let school = context.school;
    let mut teachers = std::collections::HashSet::new();
    let mut subgroups = std::collections::HashSet::new();
    let mut shared = false;
    for &at in named {
        let activity = &school.activities[at];
        shared |= activity
            .teachers
            .iter()
            .any(|teacher| !teachers.insert(teacher));
        let busy = school.students.all_subgroups(&activity.students);
        shared |= busy.into_iter().any(|subgroup| !subgroups.insert(subgroup));
    }
    shared
}

fn same_day(case: &Case) -> Outcome {
    let who = Who::Events(case.events()?);
    Ok(Reading::wishes(vec![Wish::Cluster(
        who,
        case.day_sets(),
        0,
        1,
    )]))
}

/// Activities that last equally long use no more hours of the day than one of them does.
fn same_hour(case: &Case) -> Outcome {
    let events = case.events()?;
    let mut durations: Vec<usize> = events.iter().map(|&event| case.duration(event)).collect();
    durations.dedup();
    let [duration] = durations[..] else {
        return Refused::because("the activities are not equally long");
    };
    let school = case.context.school;
    let hours = (0..school.hours.len())
        .map(|hour| school.hour(hour))
        .collect();
    Ok(Reading::wishes(vec![Wish::Cluster(
        Who::Events(events),
        hours,
        0,
        duration,
    )]))
}

fn not_overlapping(case: &Case) -> Outcome {
    let who = Who::Events(case.distinct_events()?);
    Ok(Reading::wishes(vec![Wish::Clash(who)]))
}

/// On one day, not at once, and with nothing but breaks between them.
fn grouped(case: &Case) -> Outcome {
    if !case.hard {
        return Refused::because("being grouped can be a rule, not a wish");
    }
    let who = Who::Events(case.distinct_events()?);
    let days = case.day_sets();
    let without_breaks = days.iter().map(|&day| day & case.context.working);
    let without_breaks = without_breaks.filter(|day| !day.is_empty()).collect();
    Ok(Reading::wishes(vec![
        Wish::Clash(who.clone()),
        Wish::Cluster(who.clone(), days, 0, 1),
        Wish::Idle(who, without_breaks, 0, 0),
    ]))
}

/// The second begins, in the week, after the first has ended.
fn ordered(case: &Case) -> Outcome {
    let order = |[first, second]: [usize; 2]| {
        let most = LARGEST_GAP as usize;
        Wish::Precedence(first, second, 0, most)
    };
    let wishes = case.pair()?.map(order);
    Ok(Reading::wishes(wishes.into_iter().collect()))
}

/// Grouped and ordered; of a wish no more than that the gap is no longer than a break.
fn consecutive(case: &Case) -> Outcome {
    let Some([first, second]) = case.pair()? else {
        return Ok(Reading::default());
    };
    if case.hard {
        let wishes = [grouped(case)?.wishes, ordered(case)?.wishes].concat();
        return Ok(Reading::wishes(wishes));
    }
    let most = case.longest_break();
    Ok(Reading {
        weaker: Some(format!("only a gap of 0 to {most} times is carried")),
        ..Reading::wishes(vec![Wish::Precedence(first, second, 0, most)])
    })
}

fn occupy_most(case: &Case) -> Outcome {
    let most = number(case.item, "Max_Number_of_Occupied_Time_Slots")?;
    let slots = case.context.times(case.item, "Selected_Time_Slot")?;
    let who = Who::Events(case.events()?);
    Ok(Reading::wishes(vec![Wish::Busy(who, slots, 0, most)]))
}

fn occupy_least(case: &Case) -> Outcome {
    let least = number(case.item, "Min_Number_of_Occupied_Time_Slots")?;
    let slots = case.context.times(case.item, "Selected_Time_Slot")?;
    let each: Vec<TimeSet> = slots
        .iter()
        .map(|time| [time].into_iter().collect())
        .collect();
    let (who, all) = (Who::Events(case.events()?), each.len());
    Ok(Reading::wishes(vec![Wish::Cluster(who, each, least, all)]))
}

/// Activities of one hour are counted by their starts.
fn most_at_once(case: &Case) -> Outcome {
    let most = number(case.item, "Max_Number_of_Simultaneous_Activities")?;
    let slots = case.context.times(case.item, "Selected_Time_Slot")?;
    let events = case.distinct_events()?;
    if events.iter().any(|&event| case.duration(event) > 1) {
        return Refused::because("some of the activities last longer than an hour");
    }
    let at = |time| Wish::Spread(events.clone(), [time].into_iter().collect(), 0, most);
    Ok(Reading::wishes(slots.iter().map(at).collect()))
}
