//! Rules about teachers and students: of one, of all, of a set.

use super::super::draft::{Who, Wish};
use super::super::remark::{number, Fault, Refused};
use super::super::times::TimeSet;
use super::super::xml::Element;
use super::context::{Context, Person, Reading};

/// One teacher or class under a rule.
struct Case<'a> {
    context: &'a Context<'a>,
    item: &'a Element,
    resource: usize,
    person: &'a Person,
}

type Wishes = Result<Vec<Wish>, Refused>;

/// The rules by the ends of their names.
const RULES: &[(&str, fn(&Case) -> Wishes)] = &[
    ("NotAvailableTimes", not_available),
    ("MaxGapsPerWeek", max_gaps_per_week),
    ("MaxGapsPerDay", max_gaps_per_day),
    ("MaxHoursDaily", |case| max_hours_daily(case, case.who())),
    ("MinHoursDaily", min_hours_daily),
    ("MaxDaysPerWeek", max_days_per_week),
    ("MinDaysPerWeek", min_days_per_week),
    ("IntervalMaxDaysPerWeek", interval_max_days),
    ("MaxHoursContinuously", |case| {
        max_hours_continuously(case, case.who())
    }),
    ("MaxSpanPerDay", max_span_per_day),
    ("MinRestingHours", min_resting_hours),
    ("EarlyMaxBeginningsAtSecondHour", early_beginnings),
    ("ActivityTagMaxHoursDaily", |case| {
        max_hours_daily(case, case.who_with_tag())
    }),
    ("ActivityTagMaxHoursContinuously", |case| {
        max_hours_continuously(case, case.who_with_tag())
    }),
];

/// Whom the rules are about, by the beginnings of their names; a name is
/// matched against them in this order.
const ABOUT: &[(&str, fn(&Context, &Element) -> Result<Vec<usize>, Fault>)] = &[
    ("ConstraintStudentsSet", |context, item| {
        context.classes_of(item, item.verbatim("Students"))
    }),
    ("ConstraintStudents", |context, _| {
        Ok(context
            .classes
            .iter()
            .map(|&(_, resource)| resource)
            .collect())
    }),
    ("ConstraintTeachers", |context, _| {
        Ok(context.teachers.values().copied().collect())
    }),
    ("ConstraintTeacher", |context, item| {
        let field = ["Teacher_Name", "Teacher"];
        let named = field.iter().find_map(|field| item.child(field));
        let name = named.map_or("", |child| child.text.as_str());
        Ok(context.teacher(item, name)?.into_iter().collect())
    }),
];

/// What an item about people comes to; none if it is not about people.
pub fn read(context: &Context, item: &Element) -> Option<Result<Reading, Refused>> {
    let (rule, resources) = ABOUT.iter().find_map(|(prefix, about)| {
        let end = item.name.strip_prefix(prefix)?;
        let (_, rule) = RULES.iter().find(|(name, _)| *name == end)?;
        Some((rule, about))
    })?;
    Some(wishes(context, item, *rule, *resources).map(Reading::wishes))
}

fn wishes(
    context: &Context,
    item: &Element,
    rule: fn(&Case) -> Wishes,
    about: fn(&Context, &Element) -> Result<Vec<usize>, Fault>,
) -> Wishes {
    let mut resources = about(context, item)?;
    resources.sort_unstable();
    let mut wishes = Vec::new();
    for resource in resources {
        let person = &context.people[resource];
        wishes.extend(rule(&Case {
            context,
            item,
            resource,
            person,
        })?);
    }
    Ok(wishes)
}

impl Case<'_> {
    fn who(&self) -> Who {
        Who::Resource(self.resource)
    }

    /// The person's events with the item's tag.
    fn who_with_tag(&self) -> Who {
        let fields = ["Activity_Tag_Name", "Activity_Tag"];
        let named = fields.iter().find_map(|field| self.item.child(field));
        let tag = named.map_or("", |child| child.text.as_str());
        let school = self.context.school;
        let tagged = |&at: &usize| school.activities[at].tags.iter().any(|known| known == tag);
        let lessons = &self.context.lessons.lessons;
        let with_tag = |&event: &usize| lessons[event].activities.iter().any(tagged);
        Who::Events(
            self.person
                .events
                .iter()
                .copied()
                .filter(with_tag)
                .collect(),
        )
    }

    fn days(&self) -> usize {
        self.context.school.days.len()
    }

    fn hours(&self) -> usize {
        self.context.school.hours.len()
    }

    fn day_sets(&self) -> Vec<TimeSet> {
        self.context.school.day_sets()
    }

    /// The hours of each day that can be a gap: breaks and hours at which the
    /// person is not available are none.
    fn gap_sets(&self) -> Vec<TimeSet> {
        let days = self.day_sets().into_iter();
        days.map(|day| day & self.person.available)
            .filter(|set| !set.is_empty())
            .collect()
    }
}

fn not_available(case: &Case) -> Wishes {
    let times = case.context.times(case.item, "Not_Available_Time")?;
    Ok(vec![Wish::Unavailable(case.who(), times)])
}

fn max_gaps_per_week(case: &Case) -> Wishes {
    let most = number(case.item, "Max_Gaps")?;
    Ok(vec![Wish::Idle(case.who(), case.gap_sets(), 0, most)])
}

fn max_gaps_per_day(case: &Case) -> Wishes {
    let most = number(case.item, "Max_Gaps")?;
    let days = case.gap_sets().into_iter();
    Ok(days
        .map(|day| Wish::Idle(case.who(), vec![day], 0, most))
        .collect())
}

fn max_hours_daily(case: &Case, who: Who) -> Wishes {
    let most = number(case.item, "Maximum_Hours_Daily")?;
    if most >= case.hours() || is_nobody(&who) {
        return Ok(Vec::new());
    }
    let days = case.day_sets().into_iter();
    Ok(days
        .map(|day| Wish::Busy(who.clone(), day, 0, most))
        .collect())
}

/// A day without hours is kept apart: it is allowed or not, whatever the least.
fn min_hours_daily(case: &Case) -> Wishes {
    let least = number(case.item, "Minimum_Hours_Daily")?;
    let days = case.day_sets().into_iter();
    let busy = |day| Wish::Busy(case.who(), day, least, case.hours());
    let mut wishes: Vec<Wish> = days.map(busy).collect();
    if !empty_days_allowed(case.item) {
        let all = case.days();
        wishes.push(Wish::Cluster(case.who(), case.day_sets(), all, all));
    }
    Ok(wishes)
}

pub fn empty_days_allowed(item: &Element) -> bool {
    item.field("Allow_Empty_Days") != "false"
}

fn max_days_per_week(case: &Case) -> Wishes {
    let most = number(case.item, "Max_Days_Per_Week")?;
    Ok(vec![Wish::Cluster(case.who(), case.day_sets(), 0, most)])
}

fn min_days_per_week(case: &Case) -> Wishes {
    let least = number(case.item, "Minimum_Days_Per_Week")?;
    Ok(vec![Wish::Cluster(
        case.who(),
        case.day_sets(),
        least,
        case.days(),
    )])
}

/// An end that is not named is the end of the day.
fn interval_max_days(case: &Case) -> Wishes {
    let most = number(case.item, "Max_Days_Per_Week")?;
    let first = case.context.hour(case.item, "Interval_Start_Hour")?;
    let end = match case.item.verbatim("Interval_End_Hour") {
        "" => case.hours(),
        _ => case.context.hour(case.item, "Interval_End_Hour")?,
    };
    let days = 0..case.days();
    let parts = days.map(|day| case.context.school.part_of_day(day, first, end));
    Ok(vec![Wish::Cluster(case.who(), parts.collect(), 0, most)])
}

/// Of any hours in a row that are one too many, not all are busy.
fn max_hours_continuously(case: &Case, who: Who) -> Wishes {
    let most = number(case.item, "Maximum_Hours_Continuously")?;
    let mut wishes = Vec::new();
    for day in 0..case.days() {
        for first in 0..case.hours().saturating_sub(most) {
            let row = case
                .context
                .school
                .part_of_day(day, first, first + most + 1);
            if !is_nobody(&who) {
                wishes.push(Wish::Busy(who.clone(), row, 0, most));
            }
        }
    }
    Ok(wishes)
}

/// A person who is busy at an hour is not busy at those that are too far after it.
fn max_span_per_day(case: &Case) -> Wishes {
    if case.item.field("Allow_One_Day_Exception_of_Plus_One") == "true" {
        return Refused::because("one day may exceed the span");
    }
    let most = number(case.item, "Max_Span")?;
    let (school, hours) = (case.context.school, case.hours());
    let mut wishes = Vec::new();
    for day in 0..case.days() {
        for hour in 0..hours.saturating_sub(most) {
            let far = school.part_of_day(day, hour + most, hours);
            wishes.push(not_both(
                case.who(),
                school.part_of_day(day, hour, hour + 1),
                far,
            ));
        }
    }
    Ok(wishes)
}

/// A person who is busy late on a day is not busy early on the next.
fn min_resting_hours(case: &Case) -> Wishes {
    let least = number(case.item, "Minimum_Resting_Hours")?;
    let (school, days, hours) = (case.context.school, case.days(), case.hours());
    let circular = case.item.field("Circular") == "true";
    let mut wishes = Vec::new();
    for day in 0..if circular { days } else { days - 1 } {
        for hour in 0..hours {
            let rest = hours - 1 - hour;
            let early =
                school.part_of_day((day + 1) % days, 0, least.saturating_sub(rest).min(hours));
            if !early.is_empty() {
                wishes.push(not_both(
                    case.who(),
                    school.part_of_day(day, hour, hour + 1),
                    early,
                ));
            }
        }
    }
    Ok(wishes)
}

fn not_both(who: Who, one: TimeSet, other: TimeSet) -> Wish {
    Wish::Cluster(who, vec![one, other], 0, 1)
}

/// Each day begins with its first hour, or with the second on at most so many days.
/// For a person who may stay away on a day the engine has no counterpart.
fn early_beginnings(case: &Case) -> Wishes {
    if !case.person.every_day {
        return Refused::because(
            "a class that may stay away on a day cannot be made to begin early",
        );
    }
    let most = number(case.item, "Max_Beginnings_At_Second_Hour")?;
    let days = case.gap_sets();
    let begin = |hours: usize| -> Vec<TimeSet> {
        days.iter()
            .map(|day| day.iter().take(hours).collect())
            .collect()
    };
    let first = Wish::Cluster(
        case.who(),
        begin(1),
        days.len().saturating_sub(most),
        days.len(),
    );
    match most {
        0 => Ok(vec![first]),
        _ => Ok(vec![
            first,
            Wish::Cluster(case.who(), begin(2), days.len(), days.len()),
        ]),
    }
}

fn is_nobody(who: &Who) -> bool {
    matches!(who, Who::Events(events) if events.is_empty())
}
