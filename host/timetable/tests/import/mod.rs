//! A small FET school under further rules, each of its placements judged by the engine
//! and by hand.
#![allow(dead_code)]

use timetable::engine;
use timetable::import::{fet, xml, Fault, Imported};
use timetable::instance;

pub const WEEK: &str = include_str!("week.fet");
pub const DAYS: usize = 3;
pub const HOURS: usize = 3;
pub const TIMES: usize = DAYS * HOURS;
pub const DURATIONS: [usize; 4] = [1, 1, 2, 1];
/// The places of the activities of each, from 0.
pub const ADA: &[usize] = &[0, 1, 3];
pub const CLASS_A: &[usize] = &[0, 1, 2];
pub const CLASS_B: &[usize] = &[3];

/// The time at which each activity starts.
pub type Starts = [usize; 4];
pub type Kept = fn(&Starts) -> bool;

/// The school with further time and space rules.
pub fn school(time_rules: &str, space_rules: &str) -> String {
    let school = WEEK.replace("<!-- time rules -->", time_rules);
    school.replace("<!-- space rules -->", space_rules)
}

pub fn import(text: &str) -> Result<Imported, Fault> {
    fet::import(&xml::read(text.as_bytes())?, 10)
}

/// A rule of this weight, its fields as they stand.
pub fn rule(name: &str, weight: &str, fields: &str) -> String {
    format!(
        "<Constraint{name}><Weight_Percentage>{weight}</Weight_Percentage>{fields}\
         <Active>true</Active></Constraint{name}>\n"
    )
}

/// Fields that name times, each in an element `around` with `Day` and `Hour` fields.
pub fn times(around: &str, prefix: &str, times: &[(&str, usize)]) -> String {
    let each = times.iter().map(|(day, hour)| {
        format!(
            "<{around}><{prefix}Day>{day}</{prefix}Day><{prefix}Hour>{hour}</{prefix}Hour></{around}>"
        )
    });
    each.collect()
}

pub fn ids(ids: &[usize]) -> String {
    let each = ids
        .iter()
        .map(|id| format!("<Activity_Id>{id}</Activity_Id>"));
    each.collect()
}

/// Every placement in which each activity lies within a day.
pub fn placements() -> Vec<Starts> {
    let mut all = Vec::new();
    for code in 0..TIMES.pow(4) {
        let starts = [0, 1, 2, 3].map(|at| code / TIMES.pow(at) % TIMES);
        if starts[2] % HOURS + DURATIONS[2] <= HOURS {
            all.push(starts);
        }
    }
    all
}

/// The timetable's bytes.
pub fn timetable(starts: &Starts) -> Vec<u8> {
    let mut taken = vec![0; starts.len() * TIMES];
    let mut begun = taken.clone();
    for (event, &start) in starts.iter().enumerate() {
        begun[event * TIMES + start] = 1;
        taken[event * TIMES + start..][..DURATIONS[event]].fill(1);
    }
    [taken, begun].concat()
}

/// How many of these activities are on at a time.
pub fn on_at(starts: &Starts, activities: &[usize], time: usize) -> usize {
    let on = |&&at: &&usize| (starts[at]..starts[at] + DURATIONS[at]).contains(&time);
    activities.iter().filter(on).count()
}

/// The hours of a day at which one of these activities is on.
pub fn hours(starts: &Starts, activities: &[usize], day: usize) -> Vec<usize> {
    let busy = |&hour: &usize| on_at(starts, activities, day * HOURS + hour) > 0;
    (0..HOURS).filter(busy).collect()
}

/// The hours of each day.
pub fn week(starts: &Starts, activities: &[usize]) -> Vec<Vec<usize>> {
    (0..DAYS)
        .map(|day| hours(starts, activities, day))
        .collect()
}

pub fn gaps(hours: &[usize]) -> usize {
    match (hours.first(), hours.last()) {
        (Some(first), Some(last)) => last + 1 - first - hours.len(),
        _ => 0,
    }
}

pub fn longest_row(hours: &[usize]) -> usize {
    let (mut longest, mut row) = (0, 0);
    for hour in 0..HOURS {
        row = if hours.contains(&hour) { row + 1 } else { 0 };
        longest = longest.max(row);
    }
    longest
}

pub fn days_of(starts: &Starts, activities: &[usize]) -> usize {
    week(starts, activities)
        .iter()
        .filter(|day| !day.is_empty())
        .count()
}

/// Nobody is at two places at once.
pub fn no_clash(starts: &Starts) -> bool {
    [ADA, CLASS_A, CLASS_B]
        .iter()
        .all(|activities| (0..TIMES).all(|time| on_at(starts, activities, time) <= 1))
}

/// The file says of every placement what the rule says: with `hard` that it is
/// infeasible, else that it costs.
pub fn judge(text: &str, kept: Kept, hard: bool) {
    let imported = import(text).unwrap_or_else(|fault| panic!("{fault}\n{text}"));
    assert!(imported.remarks.is_empty(), "{:?}", imported.remarks);
    let bytes = instance::write(&imported.school.instance);
    let (mut kept_some, mut broke_some) = (false, false);
    for starts in placements() {
        let score = engine::score(&bytes, &timetable(&starts)).expect("a timetable");
        let rules = (no_clash(&starts), kept(&starts));
        let said = match hard {
            true => (score.infeasibility.0 == 0) == (rules.0 && rules.1),
            false => (score.infeasibility.0 == 0) == rules.0 && (score.objective.0 == 0) == rules.1,
        };
        assert!(said, "{starts:?} {rules:?} {score:?}\n{text}");
        kept_some |= rules.1;
        broke_some |= !rules.1;
    }
    assert!(
        kept_some && broke_some,
        "a rule that cannot be broken, or not be kept\n{text}"
    );
}

/// Judges a time rule as a rule and as a wish.
pub fn judge_both(name: &str, fields: &str, kept: Kept) {
    judge(&school(&rule(name, "100", fields), ""), kept, true);
    judge(&school(&rule(name, "50", fields), ""), kept, false);
}
