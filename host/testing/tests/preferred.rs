//! Kind 3 on every tiny instance of one event: all numbers of times up to 5, all
//! durations and groups, hard and soft, and every assignment of Y and S. What a
//! timetable costs and which times can be counted at all is taken from the rows
//! here, beside the reference and the engine.

mod support;

use std::collections::BTreeSet;
use support::both::{score, sizes};
use support::models::{assignments, models_match, one_event, subevents};
use testing::generate::encode;
use testing::reference::{Constraint, Instance, Kind, Sizes};

const MOST_TIMES: usize = 5;
/// The weight of soft constraints; 0 means hard.
const WEIGHTS: [u32; 2] = [0, 3];

/// Every instance over `times` times, with its duration and its group.
fn instances(times: usize) -> impl Iterator<Item = (usize, Vec<usize>, Instance)> {
    let groups = move || {
        (0..1usize << times).map(move |set| {
            let member = |time: &usize| set >> time & 1 == 1;
            (0..times).filter(member).collect::<Vec<usize>>()
        })
    };
    let choices = (1..=times).flat_map(move |duration| groups().map(move |g| (duration, g)));
    choices.flat_map(move |(duration, group)| {
        WEIGHTS.map(|weight| {
            let kind = Kind::PreferredTimes { event: 0, group: 0 };
            let constraint = Constraint { weight, kind };
            let instance = one_event(times, duration, vec![group.clone()], constraint);
            (duration, group.clone(), instance)
        })
    })
}

/// The lengths of all subevents that start outside the group, summed.
fn deviation(group: &[usize], table: &[u8]) -> u64 {
    let all = subevents(table).into_iter();
    let outside = all.filter(|(start, _)| !group.contains(start));
    outside.map(|(_, length)| length as u64).sum()
}

#[test]
fn models_and_timetables_match_one_to_one() {
    let (mut tried, mut timetables) = (0, 0);
    for times in 1..=MOST_TIMES {
        for (_, group, instance) in instances(times) {
            timetables += models_match(&instance, |table| deviation(&group, table));
            tried += 1;
        }
    }
    println!("{tried} instances, {timetables} timetables");
    assert_eq!(tried, 2 * (2 + 2 * 4 + 3 * 8 + 4 * 16 + 5 * 32));
    assert!(timetables > 6_000);
}

/// The list has a member for each time that a subevent that starts outside holds
/// in some timetable, and for no other: so many soft units there are.
#[test]
fn the_list_has_the_times_that_can_be_counted() {
    for times in 1..=MOST_TIMES {
        for (_, group, instance) in instances(times) {
            let file = encode(&instance);
            let mut held = BTreeSet::new();
            for table in assignments(&instance).filter(|table| score(&file, table).is_ok()) {
                let outside = subevents(&table).into_iter();
                let outside = outside.filter(|(start, _)| !group.contains(start));
                held.extend(outside.flat_map(|(start, length)| start..start + length));
            }
            let kind = &instance.constraints[0].kind;
            assert_eq!(instance.list_length(kind), held.len(), "{instance:?}");
            if instance.constraints[0].weight > 0 {
                let soft = sizes(&file, None).unwrap().soft;
                assert_eq!(soft, held.len() as u64, "{instance:?}");
            }
        }
    }
}

/// What the gates of a list and its counter add to a formula, from how many gates
/// and members there are: a gate has two inputs.
fn added(gates: u64, members: u64, weight: u64) -> Sizes {
    let columns = if weight == 0 { 1 } else { members };
    let counter = match members {
        0 => [0, 0],
        n => [
            2 * columns + (n - 1) * (4 * columns - 1),
            3 * columns + 1 + (n - 1) * (11 * columns - 4),
        ],
    };
    // The hard unit (not c(n, 1)), or a soft one for each member.
    let (unit, soft) = match weight {
        0 => (members.min(1), 0),
        _ => (0, members),
    };
    Sizes {
        variables: gates + members * columns,
        clauses: 3 * gates + counter[0] + unit,
        words: 7 * gates + counter[1] + unit,
        soft,
        top: weight * soft,
    }
}

/// No gate for a time that is outside and not reachable, two for one in the group
/// that is reachable, three for one that is both.
#[test]
fn sizes_follow_from_the_times() {
    for times in 1..=MOST_TIMES {
        for (duration, group, instance) in instances(times) {
            let (mut gates, mut members) = (0, 0);
            for time in 0..times {
                let outside = !group.contains(&time);
                let reach = (1..duration).filter(|&back| back <= time);
                let reachable = reach.map(|back| time - back).any(|t| !group.contains(&t));
                let (nodes, member) = match (reachable, outside) {
                    (false, false) => (0, 0),
                    (false, true) => (0, 1),
                    (true, false) => (2, 1),
                    (true, true) => (3, 1),
                };
                gates += nodes;
                members += member;
            }
            let mut without = instance.clone();
            without.constraints.clear();
            let before = sizes(&encode(&without), None).unwrap();
            let more = added(gates, members, u64::from(instance.constraints[0].weight));
            let expected = Sizes {
                variables: before.variables + more.variables,
                clauses: before.clauses + more.clauses,
                words: before.words + more.words,
                soft: before.soft + more.soft,
                top: before.top + more.top,
            };
            let found = sizes(&encode(&instance), None);
            assert_eq!(found, Ok(expected), "{instance:?}");
        }
    }
}
