//! The outline by which clauses are told in words, against the sizes and the
//! clauses of the formula.
#![cfg(feature = "engine")]

mod support;

use support::hex;
use testing::generate::{encode, instance, Random, Shape};
use testing::prover::clause_list;
use testing::reference;
use timetable::diagnosis::outline::{Outline, Owner, Purpose};
use timetable::instance::{read, Kind};

#[test]
fn its_sums_are_the_sizes_of_the_formula() {
    for seed in 0..400 {
        let mut random = Random::new(seed);
        let shape = match seed % 10 {
            0 => Shape::school(),
            1..=4 => Shape::tiny(),
            _ => Shape::small(),
        };
        let file = encode(&instance(&mut random, &shape));
        let outline = Outline::of(&read(&file).expect("an accepted file"));
        for bound in [None, Some(0), Some(random.below(60) as u64), Some(1_200)] {
            let Ok(sizes) = reference::sizes(&file, bound) else {
                continue;
            };
            let hard = outline.size();
            let tail = bound.map(|bound| outline.tail(bound)).unwrap_or_default();
            let found = (hard.variables + tail.variables, hard.clauses + tail.clauses);
            assert_eq!(found, (sizes.variables, sizes.clauses), "seed {seed}");
        }
    }
}

/// The event of a constraint of kind 3, 9 or 10.
fn event_of(kind: &Kind) -> usize {
    match *kind {
        Kind::PreferredTimes { event, .. }
        | Kind::Distribute { event, .. }
        | Kind::Lengths { event, .. } => event,
        _ => panic!("no other kind asks for subevents"),
    }
}

/// The first and the second event of a constraint of kind 11.
fn pair_of(kind: &Kind) -> [usize; 2] {
    match *kind {
        Kind::Precedence { first, second, .. } => [first, second],
        _ => panic!("no other kind has a gap"),
    }
}

/// The variables of the clauses that are easy to name: those of starts, uses,
/// times that go on or are held, lengths, gaps, and the last column of a counter.
#[test]
fn its_clauses_are_those_of_the_formula() {
    let mut named = 0;
    for seed in 0..200 {
        let shape = match seed % 2 {
            0 => Shape::tiny(),
            _ => Shape::small(),
        };
        let generated = instance(&mut Random::new(seed), &shape);
        let (times, events) = (generated.times, generated.events.len());
        let typed = read(&encode(&generated)).expect("an accepted file");
        let outline = Outline::of(&typed);
        let clauses = clause_list(&generated, None);
        let y = |event: usize, time: usize| (event * times + time + 1) as u32;
        for (index, clause) in clauses.iter().enumerate() {
            let found = outline.clause(index as u64 + 1).expect("a clause");
            let variables: Vec<u32> = clause.iter().map(|literal| literal.variable()).collect();
            let wanted = match (found.piece.owner, found.piece.purpose) {
                (Owner::Starts { event }, Purpose::Start { time }) => {
                    y(event, time) + (events * times) as u32
                }
                (Owner::Uses { resource }, Purpose::AnyOf { place, .. }) => {
                    let timetable::diagnosis::outline::Place::Time(time) = place else {
                        panic!("a use is of a time");
                    };
                    y(2 * events + resource, time)
                }
                (Owner::Constraint { index }, Purpose::GoesOn { time, inputs: 2 }) => {
                    y(event_of(&typed.constraints[index].kind), time)
                        + [0, events * times, 0][found.place as usize] as u32
                }
                (Owner::Constraint { index }, Purpose::Held { time }) if found.place != 1 => {
                    y(events + event_of(&typed.constraints[index].kind), time)
                }
                (Owner::Constraint { index }, Purpose::Counted { time, inputs })
                    if found.place == 0 || found.place == inputs as u64 =>
                {
                    y(events + event_of(&typed.constraints[index].kind), time)
                }
                (
                    Owner::Constraint { index },
                    Purpose::Outside {
                        time,
                        longer,
                        shorter,
                    },
                ) if found.place == (longer + shorter) as u64 + 3 => {
                    y(events + event_of(&typed.constraints[index].kind), time)
                }
                (Owner::Constraint { index }, Purpose::Begun { time, inputs })
                    if found.place == inputs as u64 =>
                {
                    y(pair_of(&typed.constraints[index].kind)[1], time)
                }
                (Owner::Constraint { index }, Purpose::TooSoon { time }) if found.place != 1 => {
                    y(pair_of(&typed.constraints[index].kind)[0], time)
                }
                (Owner::Constraint { index }, Purpose::Lasting { time, inputs })
                    if found.place == inputs as u64 =>
                {
                    y(pair_of(&typed.constraints[index].kind)[0], time + 1)
                }
                (Owner::Constraint { index }, Purpose::GapOutside { inputs })
                    if found.place == inputs as u64 =>
                {
                    y(pair_of(&typed.constraints[index].kind)[0], times - 1)
                }
                (_, Purpose::AtLeast { .. } | Purpose::AtMost { .. }) => {
                    assert_eq!(variables.len(), 1, "a bound is a unit");
                    variables[0]
                }
                _ => continue,
            };
            named += 1;
            assert!(variables.contains(&wanted), "seed {seed}, clause {index}");
        }
        assert_eq!(outline.clause(clauses.len() as u64 + 1), None);
    }
    assert!(named > 10_000);
}

/// What each clause of file A says where it is false.
#[test]
fn the_clauses_of_file_a_are_told() {
    let typed = read(&hex(support::FILE_A)).expect("file A");
    let outline = Outline::of(&typed);
    let said: Vec<String> = (1..=7)
        .map(|id| outline.clause(id).expect("a clause").says(&typed))
        .collect();
    assert_eq!(
        said,
        [
            "block 1, event 1: it starts at time 1 and does not take it",
            "block 1, event 1: it takes time 1 and does not start there",
            "block 3, event 1: its counter, in row 1, column 1, has a wrong value",
            "block 3, event 1: its counter, in row 1, column 1, has a wrong value",
            "block 3, event 1: the number of its times is below 1",
            "block 4, constraint 1, kind preferred-times: its counter, in row 1, column 1, has \
             a wrong value",
            "block 4, constraint 1, kind preferred-times: its counter, in row 1, column 1, has \
             a wrong value",
        ]
    );
}

/// What the clauses of a file's constraints say where they are false, those of
/// counters left out, each once.
fn told(file: &str) -> Vec<String> {
    let typed = read(&hex(file)).expect("an accepted file");
    let outline = Outline::of(&typed);
    let mut said: Vec<String> = (1..)
        .map_while(|id| outline.clause(id))
        .filter(|clause| matches!(clause.piece.owner, Owner::Constraint { .. }))
        .map(|clause| clause.says(&typed))
        .filter(|words| !words.contains("counter"))
        .collect();
    said.dedup();
    said
}

/// Kind 3, hard: three times, an event of duration 2, the group (2), then (1).
#[test]
fn the_clauses_of_preferred_times_are_told() {
    let said = told("03 01 00 02 00 02 01 02 01 01 02 03 00 01 01 03 00 01 02");
    let mut wanted = Vec::new();
    for (number, time, held) in [(1, 2, false), (2, 3, true)] {
        let mut says = |words: &str| {
            let kind = "kind preferred-times";
            wanted.push(format!("block 4, constraint {number}, {kind}: {words}"));
        };
        let outside = "the variable for a subevent that starts outside the group and";
        says(&format!(
            "the variable for a subevent that goes on at time {time} has a wrong value"
        ));
        says(&format!(
            "{outside} goes on at time {time} has a wrong value"
        ));
        if held {
            says(&format!("{outside} holds time {time} has a wrong value"));
        }
        says(
            "the number of the event's times in subevents that start outside the group is above 0",
        );
    }
    assert_eq!(said, wanted);
}

/// Kinds 9 and 10, hard: three times, an event of duration 2; one double, then no
/// part of another length.
#[test]
fn the_clauses_of_lengths_are_told() {
    let said = told("03 01 00 02 00 00 02 09 00 01 02 01 01 0A 00 01 02 02");
    let mut wanted = Vec::new();
    for kind in ["1, kind distribute", "2, kind lengths"] {
        let mut says = |words: &str| wanted.push(format!("block 4, constraint {kind}: {words}"));
        for time in 2..=4 {
            says(&format!(
                "the variable for a subevent that goes on at time {time} has a wrong value"
            ));
        }
        for time in 1..=3 {
            says(&format!(
                "a variable for the length of a subevent that starts at time {time} has a wrong \
                 value"
            ));
        }
        if kind.ends_with("distribute") {
            says("the number of the event's subevents of this length is below 1");
            says("the number of the event's subevents of this length is above 1");
        } else {
            says("the number of the event's subevents of a length outside is above 0");
        }
    }
    assert_eq!(said, wanted);
}

/// Kind 11, hard: four times, two events of duration 1, a gap of 0 to 0, then one of 1
/// to 124 with the second event first.
#[test]
fn the_clauses_of_gaps_are_told() {
    let said = told("04 02 00 01 00 01 00 00 02 0B 00 01 02 00 00 0B 00 02 01 01 7C");
    let mut wanted = Vec::new();
    for (number, begun, soon, ended) in [(1, 1..4, 2..4, 1..3), (2, 2..4, 2..3, 1..1)] {
        let start = format!("block 4, constraint {number}, kind precedence:");
        let mut wrong = |words: String| wanted.push(format!("{start} {words} has a wrong value"));
        for time in begun {
            wrong(format!(
                "the variable for a second event that has begun by time {time}"
            ));
        }
        for time in soon {
            wrong(format!(
                "the variable for a second event too soon after time {time} of the first"
            ));
        }
        for time in ended.clone().rev() {
            wrong(format!(
                "the variable for a first event that goes on after time {time}"
            ));
        }
        for time in ended {
            wrong(format!(
                "the variable for a second event too late after a first that ends by time {time}"
            ));
        }
        wrong("the variable for a gap outside".to_string());
        let above = "the number of gaps outside between the two events is above 0";
        wanted.push(format!("{start} {above}"));
    }
    assert_eq!(said, wanted);
}
