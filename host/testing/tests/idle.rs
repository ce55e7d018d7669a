//! Idle times in one walk: what is kept after each member of a group, from 0 at its
//! start. Every row of up to twelve members; steps from numbers at their limits and
//! at random; and the score of kind 8 by the engine and the reference against walks
//! over its groups, on every tiny instance of one resource and on random ones. Two
//! wrong walks show that each comparison can fail.

mod support;

use support::both::{idle_step, score};
use support::models::assignments;
use testing::generate::{encode, instance, timetable, Random, Shape};
use testing::reference::{
    idle_times, kept, Constraint, Event, Infeasibility, Instance, Kept, Kind, Objective, Range,
    Score, LONGEST_LIST,
};

const MOST_MEMBERS: usize = 12;
const MOST_TIMES: usize = 5;

/// What is kept after each member of a row, from the start of a group on.
fn walk(step: impl Fn(Kept, u32) -> Kept, row: &[bool]) -> Vec<Kept> {
    let mut last = Kept::default();
    let members = row.iter().map(|&used| {
        last = step(last, u32::from(used));
        last
    });
    members.collect()
}

/// The count that is kept at the end of a row.
fn at_end(step: impl Fn(Kept, u32) -> Kept, row: &[bool]) -> u64 {
    let last = walk(step, row).last().copied();
    u64::from(last.unwrap_or_default().idle)
}

/// A wrong step, which counts free times before another X comes.
fn hasty(last: Kept, used: u32) -> Kept {
    Kept {
        idle: last.idle + u32::from(last.seen == 1 && used == 0),
        ..idle_step(last, used)
    }
}

/// The member after which a walk first keeps something else than it should.
fn first_fault(step: impl Fn(Kept, u32) -> Kept, row: &[bool]) -> Option<usize> {
    let found = walk(step, row);
    (0..row.len()).find(|&at| found[at] != kept(&row[..=at]))
}

/// Every row of twelve members; every shorter row is one of these, cut off.
fn rows() -> impl Iterator<Item = Vec<bool>> {
    let row = |set: u32| (0..MOST_MEMBERS).map(move |at| set >> at & 1 == 1);
    (0..1 << MOST_MEMBERS).map(move |set| row(set).collect())
}

#[test]
fn the_count_is_that_of_the_group_cut_off_there() {
    for row in rows() {
        assert_eq!(first_fault(idle_step, &row), None, "{row:?}");
        for (at, found) in walk(idle_step, &row).iter().enumerate() {
            assert_eq!(found.idle as usize, idle_times(&row[..=at]), "{row:?}");
        }
    }
}

/// It may end with the right count, but goes wrong on the way.
#[test]
fn a_hasty_walk_is_refused_at_the_first_free_time_after_an_x() {
    for row in rows() {
        let used = row.iter().position(|&used| used);
        let free = used.and_then(|first| (first..row.len()).find(|&at| !row[at]));
        assert_eq!(first_fault(hasty, &row), free, "{row:?}");
    }
    let row = [true, false, true];
    assert_eq!(at_end(hasty, &row), at_end(idle_step, &row));
}

/// The engine's answer is the reference's, as in every call here.
#[test]
fn steps_from_numbers_at_their_limits() {
    const EDGES: [u32; 8] = [0, 1, 2, 124, 125, 1 << 31, u32::MAX - 1, u32::MAX];
    for idle in EDGES {
        for since in EDGES {
            for seen in EDGES {
                for used in [0, 1, 2, 256, u32::MAX] {
                    let next = idle_step(Kept { idle, since, seen }, used);
                    assert!(next.idle >= idle && next.seen <= 1);
                }
            }
        }
    }
}

#[test]
fn steps_from_numbers_at_random() {
    let mut random = Random::new(3);
    for _ in 0..100_000 {
        let mut any = || match random.below(3) {
            0 => random.draw() as u32,
            1 => random.draw() as u32 >> random.below(32),
            _ => 0,
        };
        let [idle, since, seen, used] = [any(), any(), any(), any()];
        idle_step(Kept { idle, since, seen }, used);
    }
}

/// Kind 8 with 0 to 0 allowed, so that it deviates by its count.
fn idle(weight: u32, resource: usize, groups: Vec<usize>) -> Constraint {
    let range = Range { lo: 0, hi: 0 };
    let kind = Kind::Idle {
        resource,
        groups,
        range,
    };
    Constraint { weight, kind }
}

/// The rows of the groups of the only constraint: at each member, whether some event
/// with the resource takes that time.
fn rows_of(instance: &Instance, table: &[u8]) -> Vec<Vec<bool>> {
    let Kind::Idle {
        resource, groups, ..
    } = &instance.constraints[0].kind
    else {
        panic!("no other kind is tried");
    };
    let events = (0..instance.events.len()).filter(|&event| instance.uses(event, *resource));
    let events: Vec<usize> = events.collect();
    let used = |&time: &usize| {
        let takes = |&event: &usize| table[event * instance.times + time] == 1;
        events.iter().any(takes)
    };
    let row = |&group: &usize| instance.groups[group].iter().map(used).collect();
    groups.iter().map(row).collect()
}

/// How many timetables were scored, how many had idle times, and how many each wrong
/// walk would have given another count.
#[derive(Debug, Default)]
struct Tried {
    scored: usize,
    with_idle_times: usize,
    hasty: usize,
    /// One walk over all groups, which does not begin anew at each.
    carried: usize,
}

impl Tried {
    /// The score is the sum over the groups of what a walk keeps at their ends.
    fn compare(&mut self, instance: &Instance, file: &[u8], table: &[u8]) {
        let rows = rows_of(instance, table);
        let ends = |step: fn(Kept, u32) -> Kept| rows.iter().map(move |row| at_end(step, row));
        let count = ends(idle_step).sum();
        let (broken, cost) = match instance.constraints[0].weight {
            0 => (count, 0),
            weight => (0, u64::from(weight) * count),
        };
        let expected = Score {
            infeasibility: Infeasibility(broken),
            objective: Objective(cost),
        };
        assert_eq!(score(file, table), Ok(expected), "{instance:?}, {table:?}");
        self.scored += 1;
        self.with_idle_times += usize::from(count > 0);
        self.hasty += usize::from(ends(hasty).sum::<u64>() != count);
        self.carried += usize::from(at_end(idle_step, &rows.concat()) != count);
    }
}

/// All groups of `times` times.
fn groups(times: usize) -> impl Iterator<Item = Vec<usize>> {
    let members = move |set: usize| (0..times).filter(move |time| set >> time & 1 == 1);
    (0..1 << times).map(move |set| members(set).collect())
}

/// Events of these durations with the only resource, and kind 8 over all groups.
fn one_resource(times: usize, durations: &[usize], groups: Vec<Vec<usize>>) -> Instance {
    let event = |&duration: &usize| Event {
        duration,
        resources: vec![0],
    };
    Instance {
        times,
        resources: 1,
        calendar: None,
        events: durations.iter().map(event).collect(),
        constraints: vec![idle(1, 0, (0..groups.len()).collect())],
        groups,
    }
}

/// The timetables of one event: taken times and starts.
fn timetables(times: usize, duration: usize) -> Vec<(Vec<u8>, Vec<u8>)> {
    let alone = one_resource(times, &[duration], Vec::new());
    let file = encode(&alone);
    let kept = assignments(&alone).filter(|table| score(&file, table).is_ok());
    let halves = kept.map(|table| {
        let (taken, starts) = table.split_at(times);
        (taken.to_vec(), starts.to_vec())
    });
    halves.collect()
}

/// One event: every pair of groups, the two alike or one of them empty among them.
#[test]
fn one_event_in_every_two_groups() {
    let mut tried = Tried::default();
    for times in 1..=MOST_TIMES {
        for duration in 1..=times {
            let tables = timetables(times, duration);
            for first in groups(times) {
                for second in groups(times) {
                    let pair = vec![first.clone(), second];
                    let instance = one_resource(times, &[duration], pair);
                    let file = encode(&instance);
                    for (taken, starts) in &tables {
                        tried.compare(&instance, &file, &[&taken[..], starts].concat());
                    }
                }
            }
        }
    }
    println!("{tried:?}");
    assert_eq!(tried.scored, 99_396);
    assert!(tried.with_idle_times > 10_000 && tried.hasty > 30_000 && tried.carried > 30_000);
}

/// Two events, apart, side by side and at the same times: every group.
#[test]
fn two_events_in_every_group() {
    let mut tried = Tried::default();
    for times in 1..=MOST_TIMES {
        for first in 1..=times {
            for second in 1..=times {
                let [ones, twos] = [first, second].map(|duration| timetables(times, duration));
                for group in groups(times) {
                    let instance = one_resource(times, &[first, second], vec![group]);
                    let file = encode(&instance);
                    for one in &ones {
                        for two in &twos {
                            let table = [&one.0[..], &two.0, &one.1, &two.1].concat();
                            tried.compare(&instance, &file, &table);
                        }
                    }
                }
            }
        }
    }
    println!("{tried:?}");
    assert_eq!(tried.scored, 266_450);
    assert!(tried.with_idle_times > 10_000 && tried.hasty > 20_000);
}

/// Random instances, each with one kind 8, hard or soft. Few events leave free times.
#[test]
fn random_instances() {
    let small = Shape {
        resources: 1..=5,
        constraints: 0..=0,
        ..Shape::small()
    };
    let school = Shape {
        events: 5..=15,
        constraints: 0..=0,
        ..Shape::school()
    };
    let long = Shape {
        times: 100..=125,
        ..small.clone()
    };
    for shape in [small, school, long] {
        let mut tried = Tried::default();
        for seed in 0..1_000 {
            let mut random = Random::new(seed);
            let mut instance = instance(&mut random, &shape);
            instance.constraints = vec![random_idle(&mut random, &instance)];
            let file = encode(&instance);
            for _ in 0..3 {
                let table = timetable(&mut random, &instance);
                tried.compare(&instance, &file, &table);
            }
        }
        println!("{tried:?}");
        let least = tried.scored / 20;
        assert!(tried.with_idle_times > least && tried.hasty > least && tried.carried > least);
    }
}

/// Kind 8 for one of the resources over some of the groups, as many as its list can
/// have.
fn random_idle(random: &mut Random, instance: &Instance) -> Constraint {
    let weight = random.below(3) as u32;
    let resource = random.below(instance.resources);
    let mut groups = random.subset(instance.groups.len());
    loop {
        let constraint = idle(weight, resource, groups.clone());
        if instance.list_length(&constraint.kind) <= LONGEST_LIST {
            return constraint;
        }
        groups.pop();
    }
}
