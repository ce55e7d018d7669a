//! The text form: what is printed from an instance's bytes reads back as the
//! same bytes and names, whatever the names are.

use std::collections::HashSet;
use testing::generate::{encode, instance, school_of_every_kind, Random, Shape};
use timetable::instance::{read, write, Instance, DAYS};
use timetable::school::{
    calendar_days, parse, print, read_names, write_names, Day, Names, Resource, ResourceSort,
    School,
};

const CASES: u64 = 3_000;

/// Printed and read again it is the same school, and so are the names by the side file.
fn comes_back(file: &[u8], names: Option<Names>, case: &str) {
    let instance = read(file).unwrap_or_else(|fault| panic!("{case}: {fault}"));
    let counts = instance.counts();
    let school = match names {
        Some(names) => School { instance, names },
        None => School::unnamed(instance),
    };
    let text = print(&school);
    let again = parse(&text).unwrap_or_else(|fault| panic!("{case}: {fault}\n{text}"));
    assert_eq!(write(&again.instance), file, "{case}\n{text}");
    assert_eq!(again, school, "{case}\n{text}");
    let side = write_names(&school.names, file);
    let names = read_names(&side, file, counts).unwrap_or_else(|fault| panic!("{case}: {fault}"));
    assert_eq!(names, school.names, "{case}\n{side}");
}

fn file(random: &mut Random) -> Vec<u8> {
    match random.below(20) {
        0 => encode(&school_of_every_kind(random, 40)),
        1 => encode(&instance(random, &Shape::school())),
        2..=10 => encode(&instance(random, &Shape::tiny())),
        _ => encode(&instance(random, &Shape::small())),
    }
}

#[test]
fn invented_names_come_back() {
    for seed in 0..CASES {
        comes_back(&file(&mut Random::new(seed)), None, &format!("seed {seed}"));
    }
}

#[test]
fn any_names_come_back() {
    for seed in 0..CASES {
        let random = &mut Random::new(seed);
        let file = file(random);
        let instance = read(&file).expect("an instance");
        let names = any_names(random, &instance);
        comes_back(&file, Some(names), &format!("seed {seed}"));
    }
}

#[test]
fn the_schools_come_back() {
    comes_back(include_bytes!("../../schools/toy.instance"), None, "toy");
    comes_back(
        include_bytes!("../../schools/small.instance"),
        None,
        "small",
    );
}

#[test]
fn names_for_other_bytes_are_refused() {
    let file = include_bytes!("../../schools/toy.instance");
    let school = School::unnamed(read(file).expect("a school"));
    let side = write_names(&school.names, file);
    let mut other = file.to_vec();
    *other.last_mut().expect("a byte") ^= 1;
    let fault = read_names(&side, &other, school.instance.counts()).expect_err("other bytes");
    assert_eq!(fault.line, 2);
    let fewer = side.replace("lesson-names L1 ", "lesson-names ");
    let fault = read_names(&fewer, file, school.instance.counts()).expect_err("a name less");
    assert_eq!(fault.message, "5 lessons are named, the instance has 6");
}

/// Names with spaces, quotes, words of the language and other hard cases.
fn any_names(random: &mut Random, instance: &Instance) -> Names {
    let counts = instance.counts();
    let mut used = HashSet::new();
    let mut fresh = |random: &mut Random| loop {
        let name = any_name(random);
        if used.insert(name.clone()) {
            return name;
        }
    };
    let days = match &instance.calendar {
        Some(calendar) => {
            let week: Vec<String> = (0..DAYS).map(|_| fresh(random)).collect();
            calendar_days(&week, calendar)
        }
        None => any_days(random, counts.times, &mut fresh),
    };
    let resource = |name, random: &mut Random| Resource {
        sort: random.pick(&ResourceSort::ALL),
        name,
    };
    let mut list =
        |random: &mut Random, count| -> Vec<String> { (0..count).map(|_| fresh(random)).collect() };
    let resources = list(random, counts.resources);
    Names {
        title: random.chance(50).then(|| any_name(random)),
        days,
        resources: resources
            .into_iter()
            .map(|name| resource(name, random))
            .collect(),
        lessons: list(random, counts.events),
        groups: list(random, counts.groups),
    }
}

/// Days of so many times, some of them without a name.
fn any_days(
    random: &mut Random,
    times: usize,
    fresh: &mut impl FnMut(&mut Random) -> String,
) -> Vec<Day> {
    let mut days = Vec::new();
    let mut left = times;
    while left > 0 {
        let count = 1 + random.below(left);
        let before = days
            .last()
            .map_or(Vec::new(), |day: &Day| day.periods.clone());
        let periods = match random.chance(60) && (1..=left).contains(&before.len()) {
            true => before,
            false => (0..count).map(|_| fresh(random)).collect(),
        };
        let count = periods.len();
        let name = random.chance(90).then(|| fresh(random));
        if name.is_none() && days.iter().any(|day: &Day| day.periods == periods) {
            continue; // times of no day with the names of others
        }
        days.push(Day { name, periods });
        left -= count;
    }
    days
}

fn any_name(random: &mut Random) -> String {
    const PARTS: &[&str] = &[
        "a", "in", "all", "none", "is", "1", " ", "\"", "\\", "#", ",", "é", "between", "to", "*.",
        ".", "Mon", "\n", "\t", "weight", "with", "every", "-", "days",
    ];
    let count = 1 + random.below(4);
    (0..count).map(|_| random.pick(PARTS)).collect()
}
