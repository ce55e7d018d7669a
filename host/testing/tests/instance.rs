//! The typed instance against the reference: files are accepted and refused
//! alike, written back byte by byte, and each number has its name.

mod support;

use std::collections::BTreeSet;
use support::long_list;
use testing::generate::{
    damaged_bytes, damaged_calendar, damaged_instance, damaged_numbers, encode, instance,
    number_starts, Random, Shape,
};
use testing::reference;
use timetable::instance::{field_at, read, write, Entry, Part};

const CASES: u64 = 4_000;

fn accepted(random: &mut Random) -> Vec<u8> {
    let shape = random.pick(&[Shape::tiny as fn() -> Shape, Shape::small])();
    encode(&instance(random, &shape))
}

fn damaged(random: &mut Random) -> Vec<u8> {
    let shape = Shape::small();
    let whole = instance(random, &shape);
    let in_calendar = damaged_calendar(random, &whole);
    match random.below(8) {
        0 => long_list(),
        1..=3 if in_calendar.is_some() => in_calendar.map_or_else(Vec::new, |found| found.file),
        1 | 2 => encode(&damaged_instance(random, &whole)),
        3 | 4 => damaged_bytes(random, &encode(&whole)),
        _ => damaged_numbers(random, &encode(&whole)),
    }
}

#[test]
fn an_accepted_file_is_written_back() {
    for seed in 0..CASES {
        let file = accepted(&mut Random::new(seed));
        let typed = read(&file).unwrap_or_else(|fault| panic!("seed {seed}: {fault}"));
        assert_eq!(write(&typed), file, "seed {seed}");
    }
}

#[test]
fn files_are_refused_as_by_the_reference() {
    let mut seen = BTreeSet::new();
    for seed in 0..CASES {
        let file = damaged(&mut Random::new(seed));
        match (read(&file), reference::read(&file)) {
            (Ok(typed), Ok(_)) => assert_eq!(write(&typed), file, "seed {seed}"),
            (Err(fault), Err(refusal)) => {
                let offset = fault.field.offset as u64;
                assert_eq!((fault.number(), offset), (refusal.number, refusal.value));
                let met = field_at(&file, fault.field.offset).expect("the fault has a field");
                assert_eq!(met.value, fault.field.value, "seed {seed}");
                seen.insert(refusal.number);
            }
            (typed, answer) => panic!("seed {seed}: {typed:?} and {answer:?}"),
        }
    }
    assert_eq!(seen, BTreeSet::from([1, 2, 3, 4, 5, 6, 19, 22]));
}

#[test]
fn each_number_of_a_file_has_a_name() {
    for seed in 0..200 {
        let file = accepted(&mut Random::new(seed));
        let starts = number_starts(&file);
        let mut names = BTreeSet::new();
        for &start in &starts {
            let field = field_at(&file, start).expect("a number starts here");
            let value = field.value.expect("it is well formed");
            assert!(field.limits.contains(&value), "{}", field.path);
            names.insert(field.path.to_string());
        }
        assert_eq!(names.len(), starts.len(), "no two names are equal");
        let end = field_at(&file, file.len()).expect("the file ends here");
        assert_eq!(end.path.part, Part::End);
    }
}

/// File A of the specification with a spread over two events.
const SPREAD: &[u8] = &[2, 2, 0, 1, 0, 1, 0, 1, 1, 2, 1, 5, 4, 2, 1, 2, 1, 0, 1];

#[test]
fn a_path_is_told_in_words() {
    let path = |offset| field_at(SPREAD, offset).expect("a number").path.to_string();
    assert_eq!(path(0), "number of times");
    assert_eq!(path(3), "event 1, duration");
    assert_eq!(path(6), "event 2, resource list, count");
    assert_eq!(path(9), "group 1, times, entry 1");
    assert_eq!(path(11), "constraint 1, kind");
    assert_eq!(path(12), "constraint 1, kind spread, weight");
    assert_eq!(path(15), "constraint 1, kind spread, event list, entry 2");
    assert_eq!(path(17), "constraint 1, kind spread, lo");
    assert_eq!(path(19), "after the last constraint");
}

#[test]
fn a_refused_file_has_names_up_to_its_fault() {
    let mut file = SPREAD.to_vec();
    file[15] = 9; // an event that does not exist
    let fault = read(&file).expect_err("there is no event 9");
    assert_eq!((fault.number(), fault.field.offset), (3, 15));
    assert_eq!(
        fault.to_string(),
        "constraint 1, kind spread, event list, entry 2: 9 names nothing, 2 to 2 are there"
    );
    let field = field_at(&file, 15).expect("a number");
    assert_eq!((field.value, field.limits), (Some(9), 2..=2));
    assert_eq!(field.path.entry, Entry::Member(2));
    assert_eq!(field_at(&file, 16), None);
    assert_eq!(field_at(&file, 1_000), None);
}
