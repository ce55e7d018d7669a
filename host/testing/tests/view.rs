//! Grids and charges of random timetables: the charges are the reference's
//! score, constraint by constraint, and a grid shows each lesson where it is.
#![cfg(feature = "engine")]

use testing::generate::{encode, instance, timetable, Random, Shape};
use testing::reference;
use timetable::instance::{read, KINDS};
use timetable::school::School;
use timetable::view::{grids, Subject, View};

const CASES: u64 = 3_000;

/// A random instance with a random timetable.
fn case(seed: u64) -> (reference::Instance, Vec<u8>) {
    let random = &mut Random::new(seed);
    let shape = random.pick(&[Shape::tiny as fn() -> Shape, Shape::small])();
    let instance = instance(random, &shape);
    let table = timetable(random, &instance);
    (instance, table)
}

fn school(instance: &reference::Instance) -> School {
    School::unnamed(read(&encode(instance)).expect("the file is accepted"))
}

#[test]
fn charges_are_the_score() {
    let mut charged = [0; KINDS.len()];
    for seed in 0..CASES {
        let (instance, table) = case(seed);
        let school = school(&instance);
        let view = View::new(&school, &table).expect("a timetable");
        let score = |instance: &reference::Instance| {
            let score = reference::score(&encode(instance), &table).expect("a score");
            (score.infeasibility.0, score.objective.0)
        };
        let totals = view.totals();
        assert_eq!(
            (totals.infeasibility, totals.objective),
            score(&instance),
            "seed {seed}"
        );
        for (number, charge) in view.charges.iter().enumerate() {
            let mut alone = instance.clone();
            alone.constraints = vec![instance.constraints[number].clone()];
            let amount = match charge.is_hard() {
                true => (charge.amount(), 0),
                false => (0, charge.amount()),
            };
            assert_eq!(amount, score(&alone), "seed {seed}, constraint {number}");
            let kind = school.instance.constraints[number].kind.facts().number as usize;
            charged[kind - 1] += usize::from(charge.deviation > 0);
        }
    }
    assert!(charged.iter().all(|&count| count > 50), "{charged:?}");
}

#[test]
fn places_are_where_the_subject_is() {
    for seed in 0..CASES {
        let (instance, table) = case(seed);
        let school = school(&instance);
        let view = View::new(&school, &table).expect("a timetable");
        for charge in &view.charges {
            assert!(charge.deviation > 0 || charge.places.is_empty());
            for place in &charge.places {
                if let Subject::Event(event) = place.subject {
                    assert!(view.sheet.takes(event, place.time), "seed {seed}");
                }
            }
        }
    }
}

#[test]
fn a_grid_shows_each_lesson_where_it_is() {
    for seed in 0..CASES / 10 {
        let (instance, table) = case(seed);
        let school = school(&instance);
        let view = View::new(&school, &table).expect("a timetable");
        let all: Vec<usize> = (0..instance.resources).collect();
        let grids = grids(&view, &all, true);
        let without = instance
            .events
            .iter()
            .any(|event| event.resources.is_empty());
        assert_eq!(grids.len(), instance.resources + usize::from(without));
        for grid in &grids {
            let mut shown = Vec::new();
            for cell in grid.rows.iter().flat_map(|row| row.cells.iter().flatten()) {
                shown.extend(cell.lessons.iter().map(|placed| (placed.lesson, cell.time)));
            }
            shown.sort_unstable();
            let mut taken = Vec::new();
            for (lesson, event) in instance.events.iter().enumerate() {
                let here = match grid.resource {
                    Some(resource) => event.resources.contains(&resource),
                    None => event.resources.is_empty(),
                };
                let times =
                    (0..instance.times).filter(|time| table[lesson * instance.times + time] == 1);
                taken.extend(times.filter(|_| here).map(|time| (lesson, time)));
            }
            assert_eq!(shown, taken, "seed {seed}");
        }
    }
}
