//! The engine against the reference on many seeded inputs, valid and damaged:
//! `support::both` compares every byte of every buffer after each call.
//!
//! `DIFFERENTIAL_SEED` is the first seed and `DIFFERENTIAL_CASES` the number of
//! cases, where others are wanted than the gate's.

mod support;

use std::collections::BTreeMap;
use std::env;
use std::panic::{catch_unwind, AssertUnwindSafe};
use std::thread;
use std::time::{Duration, Instant};
use support::both::{
    best, check, check_hard, decode, read, same_sheet, score, sizes, solver_text, text, text_size,
};
use support::{long_list, oversized, same_event};
use testing::forgeries::forgeries;
use testing::generate::{
    damaged_bytes, damaged_calendar, damaged_instance, damaged_numbers, damaged_table,
    damaged_text, encode, idle_limits_in_windows, in_clock_time, instance, lent, model, printed,
    proof, school_of_every_kind, timetable, wrapped, Random, Shape,
};
use testing::prover::{clause_list, solve, Verdict};
use testing::reference::{self, Instance, Refusal, Sizes};
use testing::steps::{encode_steps, with_deletions, with_gaps};
use timetable::engine;

/// Cases of a run where a call takes some microseconds, and where it walks over
/// the clauses; how long the cases may take.
const CASES: u64 = 20_000;
const FORMULAS: u64 = 6_000;
const LIMIT: Duration = Duration::from_secs(600);

#[test]
fn files_are_read_alike() {
    let seen = each_seed(CASES, |random| {
        let file = any_file(random);
        number_of(read(&file))
    });
    assert_eq!(seen, [0, 1, 2, 3, 4, 5, 6, 19, 22]);
}

#[test]
fn formulas_are_sized_alike() {
    let seen = each_seed(CASES, |random| {
        let file = match random.below(10) {
            0 => any_file(random),
            1 => encode(&instance(random, &many_units())),
            _ => mostly_accepted(random).0,
        };
        let bound = any_bound(random);
        number_of(sizes(&file, Some(bound)))
    });
    assert_eq!(seen, [0, 1, 2, 3, 4, 5, 6, 7, 8, 19, 22]);
}

#[test]
fn timetables_are_scored_alike() {
    let seen = each_seed(CASES, |random| {
        let (file, instance) = mostly_accepted(random);
        let table = any_table(random, &instance);
        number_of(score(&file, &table))
    });
    assert_eq!(seen, [0, 1, 2, 3, 4, 5, 6, 10, 11, 12, 19, 22]);
}

#[test]
fn timetables_are_compared_alike() {
    let seen = each_seed(CASES, |random| {
        let (file, instance) = mostly_accepted(random);
        let first = any_table(random, &instance);
        let second = match random.below(3) {
            0 => first.clone(),
            1 => damaged_table(random, &first),
            _ => any_table(random, &instance),
        };
        number_of(same_sheet(&file, &first, &second))
    });
    assert_eq!(seen, [0, 1, 2, 3, 4, 5, 6, 10, 11, 12, 19, 22]);
}

#[test]
fn texts_are_written_alike() {
    let seen = each_seed(FORMULAS, |random| {
        let file = any_formula(random).0;
        let length = text_size(&file).unwrap_or(0);
        let mut out = vec![random.draw() as u8; lent(random, length) as usize];
        let answer = text(&file, &mut out);
        if let Ok(written) = engine::text(&file) {
            assert_eq!(written.len() as u64, length);
            assert!(answer.is_err() || written == out[..length as usize]);
        }
        number_of(answer)
    });
    assert_eq!(seen, [0, 1, 2, 3, 4, 5, 6, 8, 9, 19, 22]);
}

#[test]
fn models_are_decoded_alike() {
    let seen = each_seed(FORMULAS, |random| {
        let (file, instance) = any_formula(random);
        let model = model(&instance, &timetable(random, &instance));
        let model = match random.below(3) {
            0 => damaged_table(random, &model),
            _ => model,
        };
        let answer = decode(&file, &model);
        assert_eq!(engine::decode(&file, &model), answer);
        number_of(answer)
    });
    assert_eq!(seen, [0, 1, 2, 3, 4, 5, 6, 8, 10, 11, 13, 19, 22]);
}

#[test]
fn texts_of_solvers_are_read_alike() {
    let seen = each_seed(FORMULAS / 2, |random| {
        let (file, instance) = any_formula(random);
        let mut model = model(&instance, &timetable(random, &instance));
        let variables = model.len();
        if random.below(4) == 0 {
            model[random.below(variables)] ^= 1;
        }
        let text = any_solver_text(random, &model);
        // A longer store is no fault.
        let store = variables + random.pick(&[0, 0, 1, 99]);
        let fits = solver_text(&file, &text, variables, store);
        if file == encode(&instance) {
            assert_eq!(engine::solver_text(&file, &text), fits);
        }
        if random.below(4) > 0 {
            return number_of(fits);
        }
        let [model, store] = [(); 2].map(|()| lent(random, variables as u64) as usize);
        number_of(solver_text(&file, &text, model, store))
    });
    assert_eq!(seen, [0, 1, 2, 3, 4, 5, 6, 8, 9, 10, 13, 19, 20, 21, 22]);
}

#[test]
fn proofs_are_checked_alike() {
    let seen = each_seed(FORMULAS, |random| {
        let instance = instance(random, &refutable());
        let bound = match random.below(40) {
            0 => any_bound(random),
            _ => random.below(4) as u64,
        };
        let file = match random.below(100) {
            0 => oversized(),
            1 => long_list(),
            2 => same_event(),
            3..=6 => any_file(random),
            _ => any_file_of(random, &instance),
        };
        let Ok(sizes) = Sizes::of(&instance, Some(bound)) else {
            return number_of(check(&file, bound, &[], 0, 0, 0));
        };
        let proof = any_proof(random, &instance, Some(bound), sizes);
        // What the wrapper lends is never too short for the proof.
        let [words, rows, bytes] = ample_for(sizes, &proof);
        let ample = check(&file, bound, &proof, words, rows, bytes);
        if file == encode(&instance) {
            assert_eq!(engine::check(&file, bound, &proof), ample);
        }
        if random.below(3) == 0 {
            return number_of(ample);
        }
        let [words, rows, bytes] = scant_for(random, sizes, &proof);
        number_of(check(&file, bound, &proof, words, rows, bytes))
    });
    assert_eq!(
        seen,
        [0, 1, 2, 3, 4, 5, 6, 7, 8, 9, 14, 15, 16, 17, 18, 19, 22]
    );
}

#[test]
fn proofs_without_the_tail_are_checked_alike() {
    let seen = each_seed(FORMULAS, |random| {
        let soft = random.pick(&[0, 50, 100]);
        let instance = instance(
            random,
            &Shape {
                soft,
                ..refutable()
            },
        );
        let file = match random.below(100) {
            0 => oversized(),
            1 => long_list(),
            2 => same_event(),
            3..=6 => any_file(random),
            _ => any_file_of(random, &instance),
        };
        let sizes = Sizes::of(&instance, None).expect("a small formula");
        let proof = any_proof(random, &instance, None, sizes);
        let ample = check_hard(&file, &proof, ample_for(sizes, &proof));
        if file == encode(&instance) {
            assert_eq!(engine::check_hard(&file, &proof), ample);
        }
        match random.below(3) {
            0 => number_of(ample),
            _ => number_of(check_hard(&file, &proof, scant_for(random, sizes, &proof))),
        }
    });
    assert_eq!(
        seen,
        [0, 1, 2, 3, 4, 5, 6, 8, 9, 14, 15, 16, 17, 18, 19, 22]
    );
}

#[test]
fn best_models_are_found_alike() {
    let seen = each_seed(FORMULAS, |random| {
        let dear = random.below(50) == 0;
        let soft = random.pick(&[90, 100]);
        let shape = match dear {
            true => many_units(),
            false => Shape {
                soft,
                ..refutable()
            },
        };
        let instance = instance(random, &shape);
        let file = match random.below(100) {
            0 => oversized(),
            1 => long_list(),
            2 => same_event(),
            3..=6 => any_file(random),
            _ => any_file_of(random, &instance),
        };
        let model = model(&instance, &timetable(random, &instance));
        let model = match random.below(10) {
            0 => damaged_table(random, &model),
            _ => model,
        };
        if dear {
            // Most often the cost is above every bound.
            return number_of(best(&file, &model, &[], [0, 0, 0]));
        }
        let cost = reference_cost(&instance, &model);
        let bound = cost.saturating_sub(1);
        let Ok(sizes) = Sizes::of(&instance, Some(bound)) else {
            return number_of(best(&file, &model, &[], [0, 0, 0]));
        };
        let proof = any_proof(random, &instance, Some(bound), sizes);
        let ample = best(&file, &model, &proof, ample_for(sizes, &proof));
        if file == encode(&instance) {
            assert_eq!(engine::best(&file, &model, &proof), ample);
        }
        match random.below(3) {
            0 => number_of(ample),
            _ => number_of(best(
                &file,
                &model,
                &proof,
                scant_for(random, sizes, &proof),
            )),
        }
    });
    assert_eq!(
        seen,
        [0, 1, 2, 3, 4, 5, 6, 7, 8, 9, 10, 11, 13, 14, 15, 16, 17, 18, 19, 22]
    );
}

#[test]
fn large_timetables_are_scored_alike() {
    for events in [400, 1_024] {
        let mut random = Random::new(first_seed());
        let instance = school_of_every_kind(&mut random, events);
        let file = encode(&instance);
        let in_windows = encode(&in_clock_time(&instance));
        for _ in 0..20 {
            let table = timetable(&mut random, &instance);
            let scored = score(&file, &table);
            assert!(scored.is_ok());
            assert_eq!(score(&in_windows, &table), scored);
            assert_eq!(same_sheet(&file, &table, &table), Ok(true));
            let damaged = damaged_table(&mut random, &table);
            let _ = score(&file, &damaged);
        }
    }
}

#[test]
fn every_prefix_of_a_file_is_read_alike() {
    for file in [
        &include_bytes!("../../schools/toy.instance")[..],
        &include_bytes!("../../schools/small.instance")[..],
    ] {
        for length in 0..=file.len() {
            assert_eq!(read(&file[..length]).is_ok(), length == file.len());
        }
    }
}

#[test]
fn every_byte_of_a_file_changed_is_read_alike() {
    let file = include_bytes!("../../schools/toy.instance");
    for at in 0..file.len() {
        for byte in 0..=u8::MAX {
            let mut file = file.to_vec();
            file[at] = byte;
            let accepted = read(&file);
            let sized = sizes(&file, Some(u64::from(byte)));
            assert_eq!(accepted.err(), sized.err());
        }
    }
}

#[test]
fn every_byte_of_a_model_changed_is_decoded_alike() {
    let file = include_bytes!("../../schools/toy.instance");
    let model = include_bytes!("../../schools/toy.model");
    for at in 0..model.len() {
        for change in [1, 2] {
            let mut model = model.to_vec();
            model[at] ^= change;
            assert!(decode(file, &model).is_err());
        }
    }
}

#[test]
fn every_prefix_of_a_proof_is_checked_alike() {
    let file = include_bytes!("../../schools/toy.instance");
    let proof = include_bytes!("../../schools/toy.proof");
    for length in 0..=proof.len() {
        let answer = check(file, 2, &proof[..length], 12_016, 4_809, 1_466);
        assert_eq!(answer.is_ok(), length == proof.len());
    }
}

#[test]
fn every_byte_of_a_proof_changed_is_checked_alike() {
    let mut random = Random::new(first_seed());
    let file = include_bytes!("../../schools/toy.instance");
    let proof = include_bytes!("../../schools/toy.proof");
    for at in 0..proof.len() {
        let mut proof = proof.to_vec();
        proof[at] ^= 1 << random.below(8);
        let _ = check(file, 2, &proof, 12_033, 4_816, 1_466);
    }
}

/// The stack that include/timetable.h names is enough.
#[test]
fn calls_fit_the_stack_that_the_header_names() {
    // As many groups and windows as there may be.
    let (instance, placed) = idle_limits_in_windows(&mut Random::new(1), 1);
    let most_groups = encode(&instance);
    let filled = model(&instance, &placed);
    let stack = 1024 * 1024;
    let calls = thread::Builder::new().stack_size(stack).spawn(move || {
        let file = include_bytes!("../../schools/small.instance");
        let table = include_bytes!("../../schools/small.timetable");
        assert!(engine::read(file).is_ok());
        assert!(engine::sizes(file, 7).is_ok());
        assert!(engine::score(file, table).is_ok());
        assert!(engine::same_sheet(file, table, table).is_ok());
        assert!(engine::text(file).is_ok());
        let model = include_bytes!("../../schools/small.model");
        assert!(engine::decode(file, model).is_ok());
        assert!(engine::solver_text(file, &wrapped(model, 78)).is_ok());
        let proof = include_bytes!("../../schools/small.proof");
        assert!(engine::check(file, 7, proof).is_ok());
        assert!(engine::check_hard(file, proof).is_err());
        assert!(engine::best(file, model, proof).is_ok());
        assert!(engine::score(&most_groups, &placed).is_ok());
        assert!(engine::text(&most_groups).is_ok());
        assert!(engine::decode(&most_groups, &filled).is_ok());
        assert!(engine::check(&most_groups, 7, &[]).is_err());
    });
    calls.expect("a thread").join().expect("the calls return");
}

/// Runs the cases of a test, each with its own seed, within the time limit.
/// Gives the numbers that the engine returned.
fn each_seed(cases: u64, case: impl Fn(&mut Random) -> u32) -> Vec<u32> {
    let first = first_seed();
    let count = number("DIFFERENTIAL_CASES").unwrap_or(cases);
    println!("seeds {first} to {}", first + count - 1);
    let limit = LIMIT * count.div_ceil(cases) as u32;
    let start = Instant::now();
    let mut seen = BTreeMap::new();
    for seed in first..first + count {
        let mut random = Random::new(seed);
        match catch_unwind(AssertUnwindSafe(|| case(&mut random))) {
            Ok(number) => *seen.entry(number).or_insert(0) += 1,
            Err(_) => panic!("seed {seed}"),
        }
        assert!(
            start.elapsed() < limit,
            "seed {seed}: the cases take more than {limit:?}"
        );
    }
    println!("numbers returned, with how often: {seen:?}");
    seen.into_keys().collect()
}

fn first_seed() -> u64 {
    number("DIFFERENTIAL_SEED").unwrap_or(1)
}

fn number(variable: &str) -> Option<u64> {
    let text = env::var(variable).ok()?;
    Some(text.parse().expect("a number"))
}

/// The number that a call returned.
fn number_of<T>(answer: Result<T, Refusal>) -> u32 {
    answer.err().map_or(0, |refusal| refusal.number)
}

/// A bound, most often a small one.
fn any_bound(random: &mut Random) -> u64 {
    match random.below(10) {
        0 => 4_094 + random.below(4) as u64,
        1 => random.draw() >> random.below(64),
        2..=4 => random.below(4_096) as u64,
        _ => random.below(60) as u64,
    }
}

/// An instance of any shape.
fn any_instance(random: &mut Random) -> Instance {
    let shape = match random.below(20) {
        0 => Shape::school(),
        1 => long_lists(),
        2..=7 => Shape::tiny(),
        _ => Shape::small(),
    };
    // That a timetable keeps the hard constraints does not matter here.
    let feasible = false;
    instance(random, &Shape { feasible, ..shape })
}

/// An instance and its file, which may be damaged.
fn mostly_accepted(random: &mut Random) -> (Vec<u8>, Instance) {
    let instance = any_instance(random);
    (any_file_of(random, &instance), instance)
}

/// A timetable of an instance, or what damage makes of one.
fn any_table(random: &mut Random, instance: &Instance) -> Vec<u8> {
    let table = timetable(random, instance);
    match random.below(3) {
        0 => damaged_table(random, &table),
        _ => table,
    }
}

/// An instance and its file for an operation on its clauses. Hard constraints
/// are few, so that many models are accepted; some files are damaged or
/// have too many variables.
fn any_formula(random: &mut Random) -> (Vec<u8>, Instance) {
    let shape = match random.below(500) {
        0 => Shape::school(),
        1 => long_lists(),
        2..=200 => Shape::tiny(),
        _ => Shape::small(),
    };
    let soft = random.pick(&[50, 90, 100]);
    let feasible = false;
    let instance = instance(
        random,
        &Shape {
            soft,
            feasible,
            ..shape
        },
    );
    let file = match random.below(100) {
        0 => oversized(),
        1 => long_list(),
        2 => same_event(),
        _ => any_file_of(random, &instance),
    };
    (file, instance)
}

/// A model printed in any form, damaged in one way or another, or words in any order.
fn any_solver_text(random: &mut Random, model: &[u8]) -> Vec<u8> {
    const WORDS: [&[u8]; 14] = [
        b"v", b"c", b"o", b"s", b" ", b" ", b"\n", b"\n", b"0", b"-", b"1", b"2", b"x", b"\r",
    ];
    match random.below(8) {
        0 => {
            let text = printed(random, model).text();
            damaged_bytes(random, &text)
        }
        1 => {
            let text = wrapped(model, 2 + random.below(90));
            damaged_bytes(random, &text)
        }
        // Longer ones are damaged byte by byte alone.
        2..=4 if model.len() < 10_000 => damaged_text(random, model).text,
        5 => {
            let words = (0..random.below(30)).map(|_| random.pick(&WORDS));
            words.collect::<Vec<_>>().concat()
        }
        _ => printed(random, model).text(),
    }
}

/// The file of an instance; of ten files one is damaged, and more with a calendar.
fn any_file_of(random: &mut Random, instance: &Instance) -> Vec<u8> {
    match random.below(20) {
        0 => encode(&damaged_instance(random, instance)),
        1 => damaged_numbers(random, &encode(instance)),
        2 => with_damaged_calendar(random, instance),
        _ => encode(instance),
    }
}

/// The file of an instance, of which the calendar is damaged if there is one.
fn with_damaged_calendar(random: &mut Random, instance: &Instance) -> Vec<u8> {
    let damaged = damaged_calendar(random, instance).map(|damaged| damaged.file);
    damaged.unwrap_or_else(|| encode(instance))
}

/// A proof for the formula of an instance, with its tail if there is a bound,
/// honest, forged or damaged; random steps where there is none.
fn any_proof(
    random: &mut Random,
    instance: &Instance,
    bound: Option<u64>,
    sizes: Sizes,
) -> Vec<u8> {
    let clauses = clause_list(instance, bound);
    let variables = sizes.variables as usize;
    let honest = match solve(variables, &clauses) {
        Verdict::Refutation(steps) => match random.below(4) {
            0 => encode_steps(&steps),
            1 => encode_steps(&with_deletions(clauses.len(), &steps)),
            2 => encode_steps(&with_gaps(clauses.len(), &steps, 7)),
            _ => {
                let mut forged = forgeries(random, variables, clauses.len(), &steps);
                forged.swap_remove(random.below(forged.len())).proof
            }
        },
        Verdict::Model(_) => proof(random, sizes.variables, sizes.clauses),
    };
    match random.below(4) {
        0 => damaged_numbers(random, &honest),
        1 => damaged_bytes(random, &honest),
        _ => honest,
    }
}

/// Words, rows and bytes that are never too short for the proof.
fn ample_for(sizes: Sizes, proof: &[u8]) -> [u64; 3] {
    let more = proof.len() as u64;
    [sizes.words + more, sizes.clauses + more, sizes.variables]
}

/// Words, rows and bytes that are room for a part of the proof, or near the
/// formula's own sizes.
fn scant_for(random: &mut Random, sizes: Sizes, proof: &[u8]) -> [u64; 3] {
    match random.below(2) {
        0 => [
            sizes.words + random.below(proof.len() + 1) as u64 / 2,
            sizes.clauses + random.below(proof.len() + 1) as u64 / 8,
            sizes.variables,
        ],
        _ => [sizes.words, sizes.clauses, sizes.variables].map(|fits| lent(random, fits)),
    }
}

/// The cost of a model by the reference; 0 where it is refused.
fn reference_cost(instance: &Instance, model: &[u8]) -> u64 {
    reference::decode(&encode(instance), model).map_or(0, |(_, cost)| cost.0)
}

/// An instance file, valid or damaged, or any bytes.
fn any_file(random: &mut Random) -> Vec<u8> {
    let instance = any_instance(random);
    match random.below(7) {
        0 => encode(&instance),
        1 => encode(&damaged_instance(random, &instance)),
        2 => damaged_bytes(random, &encode(&instance)),
        3 => (0..random.below(40)).map(|_| random.draw() as u8).collect(),
        4 => with_damaged_calendar(random, &instance),
        _ => damaged_numbers(random, &encode(&instance)),
    }
}

/// Instances whose counted lists come near 255.
fn long_lists() -> Shape {
    Shape {
        times: 100..=125,
        events: 2..=5,
        constraints: 5..=9,
        ..Shape::small()
    }
}

/// Tiny instances with constraints that often cannot all be kept at a low cost.
fn refutable() -> Shape {
    Shape {
        times: 2..=4,
        events: 1..=3,
        resources: 1..=2,
        groups: 1..=3,
        constraints: 2..=7,
        ..Shape::tiny()
    }
}

/// Instances with many soft units, so that a high bound gives a long tail.
fn many_units() -> Shape {
    Shape {
        times: 20..=40,
        events: 5..=20,
        constraints: 60..=120,
        soft: 100,
        ..Shape::small()
    }
}
