//! The inputs of the benchmarks are what they are said to be: accepted, as
//! large as they can be, with timetables that keep the hard constraints.

mod support;

use support::both::{check, decode, read, score, sizes, solver_text};
use testing::generate::{
    encode, idle_limits, idle_limits_in_windows, in_clock_time, long_lengths, long_tail, many_ors,
    many_variables, model, planned_school, scattered, school, wrapped, Plan, Random,
};
use testing::prover::{clause_list, lemmas};
use testing::reference::{Infeasibility, Instance, Refusal, LONGEST_LIST};
use testing::steps::{encode_steps, renumbered, with_gaps, Step};

/// The timetable keeps the hard constraints, and its model decodes to it.
fn keeps(instance: &Instance, table: &[u8]) {
    let file = encode(instance);
    let scored = score(&file, table).expect("a timetable");
    assert_eq!(scored.infeasibility, Infeasibility(0));
    let model = model(instance, table);
    assert_eq!(decode(&file, &model), Ok((table, scored.objective)));
}

#[test]
fn formulas_of_many_ors_are_kept_and_mostly_ors() {
    let mut random = Random::new(1);
    for (instance, table) in [many_ors(&mut random, 6), idle_limits(&mut random, 3)] {
        keeps(&instance, &table);
        let clauses = clause_list(&instance, None);
        let mut fewer = instance.clone();
        fewer.constraints.clear();
        let others = clause_list(&fewer, None).len();
        // A counter's clause names its last variable's row; an OR's pair has two literals.
        let pairs = clauses[others..].iter().filter(|clause| clause.len() == 2);
        assert!(pairs.count() > 3 * (clauses.len() - others) / 4);
    }
}

#[test]
fn the_longest_file_of_idle_limits_has_8_megabytes() {
    let (instance, _) = idle_limits(&mut Random::new(1), 4_096);
    let file = encode(&instance);
    assert!((7_800_000..8_100_000).contains(&file.len()));
    assert_eq!(read(&file).map(|summary| summary.constraints), Ok(4_096));
    let sizes = sizes(&file, Some(10)).expect("a formula that is small enough");
    assert!(sizes.clauses > 130_000_000);
}

/// 1,024 groups and 1,024 windows, all of them in each of 4,096 lists: the longest file.
#[test]
fn the_longest_file_of_a_calendar_has_16_megabytes() {
    let (instance, table) = idle_limits_in_windows(&mut Random::new(1), 3);
    keeps(&instance, &table);
    let lists = instance.constraints.iter();
    let mut lengths = lists.map(|one| instance.list_length(&one.kind));
    assert!(lengths.all(|length| length == LONGEST_LIST));
    let (instance, table) = idle_limits_in_windows(&mut Random::new(1), 4_096);
    let file = encode(&instance);
    assert!((16_200_000..16_400_000).contains(&file.len()));
    let found = read(&file).expect("as long as it may be");
    assert_eq!((found.times, found.groups), (125, 2_048));
    assert_eq!(found.constraints, 4_096);
    let score = score(&file, &table).expect("a timetable");
    assert_eq!(score.infeasibility, Infeasibility(0));
}

/// The windows of a school in clock time are the groups of the same school without it.
#[test]
fn schools_in_clock_time_have_the_same_groups() {
    for lessons in [20, 100] {
        let school = school(&mut Random::new(1), lessons);
        let timed = in_clock_time(&school);
        assert_eq!(timed.groups, school.groups);
        assert!(timed.time_groups().is_empty());
        let [file, other] = [&timed, &school].map(encode);
        assert_eq!(Instance::read(&file).as_ref(), Ok(&timed));
        assert_eq!(read(&file), read(&other));
        assert_eq!(sizes(&file, Some(10)), sizes(&other, Some(10)));
    }
}

/// A start of kind 9 at time t has 3 × (T + 2 − t) + 1 words; M has 7 × (T − 1) + 1.
#[test]
fn starts_as_long_as_the_week_have_25_000_words() {
    let (instance, table) = long_lengths(&mut Random::new(1), 180);
    keeps(&instance, &table);
    let words = |constraints: usize| {
        let mut fewer = instance.clone();
        fewer.constraints.truncate(constraints);
        sizes(&encode(&fewer), None)
            .expect("a formula that fits")
            .words
    };
    // A hard 0 to 0 counts in one column and has a unit.
    let counter = 3 + 1 + 124 * (11 - 4) + 1;
    let starts: u64 = (1..=125).map(|time| 3 * (127 - time) + 1).sum();
    let gates = words(1) - words(0) - counter;
    assert_eq!(gates, 7 * 124 + 1 + starts);
    assert!((24_000..25_500).contains(&gates));
}

#[test]
fn many_variables_are_exactly_as_many() {
    let (instance, table) = many_variables(&mut Random::new(1), 150_001);
    keeps(&instance, &table);
    let file = encode(&instance);
    for bound in [None, Some(0), Some(4_095)] {
        assert_eq!(
            sizes(&file, bound).map(|sizes| sizes.variables),
            Ok(150_001)
        );
    }
    let (instance, _) = many_variables(&mut Random::new(1), 8_000_000);
    let sizes = sizes(&encode(&instance), Some(0)).expect("as many as may be");
    assert_eq!(sizes.variables, 8_000_000);
}

/// Texts of a model of many variables, in lines as solvers print them and a line for
/// each literal in any order, and without the last literal.
#[test]
fn texts_of_many_variables_are_read() {
    let variables = 150_001;
    let (instance, table) = many_variables(&mut Random::new(1), variables as u64);
    let file = encode(&instance);
    let model = model(&instance, &table);
    let (_, cost) = decode(&file, &model).expect("a model");
    let read = |text: &[u8]| solver_text(&file, text, variables, variables);
    let filled = Ok((model.clone(), table.len(), cost));
    let lines = wrapped(&model, 78);
    assert!(lines
        .split(|&byte| byte == b'\n')
        .all(|line| line.len() <= 78));
    assert_eq!(read(&lines), filled);
    let scattered = scattered(&mut Random::new(1), &model, 2);
    let count = scattered.iter().filter(|&&byte| byte == b'\n').count();
    assert_eq!(count, variables + 1);
    assert_eq!(read(&scattered), filled);
    let missing = wrapped(&model[..variables - 1], 78);
    let value = variables as u64;
    assert_eq!(read(&missing), Err(Refusal { number: 21, value }));
}

#[test]
fn a_long_tail_leaves_no_room_for_another_list() {
    let (instance, table) = long_tail(&mut Random::new(1), 4_095, 8_000_000);
    keeps(&instance, &table);
    let sizes = sizes(&encode(&instance), Some(4_095)).expect("a tail that fits");
    // Ten times lie outside. Of a lesson of duration 4 the nine after the first have
    // three gates each and three more times two: thirteen rows of the tail.
    let gates = 9 * 3 + 3 * 2;
    assert!(sizes.variables + 13 * 4_096 + 13 * 13 + gates > 8_000_000);
}

#[test]
fn learned_clauses_follow_with_gaps_too() {
    let mut random = Random::new(1);
    let plan = Plan {
        lessons: 12,
        periods: 4,
    };
    let instance = planned_school(&mut random, plan);
    let file = encode(&instance);
    let sizes = sizes(&file, Some(10)).expect("a small formula");
    let clauses = clause_list(&instance, Some(10));
    let decided = 2 * instance.events.len() * instance.times;
    let variables = [sizes.variables as usize, decided];
    let steps = lemmas(&mut random, variables, &clauses, 2_000);
    let hints: usize = steps.iter().map(|step| step.hints().len()).sum();
    assert!(hints >= 2_000);
    let formula = clauses.len();
    let one = renumbered(&steps, |id| id + u32::from(id as usize > formula));
    for steps in [steps.clone(), one, with_gaps(formula, &steps, 1)] {
        let words: usize = steps.iter().map(literals).sum();
        let lent = [
            sizes.words + words as u64,
            sizes.clauses + steps.len() as u64,
        ];
        let proof = encode_steps(&steps);
        let answer = check(&file, 10, &proof, lent[0], lent[1], sizes.variables);
        let value = steps.len() as u64;
        assert_eq!(answer, Err(Refusal { number: 18, value }));
    }
}

fn literals(step: &Step) -> usize {
    match step {
        Step::Add { literals, .. } => literals.len(),
        Step::Delete { .. } => 0,
    }
}
