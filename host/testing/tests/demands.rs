//! The match of models and timetables, and the meaning of "no timetable", on
//! tiny random instances: every assignment of Y and S is tried.

mod support;

use support::both::{check, decode, score, sizes};
use support::models::{assignments, feasible_cost, timetables, Models};
use testing::forgeries::forgeries;
use testing::generate::{
    damaged_bytes, damaged_numbers, encode, instance, model, model_with_tail, proof, Random, Shape,
};
use testing::prover::{clause_list, solve, Verdict};
use testing::reference::{Instance, Kind, Objective, Refusal, Sizes};
use testing::steps::{encode_steps, Step};
use timetable::proof::{room, Room};

/// Shapes with at most 12 variables Y and S.
fn shapes() -> [Shape; 5] {
    let shape = |times, events| Shape {
        times,
        events,
        resources: 1..=2,
        groups: 1..=3,
        constraints: 1..=5,
        feasible: true,
        ..Shape::tiny()
    };
    [
        Shape::tiny(),
        shape(2..=3, 2..=2),
        shape(2..=2, 2..=3),
        shape(3..=6, 1..=1),
        Shape {
            feasible: false,
            ..shape(3..=3, 2..=2)
        },
    ]
}

/// Shapes with more variables, but few timetables.
fn larger_shapes() -> [Shape; 2] {
    let shape = Shape {
        times: 3..=4,
        events: 3..=4,
        resources: 1..=3,
        groups: 2..=3,
        constraints: 4..=8,
        feasible: true,
        ..Shape::tiny()
    };
    [
        shape.clone(),
        Shape {
            times: 5..=5,
            events: 2..=3,
            feasible: false,
            ..shape
        },
    ]
}

/// The instance of a seed.
fn drawn(seed: u64, shapes: &[Shape]) -> (Random, Instance) {
    let mut random = Random::new(seed);
    let shape = &shapes[seed as usize % shapes.len()];
    let instance = instance(&mut random, shape);
    (random, instance)
}

/// For each kind, hard then soft, how often it was drawn.
#[derive(Default)]
struct Drawn([[usize; 2]; 11]);

impl Drawn {
    fn count(&mut self, instance: &Instance) {
        for constraint in &instance.constraints {
            let kind = match constraint.kind {
                Kind::Clash { .. } => 0,
                Kind::Unavailable { .. } => 1,
                Kind::PreferredTimes { .. } => 2,
                Kind::Split { .. } => 3,
                Kind::Spread { .. } => 4,
                Kind::BusyLimit { .. } => 5,
                Kind::Cluster { .. } => 6,
                Kind::Idle { .. } => 7,
                Kind::Distribute { .. } => 8,
                Kind::Lengths { .. } => 9,
                Kind::Precedence { .. } => 10,
            };
            self.0[kind][usize::from(constraint.weight > 0)] += 1;
        }
    }
}

#[test]
fn feasible_timetables_and_models_match_one_to_one() {
    const SEEDS: u64 = 500;
    let mut drawn_kinds = Drawn::default();
    let (mut timetables, mut broken, mut costly) = (0, 0, 0);
    for seed in 0..SEEDS {
        let (_, instance) = drawn(seed, &shapes());
        drawn_kinds.count(&instance);
        let file = encode(&instance);
        let variables = sizes(&file, None).unwrap().variables as usize;
        let models = Models::of(&instance, variables);
        for table in assignments(&instance) {
            let found = models.extending(&table);
            match feasible_cost(&file, &table) {
                Some(cost) => {
                    timetables += 1;
                    costly += usize::from(cost > 0);
                    assert_eq!(found.len(), 1, "seed {seed}, timetable {table:?}");
                    let decoded = decode(&file, &found[0]);
                    assert_eq!(
                        decoded,
                        Ok((&table[..], Objective(cost))),
                        "seed {seed}, timetable {table:?}"
                    );
                    assert_eq!(
                        found[0],
                        model(&instance, &table),
                        "seed {seed}, timetable {table:?}"
                    );
                }
                None => {
                    broken += 1;
                    assert!(found.is_empty(), "seed {seed}, assignment {table:?}");
                    let extended = model(&instance, &table);
                    assert_eq!(decode(&file, &extended).unwrap_err().number, 13);
                }
            }
        }
    }
    println!("seeds 0..{SEEDS}: {timetables} timetables, {costly} of them with cost, {broken} other assignments");
    println!(
        "constraints drawn, hard and soft by kind: {:?}",
        drawn_kinds.0
    );
    assert!(timetables > 1_000 && broken > 1_000 && costly > 1_000);
    for counts in drawn_kinds.0 {
        assert!(counts[0] >= 10 && counts[1] >= 10);
    }
}

#[test]
fn timetables_are_the_accepted_assignments() {
    for seed in 0..40 {
        let (_, instance) = drawn(seed, &shapes());
        let file = encode(&instance);
        let mut listed = timetables(&instance);
        let mut accepted: Vec<Vec<u8>> = assignments(&instance)
            .filter(|table| score(&file, table).is_ok())
            .collect();
        listed.sort();
        accepted.sort();
        assert_eq!(listed, accepted, "seed {seed}");
    }
}

/// At each bound the prover's refutation is accepted, with forged variants
/// answered as they should be, if and only if no timetable costs so little.
fn refute_each_bound(seeds: std::ops::Range<u64>, shapes: &[Shape]) {
    let (mut refuted, mut satisfied, mut most_steps) = (0, 0, 0);
    for seed in seeds.clone() {
        let (mut random, instance) = drawn(seed, shapes);
        let file = encode(&instance);
        let costs: Vec<u64> = timetables(&instance)
            .iter()
            .filter_map(|table| feasible_cost(&file, table))
            .collect();
        let least = costs.iter().min().copied();
        let most = least.map_or(2, |least| least + 2);
        let mut last_proof = Vec::new();
        for bound in 0..=most {
            let sizes = sizes(&file, Some(bound)).unwrap();
            let clauses = clause_list(&instance, Some(bound));
            let variables = sizes.variables as usize;
            let run = |proof: &[u8]| check_amply(&file, bound, proof, sizes);
            match solve(variables, &clauses) {
                Verdict::Refutation(steps) => {
                    refuted += 1;
                    most_steps = most_steps.max(steps.len());
                    assert!(
                        least.is_none_or(|least| least > bound),
                        "seed {seed}, bound {bound}"
                    );
                    last_proof = encode_steps(&steps);
                    assert_eq!(
                        run(&last_proof),
                        Ok(steps.len() as u64),
                        "seed {seed}, bound {bound}"
                    );
                    stores_that_just_fit(&file, bound, &steps);
                    for forgery in forgeries(&mut random, variables, clauses.len(), &steps) {
                        assert_eq!(
                            run(&forgery.proof),
                            forgery.answer,
                            "seed {seed}, bound {bound}: {}",
                            forgery.name
                        );
                    }
                }
                Verdict::Model(values) => {
                    satisfied += 1;
                    let bytes: Vec<u8> = values.iter().map(|&value| u8::from(value)).collect();
                    let table = &bytes[..2 * instance.events.len() * instance.times];
                    let cost = feasible_cost(&file, table);
                    assert!(
                        cost.is_some_and(|cost| cost <= bound),
                        "seed {seed}, bound {bound}"
                    );
                    assert_eq!(bytes, model_with_tail(&instance, table, bound));
                    // No proof at all is accepted here.
                    assert!(run(&last_proof).is_err(), "seed {seed}, bound {bound}");
                    for _ in 0..20 {
                        let random_proof = proof(&mut random, sizes.variables, sizes.clauses);
                        assert!(run(&random_proof).is_err(), "seed {seed}, bound {bound}");
                        let changed = damaged_numbers(&mut random, &last_proof);
                        assert!(run(&changed).is_err(), "seed {seed}, bound {bound}");
                    }
                }
            }
        }
    }
    println!(
        "seeds {seeds:?}: {refuted} bounds refuted in up to {most_steps} steps, \
         {satisfied} satisfied"
    );
    assert!(refuted > 100 && satisfied > 100);
}

/// The answer in stores with room for a clause or a literal at each byte of the
/// proof beside the formula.
fn check_amply(file: &[u8], bound: u64, proof: &[u8], sizes: Sizes) -> Result<u64, Refusal> {
    let more = proof.len() as u64;
    let (words, rows) = (sizes.words + more, sizes.clauses + more);
    check(file, bound, proof, words, rows, sizes.variables)
}

/// One word or row less than the refutation needs is 17 at its last clause
/// that is not empty.
fn stores_that_just_fit(file: &[u8], bound: u64, steps: &[Step]) {
    let sizes = sizes(file, Some(bound)).unwrap();
    let lengths: Vec<u64> = steps
        .iter()
        .map(|step| match step {
            Step::Add { literals, .. } => literals.len() as u64,
            Step::Delete { .. } => 0,
        })
        .collect();
    let words = sizes.words + lengths.iter().sum::<u64>();
    let rows = sizes.clauses + lengths.iter().filter(|&&length| length > 0).count() as u64;
    let last = lengths.iter().rposition(|&length| length > 0);
    let proof = encode_steps(steps);
    let added = Room {
        words: (words - sizes.words) as usize,
        rows: (rows - sizes.clauses) as usize,
    };
    assert_eq!(room(&proof), added);
    let run = |words, rows| check(file, bound, &proof, words, rows, sizes.variables);
    assert_eq!(run(words, rows), Ok(steps.len() as u64));
    let refusal = match last {
        Some(at) => Refusal {
            number: 17,
            value: at as u64 + 1,
        },
        None => Refusal {
            number: 9,
            value: 0,
        },
    };
    assert_eq!(run(words - 1, rows), Err(refusal));
    assert_eq!(run(words, rows - 1), Err(refusal));
}

#[test]
fn refutations_are_accepted_exactly_below_the_least_cost() {
    refute_each_bound(0..500, &shapes());
}

#[test]
fn longer_refutations_are_accepted_exactly_below_the_least_cost() {
    refute_each_bound(0..200, &larger_shapes());
}

/// A refutation at one below the least cost, its ids moved to the formula at
/// the least cost and then damaged, is always refused there.
#[test]
fn damaged_refutations_are_refused_at_the_least_cost() {
    const SEEDS: std::ops::Range<u64> = 1_000..1_400;
    let mut proofs = 0;
    for seed in SEEDS {
        let (mut random, instance) = drawn(seed, &shapes());
        let file = encode(&instance);
        let costs = timetables(&instance);
        let costs = costs.iter().filter_map(|table| feasible_cost(&file, table));
        let Some(cost) = costs.min().filter(|&cost| cost > 0) else {
            continue;
        };
        let below = clause_list(&instance, Some(cost - 1));
        let variables = sizes(&file, Some(cost - 1)).unwrap().variables as usize;
        let Verdict::Refutation(steps) = solve(variables, &below) else {
            panic!("seed {seed}: no timetable costs less than {cost}");
        };
        let sizes = sizes(&file, Some(cost)).unwrap();
        let formula = below.len() as u32;
        let more = sizes.clauses as u32 - formula;
        let steps: Vec<Step> = steps
            .into_iter()
            .map(|step| moved(step, formula, more))
            .collect();
        let honest = encode_steps(&steps);
        for _ in 0..200 {
            let mut changed = honest.clone();
            for _ in 0..random.below(4) {
                changed = match random.chance(50) {
                    true => damaged_numbers(&mut random, &changed),
                    false => damaged_bytes(&mut random, &changed),
                };
            }
            let answer = check_amply(&file, cost, &changed, sizes);
            assert!(answer.is_err(), "seed {seed}, bound {cost}");
            proofs += 1;
        }
    }
    println!("seeds {SEEDS:?}: {proofs} proofs refused");
    assert!(proofs > 2_000);
}

/// The step with every id above `formula` raised by `more`.
fn moved(step: Step, formula: u32, more: u32) -> Step {
    let raised = |id: u32| if id > formula { id + more } else { id };
    match step {
        Step::Add {
            id,
            literals,
            hints,
        } => Step::Add {
            id: raised(id),
            literals,
            hints: hints.into_iter().map(raised).collect(),
        },
        Step::Delete { ids } => Step::Delete {
            ids: ids.into_iter().map(raised).collect(),
        },
    }
}
