//! The reasons for refusals on many seeded inputs: each refusal that has a
//! reason is given one, and none stops the program.
#![cfg(feature = "engine")]

mod support;

use std::collections::BTreeMap;
use support::{long_list, oversized};
use testing::forgeries::forgeries;
use testing::generate::{
    damaged_bytes, damaged_calendar, damaged_instance, damaged_numbers, damaged_table, encode,
    instance, model, proof, timetable, Random, Shape,
};
use testing::prover::{clause_list, solve, Verdict};
use testing::reference::{self, Instance};
use timetable::diagnosis::{reasons, Inputs, Sort};
use timetable::engine::{self, Refusal};

/// How often each refusal was met, with one of its reasons.
#[derive(Default)]
struct Met(BTreeMap<u32, (usize, String)>);

impl Met {
    /// Asks for the reasons of an answer, if it is a refusal.
    fn answer<T>(&mut self, answer: Result<T, Refusal>, inputs: &Inputs) {
        let Err(refusal) = answer else {
            return;
        };
        let found = reasons(refusal, inputs);
        // The bound says it all for 7, and the byte for 11.
        let told = [7, 11].contains(&refusal.number) || !found.is_empty();
        assert!(told, "{refusal:?} {:?} {:x?}", inputs.bound, inputs.file);
        let entry = self.0.entry(refusal.number).or_default();
        entry.0 += 1;
        entry.1 = found.concat();
    }

    /// Every refusal of `numbers` was met.
    fn all(&self, numbers: &[u32]) {
        println!("{:#?}", self.0);
        for number in numbers {
            assert!(self.0.contains_key(number), "{number} was not met");
        }
    }
}

fn inputs<'a>(instance: &'a [u8], bound: Option<u64>, file: &'a [u8], sort: Sort) -> Inputs<'a> {
    Inputs {
        instance,
        bound,
        file,
        sort,
    }
}

fn tiny_or_small(random: &mut Random) -> Instance {
    let shape = match random.chance(50) {
        true => Shape::tiny(),
        false => Shape::small(),
    };
    instance(random, &shape)
}

#[test]
fn of_instances() {
    let mut met = Met::default();
    for seed in 0..4_000 {
        let mut random = Random::new(seed);
        let good = tiny_or_small(&mut random);
        let file = match (random.below(4), damaged_calendar(&mut random, &good)) {
            (0, _) => encode(&damaged_instance(&mut random, &good)),
            (1, _) => damaged_numbers(&mut random, &encode(&good)),
            (2, Some(damaged)) => damaged.file,
            _ => damaged_bytes(&mut random, &encode(&good)),
        };
        met.answer(
            engine::read(&file),
            &inputs(&file, None, &file, Sort::Instance),
        );
    }
    let long = long_list();
    met.answer(
        engine::read(&long),
        &inputs(&long, None, &long, Sort::Instance),
    );
    let large = oversized();
    let bound = Some(3);
    met.answer(
        engine::sizes(&large, 3),
        &inputs(&large, bound, &large, Sort::Instance),
    );
    met.answer(
        engine::text(&large),
        &inputs(&large, None, &large, Sort::Instance),
    );
    met.all(&[1, 2, 3, 4, 5, 6, 8, 19, 22]);
}

#[test]
fn of_timetables_and_models() {
    let mut met = Met::default();
    for seed in 0..3_000 {
        let mut random = Random::new(seed);
        let instance = tiny_or_small(&mut random);
        let file = encode(&instance);
        let table = timetable(&mut random, &instance);
        let damaged = damaged_table(&mut random, &table);
        met.answer(
            engine::score(&file, &damaged),
            &inputs(&file, None, &damaged, Sort::Timetable),
        );
        let damaged = damaged_table(&mut random, &model(&instance, &table));
        met.answer(
            engine::decode(&file, &damaged),
            &inputs(&file, None, &damaged, Sort::Model),
        );
    }
    met.all(&[10, 11, 12, 13]);
}

#[test]
fn of_proofs() {
    let mut met = Met::default();
    for seed in 0..300 {
        let mut random = Random::new(seed);
        let instance = instance(&mut random, &Shape::tiny());
        let file = encode(&instance);
        let bound = random.below(4) as u64;
        let sizes = reference::sizes(&file, Some(bound)).expect("a small formula");
        let clauses = clause_list(&instance, Some(bound));
        let mut proofs = vec![proof(&mut random, sizes.variables, sizes.clauses)];
        if let Verdict::Refutation(steps) = solve(sizes.variables as usize, &clauses) {
            let forged = forgeries(&mut random, sizes.variables as usize, clauses.len(), &steps);
            proofs.extend(forged.into_iter().map(|forgery| forgery.proof));
        }
        for proof in proofs.clone() {
            proofs.push(damaged_numbers(&mut random, &proof));
        }
        for proof in proofs {
            // The proof may be checked for a bound that it was not made for.
            for bound in [bound, bound + 1] {
                met.answer(
                    engine::check(&file, bound, &proof),
                    &inputs(&file, Some(bound), &proof, Sort::Proof),
                );
            }
        }
    }
    met.all(&[14, 15, 16, 18]);
}
