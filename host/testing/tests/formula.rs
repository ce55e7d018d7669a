//! Facts about the clauses of random instances.

use testing::generate::{instance, Random, Shape};
use testing::reference::{
    deviation, walk, walk_with_tail, Instance, Literal, Range, Sink, Sizes, LARGEST_FORMULA,
};

/// Counts what is handed over, and checks the form of each clause.
#[derive(Default)]
struct Counted {
    clauses: u64,
    words: u64,
    soft: u64,
    weights: u64,
    occurs: Vec<bool>,
}

impl Sink for Counted {
    fn hard(&mut self, clause: &[Literal]) {
        assert!(!clause.is_empty());
        assert!(clause
            .windows(2)
            .all(|pair| pair[0].variable() < pair[1].variable()));
        self.clauses += 1;
        self.words += clause.len() as u64;
        for literal in clause {
            let variable = literal.variable() as usize;
            if self.occurs.len() < variable {
                self.occurs.resize(variable, false);
            }
            self.occurs[variable - 1] = true;
        }
    }

    fn soft(&mut self, weight: u32, unit: Literal) {
        assert!(self.occurs[unit.variable() as usize - 1]);
        self.soft += 1;
        self.weights += u64::from(weight);
    }
}

fn counted(instance: &Instance, bound: Option<u64>) -> Sizes {
    let mut counted = Counted::default();
    match bound {
        Some(bound) => walk_with_tail(instance, bound, &mut counted),
        None => walk(instance, &mut counted),
    }
    assert!(counted.occurs.iter().all(|&occurs| occurs));
    Sizes {
        variables: counted.occurs.len() as u64,
        clauses: counted.clauses,
        words: counted.words,
        soft: counted.soft,
        top: 1 + counted.weights,
    }
}

/// Sizes by arithmetic are those of the clauses handed over. Literals ascend,
/// and every variable occurs.
#[test]
fn sizes_by_arithmetic_are_those_of_the_clauses() {
    println!("seeds 0..400");
    for seed in 0..400 {
        let mut random = Random::new(seed);
        let shape = match seed % 50 {
            0 => Shape::school(),
            1..=20 => Shape::tiny(),
            _ => Shape::small(),
        };
        let instance = instance(&mut random, &shape);
        let bounds = [None, Some(0), Some(1), Some(random.below(60) as u64)];
        for bound in bounds {
            let sizes = Sizes::of(&instance, bound).unwrap();
            assert!(sizes.variables <= LARGEST_FORMULA);
            assert_eq!(
                counted(&instance, bound),
                sizes,
                "seed {seed}, bound {bound:?}"
            );
        }
    }
}

/// hi lowered to the list's length changes no deviation of a possible count.
#[test]
fn lowering_hi_changes_no_deviation() {
    for length in 0..6 {
        for lo in 0..=length as u32 {
            for hi in lo..9 {
                for count in 0..=length {
                    let lowered = Range {
                        lo,
                        hi: hi.min(length as u32),
                    };
                    let written = Range { lo, hi };
                    assert_eq!(deviation(count, written), deviation(count, lowered));
                }
            }
        }
    }
}
