//! Proofs for checks. None but the recorded ones has the empty clause, so that
//! they are answered with 18 after their last step.

use testing::generate::Random;
use testing::reference::{read_number, walk_with_tail, write_number};
use testing::reference::{Instance, Literal, Sink, ADD};
use testing::steps::Step;

/// The hard clauses and the tail's, one after another.
pub struct Clauses {
    words: Vec<Literal>,
    ends: Vec<usize>,
}

impl Sink for Clauses {
    fn hard(&mut self, clause: &[Literal]) {
        self.words.extend_from_slice(clause);
        self.ends.push(self.words.len());
    }

    fn soft(&mut self, _weight: u32, _unit: Literal) {}
}

impl Clauses {
    pub fn of(instance: &Instance, bound: u64) -> Clauses {
        let mut clauses = Clauses {
            words: Vec::new(),
            ends: Vec::new(),
        };
        walk_with_tail(instance, bound, &mut clauses);
        clauses
    }

    pub fn count(&self) -> usize {
        self.ends.len()
    }

    fn clause(&self, index: usize) -> &[Literal] {
        let first = if index == 0 { 0 } else { self.ends[index - 1] };
        &self.words[first..self.ends[index]]
    }
}

/// A step that adds a clause by one hint.
fn write_step(proof: &mut Vec<u8>, id: usize, literals: &[Literal], hint: usize) {
    proof.push(ADD);
    write_number(id as u32, proof);
    for literal in literals {
        write_number(literal.code(), proof);
    }
    proof.push(0);
    write_number(hint as u32, proof);
    proof.push(0);
}

/// Each clause added once more.
pub fn copies(clauses: &Clauses) -> Vec<u8> {
    let mut proof = Vec::new();
    for index in 0..clauses.count() {
        let id = clauses.count() + index + 1;
        write_step(&mut proof, id, clauses.clause(index), index + 1);
    }
    proof
}

/// So many clauses of the formula added once more, and then copies of these,
/// in an order at random: half of the hints name a clause of the proof.
pub fn second_copies(random: &mut Random, clauses: &Clauses, copies: usize) -> Vec<Step> {
    let count = clauses.count();
    let chosen: Vec<usize> = (0..copies).map(|_| random.below(count)).collect();
    let step = |(at, (index, hint)): (usize, (usize, usize))| Step::Add {
        id: (count + at + 1) as u32,
        literals: clauses.clause(index).to_vec(),
        hints: vec![hint as u32],
    };
    let first = chosen.iter().map(|&index| (index, index + 1));
    let again = (0..copies).map(|_| {
        let copy = random.below(copies);
        (chosen[copy], count + copy + 1)
    });
    first.chain(again).enumerate().map(step).collect()
}

/// Clauses of so many literals that hold the formula's first, each a copy of
/// the one before.
pub fn long_clauses(clauses: &Clauses, length: usize, count: usize) -> Vec<u8> {
    let first = clauses.clause(0);
    let others = (1..).map(Literal::positive);
    let new = others.filter(|literal| !first.iter().any(|l| l.variable() == literal.variable()));
    let mut literals = first.to_vec();
    literals.extend(new.take(length - first.len()));
    let mut proof = Vec::new();
    for at in 0..count {
        let hint = if at == 0 { 1 } else { clauses.count() + at };
        write_step(&mut proof, clauses.count() + at + 1, &literals, hint);
    }
    proof
}

/// The steps of an accepted proof.
pub fn steps_of(proof: &[u8]) -> Vec<Step> {
    let mut at = 0;
    let mut steps = Vec::new();
    while at < proof.len() {
        let adds = proof[at] == ADD;
        at += 1;
        if !adds {
            let ids = list(proof, &mut at);
            steps.push(Step::Delete { ids });
            continue;
        }
        let id = number(proof, &mut at);
        let codes = list(proof, &mut at);
        steps.push(Step::Add {
            id,
            literals: codes.into_iter().filter_map(Literal::from_code).collect(),
            hints: list(proof, &mut at),
        });
    }
    steps
}

/// The numbers before a 0.
fn list(proof: &[u8], at: &mut usize) -> Vec<u32> {
    let numbers = std::iter::from_fn(|| Some(number(proof, at)).filter(|&number| number > 0));
    numbers.collect()
}

fn number(proof: &[u8], at: &mut usize) -> u32 {
    let (number, end) = read_number(proof, *at).expect("a number");
    *at = end;
    number
}
