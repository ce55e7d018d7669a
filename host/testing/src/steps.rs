//! Steps of bound proofs: their bytes, and other spellings of the same refutation.

use crate::reference::{write_number, Literal, ADD, DELETE};

/// A step of a bound proof.
#[derive(Clone, Debug, PartialEq, Eq)]
pub enum Step {
    Add {
        id: u32,
        literals: Vec<Literal>,
        hints: Vec<u32>,
    },
    Delete {
        ids: Vec<u32>,
    },
}

impl Step {
    pub fn hints(&self) -> &[u32] {
        match self {
            Step::Add { hints, .. } => hints,
            Step::Delete { .. } => &[],
        }
    }
}

/// The bytes of a list of steps.
pub fn encode_steps(steps: &[Step]) -> Vec<u8> {
    let mut proof = Vec::new();
    for step in steps {
        let numbers = match step {
            Step::Add {
                id,
                literals,
                hints,
            } => {
                proof.push(ADD);
                write_number(*id, &mut proof);
                for literal in literals {
                    write_number(literal.code(), &mut proof);
                }
                proof.push(0);
                hints
            }
            Step::Delete { ids } => {
                proof.push(DELETE);
                ids
            }
        };
        for &id in numbers {
            write_number(id, &mut proof);
        }
        proof.push(0);
    }
    proof
}

/// The refutation with every clause deleted after its last use, the formula's
/// clauses included.
pub fn with_deletions(formula: usize, steps: &[Step]) -> Vec<Step> {
    let ids = 1..=(formula + steps.len()) as u32;
    let mut last_use = vec![None; formula + steps.len() + 1];
    for (index, step) in steps.iter().enumerate() {
        if let Step::Add { id, .. } = step {
            last_use[*id as usize] = Some(index);
        }
        for &hint in step.hints() {
            last_use[hint as usize] = Some(index);
        }
    }
    let unused_after = |index: Option<usize>| -> Vec<u32> {
        let unused = ids.clone().filter(|&id| last_use[id as usize] == index);
        unused.collect()
    };
    let mut all = vec![Step::Delete {
        ids: unused_after(None),
    }];
    for (index, step) in steps.iter().enumerate() {
        all.push(step.clone());
        if index + 1 < steps.len() {
            all.push(Step::Delete {
                ids: unused_after(Some(index)),
            });
        }
    }
    all
}

/// The refutation with `gap` unused ids before each added clause.
pub fn with_gaps(formula: usize, steps: &[Step], gap: u32) -> Vec<Step> {
    let formula = formula as u32;
    renumbered(steps, |id| id + id.saturating_sub(formula) * gap)
}

/// The steps with other ids.
pub fn renumbered(steps: &[Step], number: impl Fn(u32) -> u32) -> Vec<Step> {
    let all = |ids: &[u32]| ids.iter().map(|&id| number(id)).collect();
    steps
        .iter()
        .map(|step| match step {
            Step::Add {
                id,
                literals,
                hints,
            } => Step::Add {
                id: number(*id),
                literals: literals.clone(),
                hints: all(hints),
            },
            Step::Delete { ids } => Step::Delete { ids: all(ids) },
        })
        .collect()
}
