//! What a proof is to show, and what that is for a solver and for the engine.

use crate::engine::{self, Refusal};
use crate::solver::formula::Formula;
use crate::solver::Fault;

/// A claim that the engine checks proofs of.
#[derive(Clone, Copy, Debug, PartialEq, Eq)]
pub enum Claim {
    /// No timetable that keeps the hard constraints costs so much or less.
    Bound(u64),
    /// There is none, whatever it costs.
    AnyCost,
}

impl Claim {
    /// How its files are named.
    pub fn name(self) -> String {
        match self {
            Claim::Bound(bound) => format!("bound-{bound}"),
            Claim::AnyCost => "hard".to_string(),
        }
    }

    /// The bound, if there is one.
    pub fn bound(self) -> Option<u64> {
        match self {
            Claim::Bound(bound) => Some(bound),
            Claim::AnyCost => None,
        }
    }

    /// The clauses that have a model unless it holds: `hard`, those of `file`,
    /// and for a bound the tail.
    pub fn formula(self, file: &[u8], hard: &Formula) -> Result<Formula, Fault> {
        match self {
            Claim::Bound(bound) => {
                let size = engine::sizes(file, bound)?;
                hard.clone().with_tail(bound, size)
            }
            Claim::AnyCost => Ok(hard.clone()),
        }
    }

    /// Has the engine check a proof of it, and gives the number of steps.
    pub fn check(self, file: &[u8], proof: &[u8]) -> Result<u64, Refusal> {
        match self {
            Claim::Bound(bound) => engine::check(file, bound, proof),
            Claim::AnyCost => engine::check_hard(file, proof),
        }
    }
}
