//! DRAT and DRUP proofs, which name no hints, turned into the steps of a bound
//! proof.
//!
//! A forward pass adds the lemmas one by one and propagates the units that they
//! make, up to a conflict. A backward pass goes from the conflict to the first
//! lemma: a lemma that something later needs is looked at under the clauses
//! before it, by unit propagation that prefers clauses already needed; the
//! clauses of the conflict become its hints. Lemmas that nothing needs are left
//! out.
//!
//! Literals that hold without any assumption become unit clauses of their own,
//! where they are needed, so that no step repeats how they follow.
//!
//! A lemma that does not follow by unit propagation is refused: a RAT step is
//! sound for solvers, but no list of hints spells it.

mod arena;
mod backward;
mod forward;
mod matching;
mod propagation;
mod reading;
mod writing;

pub use reading::{from_binary, from_text, Drat};

use super::formula::Formula;
use super::proofs::{Observer, Steps};
use super::Fault;
use backward::Backward;
use forward::Forward;

/// The steps of `proof` over the clauses of `formula`, with ids after theirs.
pub fn elaborate(
    formula: &Formula,
    proof: &Drat,
    observer: &mut dyn Observer,
) -> Result<Steps, Fault> {
    let forward = Forward::run(formula, proof, observer)?;
    let ignored_deletions = forward.ignored_deletions;
    let backward = Backward::run(forward, observer)?;
    Ok(writing::write(&backward, ignored_deletions))
}

#[cfg(test)]
mod tests {
    use super::{elaborate, from_text};
    use crate::solver::formula::Formula;
    use crate::solver::proofs::{steps, Quiet, Steps};
    use crate::solver::Fault;

    /// Every pair of signs of two variables, which has no model.
    const SQUARE: &str = "p wcnf 3 4 1\n1 1 2 0\n1 1 -2 0\n1 -1 2 0\n1 -1 -2 0\n";

    fn turned(clauses: &str, proof: &str) -> Result<Steps, Fault> {
        let formula = Formula::from_text(clauses.as_bytes())?;
        let proof = from_text(proof.as_bytes())?;
        let turned = elaborate(&formula, &proof, &mut Quiet)?;
        // The steps are spelt as binary LRAT is, so they can be followed again.
        let again = steps(&formula, &turned.bytes, &mut Quiet)?;
        assert_eq!(again.bytes, turned.bytes);
        Ok(turned)
    }

    #[test]
    fn a_lemma_gets_its_hints() {
        let found = turned(SQUARE, "1 0\n0\n").unwrap();
        // (1) by two clauses; then (2) by one more, and the last is false.
        assert_eq!(found.bytes[..6], [b'a', 5, 2, 0, 1, 2]);
        assert_eq!((found.lemmas, found.kept), (1, 3));
    }

    #[test]
    fn lemmas_that_nothing_needs_are_left_out() {
        let plain = turned(SQUARE, "1 0\n").unwrap();
        for longer in [
            "1 2 3 0\n1 0\n",
            "1 3 0\n1 -3 0\nd 1 3 0\n1 0\n",
            "1 0\n2 3 0\n0\n",
        ] {
            assert_eq!(
                turned(SQUARE, longer).unwrap().bytes,
                plain.bytes,
                "{longer}"
            );
        }
    }

    #[test]
    fn deletions_are_kept_to_where_they_do_no_harm() {
        // The unit stays, and a clause that is not there cannot go.
        let found = turned(SQUARE, "1 0\nd 1 0\nd 1 3 0\nd 7 0\n0\n").unwrap();
        assert_eq!(found.ignored_deletions, 0, "the conflict comes before them");
        let chain = "p wcnf 3 5 1\n1 1 2 0\n1 1 -2 0\n1 -1 3 0\n1 -2 -3 0\n1 2 -3 0\n";
        let found = turned(chain, "d 1 3 0\nd 1 2 3 0\nd 9 0\n1 0\n").unwrap();
        assert_eq!(found.ignored_deletions, 3);
        // Without that clause there is a model.
        assert!(turned(SQUARE, "d 2 1 0\n1 0\n").is_err());
        assert!(turned(SQUARE, "d 2 1 0\n-1 0\n").is_err());
    }

    #[test]
    fn a_formula_that_propagation_refutes_needs_no_lemma() {
        let units = "p wcnf 2 3 1\n1 1 0\n1 -1 2 0\n1 -2 0\n";
        let found = turned(units, "").unwrap();
        assert_eq!((found.lemmas, found.kept), (0, 1));
        let twice = "p wcnf 1 2 1\n1 1 0\n1 -1 0\n";
        assert_eq!(turned(twice, "0\n").unwrap().kept, 1);
        assert!(turned("p wcnf 1 1 1\n1 1 0\n", "0\n").is_err());
        assert!(turned("p wcnf 1 1 1\n1 1 0\n", "").is_err());
    }
}
