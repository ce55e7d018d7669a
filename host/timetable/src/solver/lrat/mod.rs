//! LRAT proofs, which name the clauses that each lemma follows from.
//!
//! A solver's hints may hold more than the checker wants: one that is true
//! already, one behind the conflict, one that is a unit only after a later one.
//! So each lemma is followed again with its own hints alone, and those that do
//! something are kept, in an order in which they do it. Deletions are kept.
//! A RAT step is refused: no list of hints that the checker reads spells it.

mod reading;
mod replay;

pub use reading::{from_text, Lrat};

use super::formula::Formula;
use super::proofs::{Observer, Steps};
use super::Fault;
use reading::{from_binary, NUMBERINGS};
use replay::Replay;

/// The steps of `proof` over the clauses of `formula`, with ids after theirs.
pub fn convert(
    formula: &Formula,
    proof: &Lrat,
    observer: &mut dyn Observer,
) -> Result<Steps, Fault> {
    Replay::new(formula).run(proof, observer)
}

/// The steps of a binary proof. Writers of binary LRAT differ in which ids they
/// double; the first reading under which every lemma follows is taken. Where
/// there is none, the fault is that of the reading that came furthest.
pub fn from_binary_over(
    formula: &Formula,
    proof: &[u8],
    observer: &mut dyn Observer,
) -> Result<Steps, Fault> {
    let mut furthest: Option<(usize, Fault)> = None;
    for numbering in NUMBERINGS {
        let mut replay = Replay::new(formula);
        let answer = from_binary(proof, numbering).and_then(|read| replay.follow(&read, observer));
        match answer {
            Ok(()) => return Ok(replay.into_steps()),
            Err(Fault::Stopped) => return Err(Fault::Stopped),
            Err(fault) => {
                let lemmas = replay.lemmas();
                if furthest.as_ref().is_none_or(|(most, _)| *most < lemmas) {
                    furthest = Some((lemmas, fault));
                }
            }
        }
    }
    let none = || Fault::Other("the proof cannot be read".to_string());
    Err(furthest.map_or_else(none, |(_, fault)| fault))
}
