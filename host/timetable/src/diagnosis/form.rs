//! Files of another sort: text where bytes are wanted, a solver's proof where
//! steps are wanted, a model where a timetable is wanted.

use super::inputs::{Inputs, Sort};
use crate::engine::{refusal, Refusal};
use crate::solver::drat;

/// What a refused file seems to be, and what makes of it what is wanted.
pub fn recognised(refusal: Refusal, inputs: &Inputs) -> Option<&'static str> {
    let text = is_text(inputs.file);
    match inputs.sort {
        Sort::Instance if text && inputs.file.starts_with(b"<") => {
            Some("this is XML: 'timetable import' makes an instance of it")
        }
        Sort::Instance if text => {
            Some("this is text: 'timetable compile' makes an instance of a school's text")
        }
        Sort::Model if text => {
            Some("this is text: 'timetable model' makes a model of what a solver prints")
        }
        Sort::Timetable if text => {
            Some("this is text: a timetable is what 'timetable decode' writes")
        }
        Sort::Proof if text => {
            Some("this is text: 'timetable steps' makes steps of a solver's proof")
        }
        Sort::Proof if is_drat(refusal, inputs.file) => Some(
            "this can be read as a solver's binary DRAT proof: 'timetable steps' makes steps of it",
        ),
        _ => None,
    }
}

/// Whether the first bytes are all text, and enough of them to tell.
fn is_text(bytes: &[u8]) -> bool {
    const LOOKED_AT: usize = 4_096;
    const ENOUGH: usize = 4;
    let bytes = &bytes[..bytes.len().min(LOOKED_AT)];
    let text = |&byte: &u8| matches!(byte, b' '..=b'~' | b'\t' | b'\n' | b'\r');
    bytes.len() >= ENOUGH && bytes.iter().all(text)
}

/// Whether a refused proof is one of a solver's: its steps have no ids and no
/// hints, so it is misread from its first step on.
fn is_drat(refusal: Refusal, proof: &[u8]) -> bool {
    let misread = refusal::BAD_STEP..=refusal::BAD_END;
    let reads = || drat::from_binary(proof).is_ok_and(|steps| !steps.is_empty());
    misread.contains(&refusal.number) && refusal.value <= 1 && reads()
}
