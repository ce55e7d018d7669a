//! Why a call was refused, in words: what stands at the place that the refusal
//! names. Nothing here decides an answer; the engine has given it before.

mod clause;
mod form;
mod inputs;
mod instance;
pub mod outline;
mod solver_text;
mod step;
mod table;

use crate::engine::{is_of_instance, refusal, Refusal};
use crate::instance::read;
pub use inputs::{Inputs, Sort};
use outline::Outline;

/// What can be said of a refusal beside its own words, a line each.
pub fn reasons(refusal: Refusal, inputs: &Inputs) -> Vec<String> {
    let reason = match refusal.number {
        number if is_of_instance(number) => instance::reason(refusal, inputs.instance),
        refusal::TOO_MANY_VARIABLES => variables(inputs),
        refusal::WRONG_LENGTH => Some(table::wrong_length(inputs)),
        refusal::NOT_A_TIMETABLE => table::broken_event(inputs, refusal.value),
        refusal::CLAUSE_FALSE => false_clause(inputs, refusal.value),
        refusal::BAD_STEP..=refusal::BAD_END => step::reason(refusal, inputs),
        refusal::BAD_SOLVER_TEXT => solver_text::bad_place(inputs, refusal.value),
        refusal::NOT_GIVEN_ONCE => solver_text::not_given_once(inputs, refusal.value),
        _ => None,
    };
    let form = form::recognised(refusal, inputs).map(str::to_string);
    reason.into_iter().chain(form).collect()
}

/// How many variables a formula has that has too many.
fn variables(inputs: &Inputs) -> Option<String> {
    let outline = Outline::of(&read(inputs.instance).ok()?);
    let hard = outline.size().variables;
    let Some(bound) = inputs.bound else {
        return Some(format!("it has {hard}"));
    };
    let tail = outline.tail(bound).variables;
    Some(format!(
        "it has {}: {hard} without the tail, and {tail} of the tail for the bound {bound}",
        hard + tail
    ))
}

/// What the hard clause `id` means, which a model makes false.
fn false_clause(inputs: &Inputs, id: u64) -> Option<String> {
    let instance = read(inputs.instance).ok()?;
    Some(Outline::of(&instance).clause(id)?.says(&instance))
}
