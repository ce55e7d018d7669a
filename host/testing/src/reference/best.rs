//! The best model: decoding, then a check at one below the cost.

use super::model::decode;
use super::proof::check;
use timetable::engine::{Objective, Refusal};

/// A model's cost, with the number of steps of a proof that nothing costs less;
/// a cost of 0 needs none. The refusals of decoding, then those of the check.
pub fn best(
    file: &[u8],
    model: &[u8],
    proof: &[u8],
    [words, rows, bytes]: [u64; 3],
) -> Result<(Objective, u64), Refusal> {
    let (_, cost) = decode(file, model)?;
    let steps = match cost.0 {
        0 => 0,
        cost => check(file, cost - 1, proof, words, rows, bytes)?,
    };
    Ok((cost, steps))
}
