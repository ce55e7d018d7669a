//! The operations, each with the buffers that it asks for.

use super::answers::{
    accepted, FormulaSize, Infeasibility, Kept, Objective, Refusal, Score, Summary,
};
use super::call::{self, Amounts, Counts};
use super::limits::MOST_VARIABLES;
use super::refusals::refusal;
use super::store::Store;

/// Reads an instance file: accepted, or 1 to 6, 19, 22.
pub fn read(file: &[u8]) -> Result<Summary, Refusal> {
    let mut counts = Counts::default();
    let mut value = 0;
    let number = call::read(file, &mut counts, &mut value);
    accepted(number, value)?;
    Ok(Summary {
        times: counts.times as usize,
        events: counts.events as usize,
        resources: counts.resources as usize,
        groups: counts.groups as usize,
        constraints: counts.constraints as usize,
    })
}

/// What a proof check at `bound` needs of its stores, or 1 to 8, 19, 22.
pub fn sizes(file: &[u8], bound: u64) -> Result<FormulaSize, Refusal> {
    let mut sizes = FormulaSize::default();
    let mut value = 0;
    let number = call::sizes(file, bound, &mut sizes, &mut value);
    accepted(number, value)?;
    Ok(sizes)
}

/// The score of a timetable, or 1 to 6, 10 to 12, 19, 22.
pub fn score(file: &[u8], table: &[u8]) -> Result<Score, Refusal> {
    let mut amounts = Amounts::default();
    let mut value = 0;
    let number = call::score(file, table, &mut amounts, &mut value);
    accepted(number, value)?;
    Ok(Score {
        infeasibility: Infeasibility(amounts.infeasibility),
        objective: Objective(amounts.objective),
    })
}

/// What is kept after one more member of a group, which has X or not. From the
/// default on, `idle` is the number of idle times in the group cut off there.
pub fn idle_step(kept: Kept, used: bool) -> Kept {
    let mut next = Kept::default();
    call::idle_step(kept, u32::from(used), &mut next);
    next
}

/// Whether two timetables are the same sheet, or 1 to 6, 10 to 12, 19, 22.
pub fn same_sheet(file: &[u8], first: &[u8], second: &[u8]) -> Result<bool, Refusal> {
    let mut value = 0;
    let number = call::same_sheet(file, first, second, &mut value);
    accepted(number, value)?;
    Ok(value == 1)
}

/// The length of the text for solvers, or 1 to 6, 8, 19, 22.
pub fn text_size(file: &[u8]) -> Result<u64, Refusal> {
    let mut bytes = 0;
    let mut value = 0;
    let number = call::text_size(file, &mut bytes, &mut value);
    accepted(number, value)?;
    Ok(bytes)
}

/// The text for solvers, or 1 to 6, 8, 19, 22.
pub fn text(file: &[u8]) -> Result<Vec<u8>, Refusal> {
    let mut out = vec![0; text_size(file)? as usize];
    let mut value = 0;
    let number = call::text(file, &mut out, &mut value);
    accepted(number, value)?;
    Ok(out)
}

/// The part of `model` that holds the timetable, with its cost; or 1 to 6, 8,
/// 10, 11, 13, 19, 22.
pub fn decode<'a>(file: &[u8], model: &'a [u8]) -> Result<(&'a [u8], Objective), Refusal> {
    let mut objective = 0;
    let mut value = 0;
    let number = call::decode(file, model, &mut objective, &mut value);
    accepted(number, value)?;
    Ok((&model[..value as usize], Objective(objective)))
}

/// How many bytes a model has, one for each variable without the tail; or 1 to
/// 6, 8, 19, 22.
pub fn model_length(file: &[u8]) -> Result<usize, Refusal> {
    // Every instance has variables, so an empty model has the wrong length.
    match decode(file, &[]) {
        Err(refused) if refused.number == refusal::WRONG_LENGTH => Ok(refused.value as usize),
        answer => answer.map(|(part, _)| part.len()),
    }
}

/// The model that a solver's text gives, the length of its part that is the
/// timetable, and its cost; or 1 to 6, 8, 13, 19 to 22.
pub fn solver_text(file: &[u8], text: &[u8]) -> Result<(Vec<u8>, usize, Objective), Refusal> {
    let length = model_length(file)?;
    let (mut model, mut store) = (vec![0; length], vec![0; length]);
    let (mut objective, mut value) = (0, 0);
    let number = call::solver_text(
        file,
        text,
        &mut model,
        &mut store,
        &mut objective,
        &mut value,
    );
    accepted(number, value)?;
    Ok((model, value as usize, Objective(objective)))
}

/// Checks that no timetable that keeps the hard constraints costs `bound` or
/// less. Gives the number of steps, or 1 to 8, 14 to 16, 18, 19, 22.
pub fn check(file: &[u8], bound: u64, proof: &[u8]) -> Result<u64, Refusal> {
    let mut store = Store::for_proof(sizes(file, bound)?, proof);
    store.check(file, bound, proof)
}

/// Checks that no timetable keeps the hard constraints, whatever it costs. Gives
/// the number of steps, or 1 to 6, 8, 14 to 16, 18, 19, 22.
pub fn check_hard(file: &[u8], proof: &[u8]) -> Result<u64, Refusal> {
    let mut size = hard_size(file)?;
    loop {
        let answer = Store::for_proof(size, proof).check_hard(file, proof);
        match answer {
            Err(refused) if refused.number == refusal::TOO_SHORT => {
                size = FormulaSize {
                    variables: size.variables,
                    clauses: 2 * size.clauses,
                    words: 2 * size.words,
                };
            }
            answer => return answer,
        }
    }
}

/// A size that is not below that of the hard clauses: with the tail for bound 0,
/// or a guess where that tail has too many variables; or 1 to 6, 19, 22.
fn hard_size(file: &[u8]) -> Result<FormulaSize, Refusal> {
    match sizes(file, 0) {
        Err(refused) if refused.number == refusal::TOO_MANY_VARIABLES => Ok(FormulaSize {
            variables: MOST_VARIABLES,
            clauses: MOST_VARIABLES,
            words: 2 * MOST_VARIABLES,
        }),
        answer => answer,
    }
}

/// A model's cost, with the number of steps of the proof that nothing costs
/// less; or 1 to 8, 10, 11, 13 to 16, 18, 19, 22.
pub fn best(file: &[u8], model: &[u8], proof: &[u8]) -> Result<(Objective, u64), Refusal> {
    // Where the proof is not looked at, no store is needed.
    let size = match decode(file, model) {
        Ok((_, Objective(cost))) if cost > 0 => sizes(file, cost - 1).unwrap_or_default(),
        _ => FormulaSize::default(),
    };
    Store::for_proof(size, proof).best(file, model, proof)
}

#[cfg(test)]
mod tests {
    use super::*;

    /// Document 01's file A.
    const A: [u8; 12] = [1, 1, 0, 1, 0, 1, 0, 1, 3, 4, 1, 1];

    fn refused<T>(number: u32, value: u64) -> Result<T, Refusal> {
        Err(Refusal { number, value })
    }

    #[test]
    fn a_model_has_a_byte_for_each_variable() {
        assert_eq!(model_length(&A), Ok(4));
        assert_eq!(model_length(&A[..11]), refused(refusal::BAD_NUMBER, 11));
    }

    #[test]
    fn a_solvers_text_is_read_and_decoded() {
        let model = vec![1, 1, 1, 1];
        assert_eq!(
            solver_text(&A, b"c x\nv 1 2\nv 3 4 0\n"),
            Ok((model, 2, Objective(4)))
        );
        for (text, number, value) in [
            (&b"v 1 +2 3 4"[..], refusal::BAD_SOLVER_TEXT, 4),
            (b"v 1 2 2 4", refusal::NOT_GIVEN_ONCE, 2),
            (b"v 1 2 3 -4", refusal::CLAUSE_FALSE, 6),
        ] {
            assert_eq!(solver_text(&A, text), refused(number, value));
        }
        assert_eq!(solver_text(&A[..3], b""), refused(refusal::BAD_NUMBER, 3));
    }
}
