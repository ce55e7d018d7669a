//! The same proofs with ids skipped.

use crate::proofs::{second_copies, steps_of, Clauses};
use crate::schools::{generated, recorded, Learned, BOUND};
use crate::table::{head, GAPS};
use crate::{Bench, WITHOUT_TUNED};
use testing::generate::Random;
use testing::steps::{encode_steps, renumbered, with_gaps, Step};
use timetable::engine;

/// Prints what gaps cost.
pub fn table(bench: &Bench, learned: &[Learned]) {
    let said = "Copies: half of the hints name a clause of the proof, at random. Learned: the \
                clauses that a search learned.";
    head("Gaps in ids", said, &GAPS);
    for school in recorded() {
        let (bound, proof) = school.proof.expect("a recorded proof");
        rows(
            bench,
            &school.name(),
            (&school.file, bound),
            &steps_of(proof),
        );
    }
    for &lessons in bench.scale.shown {
        let school = generated(lessons);
        let clauses = Clauses::of(&school.instance, BOUND);
        let steps = second_copies(&mut Random::new(2), &clauses, bench.scale.copies);
        let name = format!("{}, copies", school.name());
        rows(bench, &name, (&school.file, BOUND), &steps);
    }
    for one in learned {
        let name = format!("{} lessons, learned", one.lessons);
        rows(bench, &name, (&one.file, BOUND), &one.steps);
    }
}

/// The proof without gaps, with the first id skipped, with every second one
/// skipped, and with up to nine skipped between any two.
fn rows(bench: &Bench, name: &str, (file, bound): (&[u8], u64), steps: &[Step]) {
    let sizes = engine::sizes(file, bound).expect("an accepted file");
    let formula = sizes.clauses as usize;
    let first = renumbered(steps, |id| id + u32::from(id > formula as u32));
    let proofs = [
        ("no gap", encode_steps(steps)),
        ("one skipped", encode_steps(&first)),
        (
            "every second skipped",
            encode_steps(&with_gaps(formula, steps, 1)),
        ),
        ("up to nine skipped", encode_steps(&sparse(formula, steps))),
    ];
    let number = bound.to_string();
    let inputs = proofs.each_ref().map(|(ids, proof)| {
        let inputs: Vec<&[u8]> = vec![file, number.as_bytes(), proof];
        (format!("{name}, {ids}"), inputs)
    });
    let rows = bench.rows("check", &inputs, &WITHOUT_TUNED);
    for row in &rows {
        println!("{}", row.against(&rows[0]));
    }
}

/// The steps with none to nine ids skipped before each.
pub fn sparse(formula: usize, steps: &[Step]) -> Vec<Step> {
    let mut random = Random::new(3);
    let mut ids = vec![formula as u32];
    for at in 0..steps.len() {
        ids.push(ids[at] + 1 + random.below(10) as u32);
    }
    renumbered(steps, |id| match id.checked_sub(ids[0]) {
        Some(added) => ids[added as usize],
        None => id,
    })
}
