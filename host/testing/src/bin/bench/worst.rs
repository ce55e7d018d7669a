//! The worst inputs that are accepted.

use crate::gaps::sparse;
use crate::proofs::{long_clauses, second_copies, Clauses};
use crate::schools::{generated, BOUND};
use crate::table::{grouped, head, WORST};
use crate::{Bench, TWO};
use testing::generate::{
    encode, idle_limits, idle_limits_in_windows, long_tail, many_variables, model, Random,
};
use testing::reference::{Instance, LARGEST_BOUND, LARGEST_FORMULA};
use testing::steps::encode_steps;
use timetable::engine;

/// Constraints of the longest file.
const MOST_CONSTRAINTS: usize = 4_096;

/// Prints seconds and memory of each.
pub fn table(bench: &Bench) {
    let part = bench.scale.part;
    let said = match part {
        1 => String::new(),
        _ => format!("Inputs of a {part}th of their size. "),
    } + "A check is of the empty proof where nothing else is said.";
    head("Worst accepted inputs", &said, &WORST);
    let mut random = Random::new(1);
    let idle = idle_limits(&mut random, MOST_CONSTRAINTS / part);
    all_jobs(bench, "idle limits", &idle, BOUND);
    drop(idle);
    longest_file(bench, MOST_CONSTRAINTS / part);
    let variables = LARGEST_FORMULA / part as u64;
    let many = many_variables(&mut random, variables);
    all_jobs(bench, "counters", &many, BOUND);
    let clauses = Clauses::of(&many.0, BOUND);
    let steps = second_copies(&mut random, &clauses, 500_000 / part);
    let proof = encode_steps(&sparse(clauses.count(), &steps));
    drop(clauses);
    let name = format!(
        "the same, {} hints, up to nine ids skipped",
        grouped(steps.len() as u64)
    );
    check(bench, &name, &encode(&many.0), BOUND, &proof);
    let (tail, _) = long_tail(&mut random, LARGEST_BOUND, variables);
    check(bench, "tail at 4,095", &encode(&tail), LARGEST_BOUND, &[]);
    let school = generated(bench.scale.shown[0]);
    let clauses = Clauses::of(&school.instance, BOUND);
    let sizes = engine::sizes(&school.file, BOUND).expect("an accepted file");
    // As many literals in all, in clauses of 5,000 and in the longest.
    let literals = 20_000_000 / part;
    for length in [5_000, sizes.variables as usize] {
        let proof = long_clauses(&clauses, length, (literals / length).max(2));
        let name = format!("clauses of {} literals", grouped(length as u64));
        check(bench, &name, &school.file, BOUND, &proof);
    }
}

/// What goes by the file's length, on the longest: idle limits over all groups and
/// windows.
fn longest_file(bench: &Bench, constraints: usize) {
    let (instance, table) = idle_limits_in_windows(&mut Random::new(1), constraints);
    let file = encode(&instance);
    let jobs: [(&'static str, Vec<&[u8]>); 2] =
        [("read", vec![&file]), ("score", vec![&file, &table])];
    for (job, inputs) in jobs {
        let name = "the longest file, 2,048 groups".to_string();
        let row = bench.row(job, name, &inputs, &TWO);
        println!("{}", row.worst());
    }
}

/// All operations on one instance.
fn all_jobs(bench: &Bench, name: &str, (instance, table): &(Instance, Vec<u8>), bound: u64) {
    let file = encode(instance);
    let model = model(instance, table);
    let sizes = engine::sizes(&file, bound).expect("an accepted file");
    let name = format!(
        "{name}, {} variables, {} clauses",
        grouped(sizes.variables),
        grouped(sizes.clauses)
    );
    let jobs: [(&'static str, Vec<&[u8]>); 4] = [
        ("read", vec![&file]),
        ("score", vec![&file, table]),
        ("text", vec![&file]),
        ("decode", vec![&file, &model]),
    ];
    for (job, inputs) in jobs {
        let row = bench.row(job, name.clone(), &inputs, &TWO);
        println!("{}", row.worst());
    }
    check(bench, &name, &file, bound, &[]);
}

fn check(bench: &Bench, name: &str, file: &[u8], bound: u64, proof: &[u8]) {
    let number = bound.to_string();
    let inputs = [file, number.as_bytes(), proof];
    let row = bench.row("check", name.to_string(), &inputs, &TWO);
    println!("{}", row.worst());
}
