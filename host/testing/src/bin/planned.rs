//! Writes the instance file of a planned school to standard output:
//! `planned SEED LESSONS PERIODS`, with the times of a day last.

use std::io::{self, Write};
use std::process::ExitCode;
use testing::generate::{encode, planned_school, Plan, Random};

fn main() -> ExitCode {
    let numbers: Vec<u64> = std::env::args()
        .skip(1)
        .filter_map(|word| word.parse().ok())
        .collect();
    let [seed, lessons, periods] = numbers[..] else {
        eprintln!("planned: wanted are SEED LESSONS PERIODS");
        return ExitCode::from(2);
    };
    let plan = Plan {
        lessons: lessons as usize,
        periods: periods as usize,
    };
    let school = planned_school(&mut Random::new(seed), plan);
    match io::stdout().write_all(&encode(&school)) {
        Ok(()) => ExitCode::SUCCESS,
        Err(error) => {
            eprintln!("planned: {error}");
            ExitCode::from(2)
        }
    }
}
