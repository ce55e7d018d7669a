//! Times the engine against plain C, tuned C and the reference: schools of
//! growing size, formulas of many ORs, lengths of subevents, preferred times, lessons
//! before others, schools in clock time, proofs of many hints and with gaps in their
//! ids, the worst inputs that are accepted, with the memory of each, and texts of
//! solvers.
//!
//! `cargo run --release --offline --bin bench` prints the tables of
//! docs/BENCHMARKS.md; with `-- --short` the same on small inputs, and with
//! `-- --solver-texts` the table of solvers' texts alone. Each time is
//! time on a processor: a call is made again and again in spans of 20 ms, and
//! the median of the spans of several turns counts, in which the sides
//! alternate, so that a busy machine disturbs all alike. Each turn is a process
//! of its own: `tests/c/plain`, compiled by `cc -O2`, `tests/c/tuned`, compiled
//! by `cc -O3`, or this program as `bench engine` or `bench reference` with the
//! same arguments.

mod clock;
mod gaps;
mod job;
mod lengths;
mod precedence;
mod preferred;
mod programs;
mod proofs;
mod schools;
mod side;
mod solver_texts;
mod spans;
mod table;
mod windows;
mod worst;

use programs::Side;
use schools::Learned;
use side::{Run, Sides, Turns};
use std::process::ExitCode;
use std::time::{Duration, Instant};
use table::Row;

/// How large the inputs of a run are.
pub struct Scale {
    /// Lessons of the generated schools, and those of the table of operations.
    lessons: &'static [usize],
    shown: &'static [usize],
    /// Lessons of the schools of learned clauses, and their hints.
    learned: &'static [usize],
    hints: usize,
    /// Clauses that the proofs with gaps copy once, and then once more.
    copies: usize,
    /// Constraints of the formula of many ORs.
    ors: usize,
    /// Lessons of the school of kinds 9 and 10.
    lengths: usize,
    /// Lessons of the school of kind 3.
    preferred: usize,
    /// Lessons of the school of kind 11.
    precedence: usize,
    /// Lessons of the school in clock time.
    windows: usize,
    /// The worst inputs have one in so many of their constraints.
    part: usize,
    /// Lessons of the school whose solver's text is read, and bytes of comments.
    printed: usize,
    comments: usize,
}

const WHOLE: Scale = Scale {
    lessons: &[20, 50, 100, 200, 400, 800],
    shown: &[100, 400],
    learned: &[100, 400],
    hints: 2_000_000,
    copies: 250_000,
    ors: 200,
    lengths: 400,
    preferred: 400,
    precedence: 400,
    windows: 400,
    part: 1,
    printed: 400,
    comments: 100_000_000,
};

const SHORT: Scale = Scale {
    lessons: &[20, 50, 100],
    shown: &[100],
    learned: &[100],
    hints: 200_000,
    copies: 50_000,
    ors: 20,
    lengths: 100,
    preferred: 100,
    precedence: 100,
    windows: 100,
    part: 64,
    printed: 100,
    comments: 1_500_000,
};

const MANY: Turns = Turns {
    least: 3,
    most: 5,
    enough: Duration::from_secs(8),
};

const FEW: Turns = Turns {
    least: 1,
    most: 3,
    enough: Duration::from_secs(1),
};

/// Who takes part in a row of the table of operations, of the table of gaps, and
/// of the others.
pub const ALL: [Side; 4] = [Side::Engine, Side::Plain, Side::Tuned, Side::Reference];
pub const WITHOUT_TUNED: [Side; 3] = [Side::Engine, Side::Plain, Side::Reference];
pub const TWO: [Side; 2] = [Side::Engine, Side::Plain];

/// The sides, and the size of what they are given.
pub struct Bench {
    sides: Sides,
    scale: Scale,
}

impl Bench {
    /// A comparison of these sides.
    fn row(&self, job: &'static str, input: String, inputs: &[&[u8]], sides: &[Side]) -> Row {
        let mut rows = self.rows(job, &[(input, inputs.to_vec())], sides);
        rows.remove(0)
    }

    /// Several comparisons, whose sides all take turns.
    fn rows(&self, job: &'static str, all: &[(String, Vec<&[u8]>)], sides: &[Side]) -> Vec<Row> {
        let inputs: Vec<Vec<&[u8]>> = all.iter().map(|(_, inputs)| inputs.clone()).collect();
        let runs = self.sides.compare(job, &inputs, sides);
        let row = |((input, inputs), runs): (&(String, Vec<&[u8]>), Vec<Run>)| Row {
            job,
            input: input.clone(),
            bytes: inputs.iter().map(|input| input.len()).sum(),
            runs: sides.iter().copied().zip(runs).collect(),
        };
        all.iter().zip(runs).map(row).collect()
    }
}

fn main() -> ExitCode {
    let words: Vec<String> = std::env::args().skip(1).collect();
    let (turns, scale) = match words.first().map(String::as_str) {
        None => (MANY, WHOLE),
        Some("--short") => (FEW, SHORT),
        Some("--solver-texts") => {
            let sides = Sides::new(MANY);
            let scale = WHOLE;
            solver_texts::table(&Bench { sides, scale });
            return ExitCode::SUCCESS;
        }
        Some("engine") => return done(Side::Engine, &words[1..]),
        Some("reference") => return done(Side::Reference, &words[1..]),
        Some(_) => {
            eprintln!("bench: wanted is nothing, --short or --solver-texts");
            return ExitCode::from(2);
        }
    };
    tables(turns, scale);
    ExitCode::SUCCESS
}

/// Prints all tables, and how busy the machine was meanwhile.
fn tables(turns: Turns, scale: Scale) {
    let begin = Instant::now();
    let before = load();
    let learn = |&lessons: &usize| Learned::new(lessons, scale.hints);
    let learned: Vec<Learned> = scale.learned.iter().map(learn).collect();
    let bench = Bench {
        sides: Sides::new(turns),
        scale,
    };
    schools::tables(&bench, &learned);
    gaps::table(&bench, &learned);
    drop(learned);
    worst::table(&bench);
    solver_texts::table(&bench);
    let minutes = begin.elapsed().as_secs_f64() / 60.0;
    let after = load();
    println!(
        "\nThe run took {minutes:.1} minutes. Load average before it {before}, after it {after}."
    );
}

/// How many programs wanted a processor in the last minute: on an idle machine
/// 0 before a run and 1 after it.
fn load() -> String {
    let said = std::fs::read_to_string("/proc/loadavg").unwrap_or_default();
    said.split(' ').next().unwrap_or_default().into()
}

/// A turn of one side.
fn done(side: Side, words: &[String]) -> ExitCode {
    job::run(side, words);
    ExitCode::SUCCESS
}
