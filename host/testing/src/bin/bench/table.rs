//! The tables, in Markdown.

use crate::programs::Side;
use crate::side::Run;

/// A comparison: an operation on an input, with the runs of those who took part,
/// among whom are always the engine and plain C.
pub struct Row {
    pub job: &'static str,
    pub input: String,
    pub bytes: usize,
    pub runs: Vec<(Side, Run)>,
}

impl Row {
    pub fn engine(&self) -> &Run {
        self.took_part(Side::Engine)
    }

    fn plain(&self) -> &Run {
        self.took_part(Side::Plain)
    }

    fn took_part(&self, side: Side) -> &Run {
        self.run(side).expect("a side of every row")
    }

    fn run(&self, side: Side) -> Option<&Run> {
        let mut runs = self.runs.iter();
        runs.find_map(|(one, run)| Some(run).filter(|_| *one == side))
    }

    /// A line of the table of operations.
    pub fn line(&self) -> String {
        let [engine, plain] = [self.engine(), self.plain()];
        let [tuned, reference] = [Side::Tuned, Side::Reference].map(|side| self.run(side));
        line(&[
            self.job.into(),
            self.input.clone(),
            grouped(self.bytes as u64),
            time(engine),
            time(plain),
            tuned.map_or(NONE.into(), time),
            reference.map_or(NONE.into(), time),
            ratio(engine, Some(plain)),
            ratio(engine, tuned),
            ratio(engine, reference),
        ])
    }

    /// A line of the table of memory.
    pub fn memory(&self) -> String {
        let [engine, plain] = [self.engine(), self.plain()];
        line(&[
            self.job.into(),
            self.input.clone(),
            grouped(self.bytes as u64),
            megabytes(engine.lent),
            megabytes(engine.peak),
            megabytes(plain.peak),
            format!("{:.2}", engine.peak as f64 / plain.peak as f64),
        ])
    }

    /// A line of the table of worst inputs.
    pub fn worst(&self) -> String {
        let [engine, plain] = [self.engine(), self.plain()];
        line(&[
            self.job.into(),
            self.input.clone(),
            grouped(self.bytes as u64),
            time(engine),
            time(plain),
            ratio(engine, Some(plain)),
            megabytes(engine.lent),
            megabytes(engine.peak),
            megabytes(plain.peak),
        ])
    }

    /// A line of the table of solvers' texts, for a text of so many bytes.
    pub fn solver_text(&self, text: usize) -> String {
        let [engine, plain] = [self.engine(), self.plain()];
        let [reference, lines] = [Side::Reference, Side::Lines].map(|side| self.run(side));
        line(&[
            self.input.clone(),
            grouped(text as u64),
            time(engine),
            time(plain),
            reference.map_or(NONE.into(), time),
            lines.map_or(NONE.into(), time),
            ratio(engine, Some(plain)),
            ratio(engine, reference),
            ratio(engine, lines),
            megabytes(engine.lent),
        ])
    }

    /// A line of the table of gaps, against the same proof without gaps.
    pub fn against(&self, without: &Row) -> String {
        let [engine, plain] = [self.engine(), self.plain()];
        let reference = self.run(Side::Reference);
        line(&[
            self.input.clone(),
            time(engine),
            time(plain),
            reference.map_or(NONE.into(), time),
            ratio(engine, Some(without.engine())),
            ratio(plain, Some(without.plain())),
            ratio(engine, Some(plain)),
            ratio(engine, reference),
        ])
    }

    /// Nanoseconds of a side for each of so many, for the table of growth.
    pub fn nanoseconds(&self, side: Side, amount: u64) -> String {
        format!("{:.2}", 1e3 * self.took_part(side).time() / amount as f64)
    }
}

/// What stands for a side that took no part.
const NONE: &str = "–";

fn line(cells: &[String]) -> String {
    format!("| {} |", cells.join(" | "))
}

/// One's time as so many of another's.
fn ratio(one: &Run, other: Option<&Run>) -> String {
    other.map_or(NONE.into(), |other| {
        format!("{:.2}", one.time() / other.time())
    })
}

/// A heading with what is said of its table, and the table's head.
pub fn head(title: &str, said: &str, columns: &[&str]) {
    println!("\n### {title}\n\n{said}\n");
    println!("| {} |", columns.join(" | "));
    println!("|{}", "---|".repeat(columns.len()));
}

pub const OPERATIONS: [&str; 10] = [
    "operation",
    "input",
    "bytes of input",
    "engine",
    "plain C",
    "tuned C",
    "reference",
    "engine / plain C",
    "engine / tuned C",
    "engine / reference",
];

pub const GROWTH: [&str; 3] = ["operation", "nanoseconds for each", "side"];

pub const MEMORY: [&str; 7] = [
    "operation",
    "input",
    "bytes of input",
    "output and stores",
    "engine's process",
    "plain C's process",
    "engine / plain C",
];

pub const GAPS: [&str; 8] = [
    "proof, ids",
    "engine",
    "plain C",
    "reference",
    "engine / the same without gaps",
    "plain C / the same without gaps",
    "engine / plain C",
    "engine / reference",
];

pub const WORST: [&str; 9] = [
    "operation",
    "input",
    "bytes of input",
    "engine",
    "plain C",
    "engine / plain C",
    "output and stores",
    "engine's process",
    "plain C's process",
];

pub const SOLVER_TEXTS: [&str; 10] = [
    "formula, text",
    "bytes of text",
    "engine",
    "plain C",
    "reference",
    "counting lines",
    "engine / plain C",
    "engine / reference",
    "engine / counting lines",
    "output and store",
];

fn time(run: &Run) -> String {
    match run.time() {
        few if few < 1e3 => format!("{few:.1} µs"),
        more if more < 1e6 => format!("{:.2} ms", more / 1e3),
        many => format!("{:.2} s", many / 1e6),
    }
}

fn megabytes(bytes: u64) -> String {
    format!("{:.1} MB", bytes as f64 / 1e6)
}

/// A number with a comma before each three digits.
pub fn grouped(number: u64) -> String {
    let digits = number.to_string();
    let mut out = String::new();
    for (at, digit) in digits.chars().enumerate() {
        if at > 0 && (digits.len() - at) % 3 == 0 {
            out.push(',');
        }
        out.push(digit);
    }
    out
}

#[cfg(test)]
mod tests {
    use super::*;
    use crate::solver_texts::SIDES;
    use crate::{ALL, TWO, WITHOUT_TUNED};

    fn run(spans: &[f64], peak: u64) -> Run {
        Run {
            refusal: 0,
            answer: [0, 0],
            lent: 1_500_000,
            peak,
            spans: spans.to_vec(),
        }
    }

    /// The medians are 30 µs of the engine, 20 µs of plain C, 12 µs of tuned C, 1.2 ms
    /// of the reference and 4 µs of counting lines; neither the fastest spans nor the
    /// means have these ratios.
    fn row(sides: &[Side]) -> Row {
        let run = |&side: &Side| match side {
            Side::Engine => (side, run(&[30.0, 1.0, 500.0], 6_000_000)),
            Side::Plain => (side, run(&[19.0, 900.0, 2.0, 21.0], 4_000_000)),
            Side::Tuned => (side, run(&[800.0, 12.0, 3.0], 5_000_000)),
            Side::Reference => (side, run(&[1_200.0], 9_000_000)),
            Side::Lines => (side, run(&[4.0, 1.0, 70.0], 1_000_000)),
        };
        Row {
            job: "check",
            input: "6 lessons".into(),
            bytes: 1_234_567,
            runs: sides.iter().map(run).collect(),
        }
    }

    #[test]
    fn a_line_has_the_ratios_of_medians() {
        let line = "| check | 6 lessons | 1,234,567 \
                    | 30.0 µs | 20.0 µs | 12.0 µs | 1.20 ms | 1.50 | 2.50 | 0.03 |";
        assert_eq!(row(&ALL).line(), line);
        let two = "| check | 6 lessons | 1,234,567 | 30.0 µs | 20.0 µs | – | – | 1.50 | – | – |";
        assert_eq!(row(&TWO).line(), two);
    }

    #[test]
    fn a_solvers_text_is_set_against_counting_its_lines() {
        let line = "| 6 lessons | 1,200,000 | 30.0 µs | 20.0 µs | 1.20 ms | 4.0 µs \
                    | 1.50 | 0.03 | 7.50 | 1.5 MB |";
        assert_eq!(row(&SIDES).solver_text(1_200_000), line);
    }

    #[test]
    fn gaps_are_set_against_the_same_proof_without_them() {
        let without = row(&WITHOUT_TUNED);
        let mut gaps = row(&WITHOUT_TUNED);
        gaps.input = "6 lessons, one skipped".into();
        gaps.runs[0].1.spans = vec![45.0];
        gaps.runs[1].1.spans = vec![22.0];
        let line =
            "| 6 lessons, one skipped | 45.0 µs | 22.0 µs | 1.20 ms | 1.50 | 1.10 | 2.05 | 0.04 |";
        assert_eq!(gaps.against(&without), line);
        let itself = "| 6 lessons | 30.0 µs | 20.0 µs | 1.20 ms | 1.00 | 1.00 | 1.50 | 0.03 |";
        assert_eq!(without.against(&without), itself);
    }

    #[test]
    fn growth_and_memory() {
        for row in [row(&TWO), row(&ALL)] {
            assert_eq!(row.nanoseconds(Side::Engine, 400), "75.00");
            assert_eq!(row.nanoseconds(Side::Plain, 400), "50.00");
            let memory = "| check | 6 lessons | 1,234,567 | 1.5 MB | 6.0 MB | 4.0 MB | 1.50 |";
            assert_eq!(row.memory(), memory);
            let worst = "| check | 6 lessons | 1,234,567 \
                         | 30.0 µs | 20.0 µs | 1.50 | 1.5 MB | 6.0 MB | 4.0 MB |";
            assert_eq!(row.worst(), worst);
        }
    }

    /// The page of benchmarks is the command's output, so it has the same tables.
    #[test]
    fn the_page_has_these_tables() {
        let page = include_str!("../../../../../docs/BENCHMARKS.md");
        for (title, columns) in [
            ("Operations", &OPERATIONS[..]),
            ("Growth", &GROWTH),
            ("Memory", &MEMORY),
            ("Gaps in ids", &GAPS),
            ("Worst accepted inputs", &WORST),
            ("Texts of solvers", &SOLVER_TEXTS),
        ] {
            let (_, table) = page
                .split_once(&format!("\n### {title}\n"))
                .expect("a heading");
            let head = table.lines().find(|line| line.starts_with('|'));
            let wanted = format!("| {} |", columns.join(" | "));
            assert!(
                head.is_some_and(|head| head.starts_with(&wanted)),
                "{title}"
            );
        }
    }

    #[test]
    fn a_line_has_a_cell_for_each_column() {
        let cells = |line: String| line.matches('|').count() - 1;
        assert_eq!(cells(row(&ALL).line()), OPERATIONS.len());
        assert_eq!(cells(row(&ALL).memory()), MEMORY.len());
        assert_eq!(cells(row(&ALL).against(&row(&ALL))), GAPS.len());
        assert_eq!(cells(row(&ALL).worst()), WORST.len());
        assert_eq!(cells(row(&SIDES).solver_text(0)), SOLVER_TEXTS.len());
    }
}
