//! The cases of vectors/cases.txt: an operation, its inputs, the answer.

use testing::reference::{Objective, Refusal, Score, Sizes, Summary};

const LINES: &str = include_str!("../../../vectors/cases.txt");
const COUNT: usize = 2_794;

pub enum Case {
    Read(Vec<u8>),
    Score(Vec<u8>, Vec<u8>),
    SameSheet(Vec<u8>, Vec<u8>, Vec<u8>),
    Sizing(Vec<u8>, Option<u64>),
    Wcnf(Vec<u8>, usize),
    TextProgram(Vec<u8>),
    Decode(Vec<u8>, Vec<u8>),
    /// The lengths are those of the lent model and of the store.
    SolverText(Vec<u8>, Vec<u8>, [usize; 2]),
    Check(Vec<u8>, u64, Vec<u8>, [u64; 3]),
}

impl Case {
    /// The instance file.
    pub fn file(&self) -> &[u8] {
        match self {
            Case::Read(file)
            | Case::Score(file, ..)
            | Case::SameSheet(file, ..)
            | Case::Sizing(file, ..)
            | Case::Wcnf(file, ..)
            | Case::TextProgram(file)
            | Case::Decode(file, ..)
            | Case::SolverText(file, ..)
            | Case::Check(file, ..) => file,
        }
    }
}

/// All cases, each with its expected answer.
pub fn all() -> impl Iterator<Item = (Case, &'static str)> {
    LINES.lines().filter_map(parse)
}

/// Compares the answer of each case for which `answer` gives one with the
/// answer expected, and gives how many there were.
pub fn compare(answer: impl Fn(&Case) -> Option<Result<String, Refusal>>) -> usize {
    let mut run = 0;
    let mut failures = Vec::new();
    for (index, line) in LINES.lines().enumerate() {
        let number = index + 1;
        let Some((case, expected)) = parse(line) else {
            failures.push(format!("line {number} cannot be parsed"));
            continue;
        };
        let Some(found) = answer(&case) else {
            continue;
        };
        run += 1;
        let found = found.unwrap_or_else(refused);
        if found != expected {
            failures.push(format!(
                "line {number}: answer {}, expected {}",
                shortened(&found),
                shortened(expected)
            ));
        }
    }
    assert!(
        failures.is_empty(),
        "{} of {run} cases failed:\n{}",
        failures.len(),
        failures.join("\n")
    );
    assert_eq!(LINES.lines().count(), COUNT, "number of cases");
    run
}

/// The case of a line and its expected answer.
pub fn parse(line: &str) -> Option<(Case, &str)> {
    let (inputs, expected) = line.split_once(" = ")?;
    let fields: Vec<&str> = inputs.split(' ').collect();
    let case = match fields[..] {
        ["read", file] => Case::Read(bytes(file)?),
        ["score", file, table] => Case::Score(bytes(file)?, bytes(table)?),
        ["same_sheet", file, first, second] => {
            Case::SameSheet(bytes(file)?, bytes(first)?, bytes(second)?)
        }
        ["sizing", file, "none"] => Case::Sizing(bytes(file)?, None),
        ["sizing", file, bound] => Case::Sizing(bytes(file)?, Some(bound.parse().ok()?)),
        ["wcnf", file, length] => Case::Wcnf(bytes(file)?, length.parse().ok()?),
        ["text_program", input] => Case::TextProgram(bytes(input)?),
        ["decode", file, model] => Case::Decode(bytes(file)?, bytes(model)?),
        ["solver_text", file, text, model, store] => Case::SolverText(
            bytes(file)?,
            bytes(text)?,
            [model.parse().ok()?, store.parse().ok()?],
        ),
        ["check", file, bound, proof, words, rows, marks] => Case::Check(
            bytes(file)?,
            bound.parse().ok()?,
            bytes(proof)?,
            [words.parse().ok()?, rows.parse().ok()?, marks.parse().ok()?],
        ),
        _ => return None,
    };
    Some((case, expected))
}

// The answers in the form of the file.

pub fn refused(Refusal { number, value }: Refusal) -> String {
    format!("refused {number} {value}")
}

pub fn accepted(found: Summary) -> String {
    format!(
        "accepted {} {} {} {} {}",
        found.times, found.events, found.resources, found.groups, found.constraints
    )
}

pub fn scored(score: Score) -> String {
    format!("scored {} {}", score.infeasibility.0, score.objective.0)
}

pub fn compared(same: bool) -> String {
    match same {
        true => "same".to_string(),
        false => "different".to_string(),
    }
}

pub fn sized(found: Sizes) -> String {
    format!(
        "sizes {} {} {} {} {}",
        found.variables, found.clauses, found.words, found.soft, found.top
    )
}

pub fn written(text: &[u8]) -> String {
    format!("text {}", hexadecimal(text))
}

pub fn printed(output: &[u8]) -> String {
    format!("prints {}", hexadecimal(output))
}

pub fn decoded(part: &[u8], cost: Objective) -> String {
    format!("decoded {} {}", part.len(), cost.0)
}

pub fn filled(model: &[u8], part: usize, cost: Objective) -> String {
    format!("read {} {part} {}", hexadecimal(model), cost.0)
}

pub fn refuted(steps: u64) -> String {
    format!("no_timetable {steps}")
}

fn bytes(text: &str) -> Option<Vec<u8>> {
    if text == "-" {
        return Some(Vec::new());
    }
    if text.is_empty() || !text.len().is_multiple_of(2) {
        return None;
    }
    let digits: Option<Vec<u8>> = text
        .chars()
        .map(|digit| digit.to_digit(16).map(|value| value as u8))
        .collect();
    Some(
        digits?
            .chunks(2)
            .map(|pair| 16 * pair[0] + pair[1])
            .collect(),
    )
}

fn hexadecimal(bytes: &[u8]) -> String {
    if bytes.is_empty() {
        return "-".to_string();
    }
    bytes.iter().map(|byte| format!("{byte:02x}")).collect()
}

fn shortened(text: &str) -> String {
    text.chars().take(200).collect()
}
