//! The operations on schools of growing size, on a formula of many ORs, on lengths
//! of subevents, on preferred times, on lessons before others, on a school in clock
//! time and on proofs of many hints; then growth and memory from the same runs.

use crate::lengths;
use crate::precedence;
use crate::preferred;
use crate::programs::Side;
use crate::proofs::{copies, Clauses};
use crate::table::{grouped, head, Row, GROWTH, MEMORY, OPERATIONS};
use crate::windows;
use crate::{Bench, ALL, TWO};
use testing::generate::{encode, many_ors, model, planned_school, school, timetable, Plan, Random};
use testing::prover::{clause_list, lemmas};
use testing::reference::{Instance, Sizes};
use testing::steps::{encode_steps, Step};
use timetable::engine;

/// The bound of checks of generated schools.
pub const BOUND: u64 = 10;
const JOBS: [(&str, &str); 6] = [
    ("read", "byte of input"),
    ("score", "byte of input"),
    ("text", "byte of text"),
    ("decode", "variable"),
    ("check", "clause of formula and proof"),
    (EMPTY, "clause of formula"),
];
/// A check of the empty proof, which takes what the formula takes.
const EMPTY: &str = "check, empty proof";

pub struct School {
    pub lessons: usize,
    pub instance: Instance,
    pub file: Vec<u8>,
    table: Vec<u8>,
    /// A recorded refutation and its bound.
    pub proof: Option<(u64, &'static [u8])>,
    /// Whether its times stand in the table of operations.
    shown: bool,
}

/// A row with how much it worked on, for growth.
struct Measured {
    row: Row,
    generated: bool,
    /// Bytes of input or of text, variables, or clauses.
    amount: u64,
}

/// Clauses that a search on a planned school learned.
pub struct Learned {
    pub lessons: usize,
    pub file: Vec<u8>,
    pub steps: Vec<Step>,
}

/// Prints the table of operations, then growth and memory.
pub fn tables(bench: &Bench, learned: &[Learned]) {
    let mut schools = recorded();
    let generated = bench.scale.lessons.iter().map(|&lessons| {
        let shown = bench.scale.shown.contains(&lessons);
        School {
            shown,
            ..generated(lessons)
        }
    });
    schools.extend(generated);
    head("Operations", "Below 1 the engine is faster.", &OPERATIONS);
    let mut all = small_operations(bench, &schools);
    all.extend(formulas(bench, &schools));
    all.extend(checks(bench, &schools));
    all.extend(empty_proofs(bench, &schools));
    ors(bench);
    lengths::rows(bench);
    preferred::rows(bench);
    precedence::rows(bench);
    windows::rows(bench);
    many_hints(bench, learned);
    growth(&all);
    memory(&all);
}

/// The schools in host/schools.
pub fn recorded() -> Vec<School> {
    let toy: [&[u8]; 3] = [
        include_bytes!("../../../../schools/toy.instance"),
        include_bytes!("../../../../schools/toy.timetable"),
        include_bytes!("../../../../schools/toy.proof"),
    ];
    let small: [&[u8]; 3] = [
        include_bytes!("../../../../schools/small.instance"),
        include_bytes!("../../../../schools/small.timetable"),
        include_bytes!("../../../../schools/small.proof"),
    ];
    [(6, 2, toy), (21, 7, small)]
        .map(|(lessons, bound, [file, table, proof])| School {
            lessons,
            instance: Instance::read(file).expect("an accepted file"),
            file: file.to_vec(),
            table: table.to_vec(),
            proof: Some((bound, proof)),
            shown: true,
        })
        .into()
}

pub fn generated(lessons: usize) -> School {
    let mut random = Random::new(lessons as u64);
    let instance = school(&mut random, lessons);
    School {
        lessons,
        file: encode(&instance),
        table: timetable(&mut random, &instance),
        instance,
        proof: None,
        shown: false,
    }
}

impl School {
    fn measured(&self, row: Row, amount: u64) -> Measured {
        if self.shown {
            println!("{}", row.line());
        }
        Measured {
            row,
            generated: self.proof.is_none(),
            amount,
        }
    }

    pub fn name(&self) -> String {
        format!("{} lessons", self.lessons)
    }

    /// Growth and memory are the engine's and plain C's alone.
    fn sides(&self) -> &'static [Side] {
        if self.shown {
            &ALL
        } else {
            &TWO
        }
    }
}

fn small_operations(bench: &Bench, schools: &[School]) -> Vec<Measured> {
    let read = schools.iter().map(|school| {
        let row = bench.row("read", school.name(), &[&school.file], school.sides());
        let amount = row.bytes as u64;
        school.measured(row, amount)
    });
    let read: Vec<Measured> = read.collect();
    let score = schools.iter().map(|school| {
        let inputs: [&[u8]; 2] = [&school.file, &school.table];
        let row = bench.row("score", school.name(), &inputs, school.sides());
        let amount = row.bytes as u64;
        school.measured(row, amount)
    });
    let score: Vec<Measured> = score.collect();
    read.into_iter().chain(score).collect()
}

/// The operations that walk over the clauses, on the same files. Their
/// constraints are all soft, so that every timetable has a model to decode.
fn formulas(bench: &Bench, schools: &[School]) -> Vec<Measured> {
    let soft = |school: &School| {
        let mut soft = school.instance.clone();
        for constraint in &mut soft.constraints {
            constraint.weight = constraint.weight.max(1);
        }
        (encode(&soft), model(&soft, &school.table))
    };
    let files: Vec<(Vec<u8>, Vec<u8>)> = schools.iter().map(soft).collect();
    let mut all = Vec::new();
    for (school, (file, _)) in schools.iter().zip(&files) {
        let row = bench.row("text", school.name(), &[file], school.sides());
        let amount = row.engine().answer[0];
        all.push(school.measured(row, amount));
    }
    for (school, (file, model)) in schools.iter().zip(&files) {
        let row = bench.row("decode", school.name(), &[file, model], school.sides());
        all.push(school.measured(row, model.len() as u64));
    }
    all
}

/// Refutations of the schools in host/schools; of the others, proofs that add a
/// copy of each clause.
fn checks(bench: &Bench, schools: &[School]) -> Vec<Measured> {
    let check = |school: &School| match school.proof {
        Some((bound, proof)) => check(bench, school, "check", bound, proof),
        None => {
            let proof = copies(&Clauses::of(&school.instance, BOUND));
            check(bench, school, "check", BOUND, &proof)
        }
    };
    schools.iter().map(check).collect()
}

fn empty_proofs(bench: &Bench, schools: &[School]) -> Vec<Measured> {
    let check = |school: &School| check(bench, school, EMPTY, BOUND, &[]);
    schools.iter().map(check).collect()
}

fn check(bench: &Bench, school: &School, job: &'static str, bound: u64, proof: &[u8]) -> Measured {
    let number = bound.to_string();
    let inputs: [&[u8]; 3] = [&school.file, number.as_bytes(), proof];
    let row = bench.row(job, school.name(), &inputs, school.sides());
    let sizes = engine::sizes(&school.file, bound).expect("an accepted file");
    let amount = sizes.clauses + row.engine().answer[0];
    school.measured(row, amount)
}

/// A file that is mostly clusters and idle limits.
fn ors(bench: &Bench) {
    let (instance, table) = many_ors(&mut Random::new(1), bench.scale.ors);
    let file = encode(&instance);
    let model = model(&instance, &table);
    let clauses = Clauses::of(&instance, BOUND);
    let proof = copies(&clauses);
    let name = || format!("ORs, {} clauses", grouped(clauses.count() as u64));
    let number = BOUND.to_string();
    let rows = [
        bench.row("text", name(), &[&file], &ALL),
        bench.row("decode", name(), &[&file, &model], &ALL),
        bench.row("check", name(), &[&file, number.as_bytes(), &proof], &ALL),
    ];
    for row in rows {
        println!("{}", row.line());
    }
}

/// A row for each operation on an instance whose constraints are all soft. The
/// check is of the empty proof.
pub fn operations(bench: &Bench, random: &mut Random, name: &str, instance: &Instance) {
    let table = timetable(random, instance);
    let file = encode(instance);
    let model = model(instance, &table);
    let number = BOUND.to_string();
    let jobs: [(&'static str, Vec<&[u8]>); 5] = [
        ("read", vec![&file]),
        ("score", vec![&file, &table]),
        ("text", vec![&file]),
        ("decode", vec![&file, &model]),
        (EMPTY, vec![&file, number.as_bytes(), &[]]),
    ];
    for (job, inputs) in jobs {
        let row = bench.row(job, name.to_string(), &inputs, &ALL);
        println!("{}", row.line());
    }
}

/// Checks of clauses that a search learned.
fn many_hints(bench: &Bench, learned: &[Learned]) {
    for learned in learned {
        let number = BOUND.to_string();
        let proof = encode_steps(&learned.steps);
        let inputs: [&[u8]; 3] = [&learned.file, number.as_bytes(), &proof];
        let row = bench.row("check", learned.name(), &inputs, &ALL);
        println!("{}", row.line());
    }
}

impl Learned {
    pub fn new(lessons: usize, hints: usize) -> Learned {
        let mut random = Random::new(1);
        let plan = Plan {
            lessons,
            periods: 5,
        };
        let instance = planned_school(&mut random, plan);
        let sizes = Sizes::of(&instance, Some(BOUND)).expect("a formula that is small enough");
        let clauses = clause_list(&instance, Some(BOUND));
        let decided = 2 * instance.events.len() * instance.times;
        let variables = [sizes.variables as usize, decided];
        Learned {
            lessons,
            file: encode(&instance),
            steps: lemmas(&mut random, variables, &clauses, hints),
        }
    }

    pub fn name(&self) -> String {
        let hints: usize = self.steps.iter().map(|step| step.hints().len()).sum();
        format!("{} lessons, {} hints", self.lessons, grouped(hints as u64))
    }
}

/// What one byte, variable or clause takes.
fn growth(all: &[Measured]) {
    let generated: Vec<&Measured> = all.iter().filter(|one| one.generated).collect();
    let reads = generated.iter().filter(|one| one.row.job == "read");
    let names: Vec<String> = reads.map(|one| one.row.input.clone()).collect();
    let mut columns = GROWTH.to_vec();
    columns.extend(names.iter().map(String::as_str));
    head("Growth", "What each takes as schools grow.", &columns);
    for (job, each) in JOBS {
        let same = generated.iter().filter(|one| one.row.job == job);
        let same: Vec<(&Row, u64)> = same.map(|one| (&one.row, one.amount)).collect();
        for (side, name) in [(Side::Engine, "engine"), (Side::Plain, "plain C")] {
            let cell = |(row, amount): &(&Row, u64)| row.nanoseconds(side, *amount);
            let cells: Vec<String> = same.iter().map(cell).collect();
            println!("| {job} | {each} | {name} | {} |", cells.join(" | "));
        }
    }
}

/// The operations that are lent memory.
fn memory(all: &[Measured]) {
    let said = "Output and stores are what the engine was lent. A process holds its inputs too.";
    head("Memory", said, &MEMORY);
    let lent = |measured: &&Measured| measured.generated && measured.row.engine().lent > 0;
    for measured in all.iter().filter(lent) {
        println!("{}", measured.row.memory());
    }
}
