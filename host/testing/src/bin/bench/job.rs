//! A job done by the engine or by the reference in a process of its own, as the
//! C program does it: at least once untimed, then again and again in spans.

use crate::programs::Side;
use crate::side::Run;
use crate::spans::measured;
use std::fs;
use std::hint::black_box;
use std::mem::size_of_val;
use std::time::Duration;
use testing::reference::{self, Refusal};
use timetable::engine::{self, call, Store};
use timetable::proof::room;

type Answer = Result<[u64; 2], Refusal>;

/// What a job works on.
struct Task {
    span: Duration,
    turn: Duration,
    file: Vec<u8>,
    /// A timetable, a model, a solver's text or a proof.
    other: Vec<u8>,
    bound: u64,
}

/// Does the job that `words` name, and prints what came of it.
pub fn run(side: Side, words: &[String]) {
    let [job, span, turn, file, rest @ ..] = words else {
        panic!("JOB SPAN TURN INSTANCE are missing");
    };
    let milliseconds = |word: &String| Duration::from_millis(word.parse().expect("milliseconds"));
    let load = |name: &String| fs::read(name).expect("an input");
    let task = Task {
        span: milliseconds(span),
        turn: milliseconds(turn),
        file: load(file),
        other: rest.last().map(load).unwrap_or_default(),
        bound: match rest {
            [bound, _] => bound.parse().expect("a bound"),
            _ => 0,
        },
    };
    let mut run = match side {
        Side::Engine => engine(job, &task),
        _ => by_reference(job, &task),
    };
    run.peak = peak();
    run.print();
}

fn engine(job: &str, task: &Task) -> Run {
    let Task { file, other, .. } = task;
    match job {
        "read" => timed(task, 0, || engine::read(file).map(|_| [0, 0])),
        "score" => timed(task, 0, || {
            let score = engine::score(file, other)?;
            Ok([score.infeasibility.0, score.objective.0])
        }),
        "decode" => timed(task, 0, || {
            engine::decode(file, other).map(|(_, cost)| [cost.0, 0])
        }),
        "text" => {
            let mut out = room_for_text(task);
            let mut value = 0;
            let mut run = timed(task, out.len(), || {
                match call::text(file, &mut out, &mut value) {
                    0 => Ok([value, 0]),
                    number => Err(Refusal { number, value }),
                }
            });
            run.answer[1] = checksum(&out);
            run
        }
        "solver_text" => filled_by_engine(task),
        "check" => {
            let mut store = store(task);
            let lent = lent(&store);
            timed(task, lent, || steps(store.check(file, task.bound, other)))
        }
        _ => panic!("no job {job}"),
    }
}

fn by_reference(job: &str, task: &Task) -> Run {
    let Task { file, other, .. } = task;
    match job {
        "read" => timed(task, 0, || reference::read(file).map(|_| [0, 0])),
        "score" => timed(task, 0, || {
            let score = reference::score(file, other)?;
            Ok([score.infeasibility.0, score.objective.0])
        }),
        "decode" => timed(task, 0, || {
            reference::decode(file, other).map(|(_, cost)| [cost.0, 0])
        }),
        "text" => {
            let mut out = room_for_text(task);
            let mut run = timed(task, out.len(), || {
                reference::text(file, &mut out).map(|length| [length as u64, 0])
            });
            run.answer[1] = checksum(&out);
            run
        }
        "solver_text" => filled_by_reference(task),
        "check" => {
            let size = engine::sizes(file, task.bound).expect("an accepted file");
            let added = room(other);
            let words = size.words + added.words as u64;
            let rows = size.clauses + added.rows as u64;
            let marks = size.variables;
            timed(task, 0, || {
                let answer = reference::check(file, task.bound, other, words, rows, marks);
                steps(answer)
            })
        }
        _ => panic!("no job {job}"),
    }
}

/// A model filled from a solver's text.
fn filled_by_engine(task: &Task) -> Run {
    let Task { file, other, .. } = task;
    let length = variables(task);
    let [mut model, mut store] = [(); 2].map(|()| vec![0; length]);
    let (mut cost, mut value) = (0, 0);
    let mut run = timed(task, 2 * length, || {
        let number = call::solver_text(file, other, &mut model, &mut store, &mut cost, &mut value);
        match number {
            0 => Ok([cost, 0]),
            number => Err(Refusal { number, value }),
        }
    });
    run.fills(&model);
    run
}

fn filled_by_reference(task: &Task) -> Run {
    let Task { file, other, .. } = task;
    let length = variables(task);
    let mut model = Vec::new();
    let mut run = timed(task, 0, || {
        let (filled, _, cost) = reference::solver_text(file, other, length, length)?;
        model = filled;
        Ok([cost.0, 0])
    });
    run.fills(&model);
    run
}

/// Spans of calls. A proof without the empty clause is refused with 18 and its
/// steps, a text that lacks a literal with 21 and the variable.
fn timed(task: &Task, lent: usize, mut once: impl FnMut() -> Answer) -> Run {
    let mut answer = Ok([0, 0]);
    let spans = measured(task.span, task.turn, || answer = black_box(once()));
    let (refusal, answer) = match answer {
        Ok(answer) => (0, answer),
        Err(Refusal { number, value }) => (number, [value, 0]),
    };
    Run {
        refusal,
        answer,
        spans,
        lent: lent as u64,
        peak: 0,
    }
}

fn steps(answer: Result<u64, Refusal>) -> Answer {
    answer.map(|steps| [steps, 0])
}

impl Run {
    /// The second number of the answer where a model was filled.
    fn fills(&mut self, model: &[u8]) {
        if self.refusal == 0 {
            self.answer[1] = checksum(model);
        }
    }
}

/// How many bytes a model has.
fn variables(task: &Task) -> usize {
    let sizes = reference::sizes(&task.file, None).expect("an accepted file");
    sizes.variables as usize
}

fn room_for_text(task: &Task) -> Vec<u8> {
    let length = engine::text_size(&task.file).expect("an accepted file");
    vec![0; length as usize]
}

fn store(task: &Task) -> Store {
    let size = engine::sizes(&task.file, task.bound).expect("an accepted file");
    Store::for_proof(size, &task.other)
}

/// The bytes of the stores.
fn lent(store: &Store) -> usize {
    size_of_val(&store.words[..]) + size_of_val(&store.rows[..]) + size_of_val(&store.marks[..])
}

/// A number for all bytes of a text or a model (FNV-1a), as the C program gives it.
fn checksum(text: &[u8]) -> u64 {
    text.iter().fold(0xcbf2_9ce4_8422_2325, |sum, &byte| {
        (sum ^ u64::from(byte)).wrapping_mul(0x0100_0000_01b3)
    })
}

/// The most bytes that this process held.
fn peak() -> u64 {
    let status = fs::read_to_string("/proc/self/status").unwrap_or_default();
    let line = status.lines().find_map(|line| line.strip_prefix("VmHWM:"));
    let kilobytes = line.and_then(|line| line.trim().strip_suffix(" kB")?.parse::<u64>().ok());
    1024 * kilobytes.unwrap_or(0)
}
