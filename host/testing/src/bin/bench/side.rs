//! The sides' turns: each turn is a process that is given
//! `JOB SPAN TURN INSTANCE [TABLE | MODEL | TEXT | BOUND PROOF]`.

use crate::programs::{command, compile, Side};
use crate::spans::median;
use std::fs;
use std::path::PathBuf;
use std::time::{Duration, Instant};

/// Milliseconds of a span, and of the spans of one process.
const SPAN: u64 = 20;
const TURN: u64 = 60;

/// What a program printed: the refusal's number, two numbers of the answer, the
/// bytes of output and stores, the most bytes held, and microseconds of a call
/// in each span.
#[derive(Clone, Debug)]
pub struct Run {
    pub refusal: u32,
    pub answer: [u64; 2],
    pub lent: u64,
    pub peak: u64,
    pub spans: Vec<f64>,
}

impl Run {
    /// Microseconds of a call.
    pub fn time(&self) -> f64 {
        median(&self.spans)
    }

    pub fn print(&self) {
        let [first, second] = self.answer;
        let spans: Vec<String> = self.spans.iter().map(|one| format!("{one:.4}")).collect();
        println!(
            "{} {first} {second} {} {} {}",
            self.refusal,
            self.lent,
            self.peak,
            spans.join(" ")
        );
    }

    fn parse(said: &str) -> Option<Run> {
        let words: Vec<&str> = said.split_whitespace().collect();
        let [refusal, first, second, lent, peak, ref spans @ ..] = words[..] else {
            return None;
        };
        let spans: Result<Vec<f64>, _> = spans.iter().map(|one| one.parse()).collect();
        Some(Run {
            refusal: refusal.parse().ok()?,
            answer: [first.parse().ok()?, second.parse().ok()?],
            lent: lent.parse().ok()?,
            peak: peak.parse().ok()?,
            spans: spans.ok().filter(|spans| !spans.is_empty())?,
        })
    }

    /// Takes the spans of a later turn, which answers alike.
    fn add(&mut self, later: Run) {
        self.peak = self.peak.max(later.peak);
        self.spans.extend(later.spans);
    }

    fn same(&self, other: &Run) -> bool {
        (self.refusal, self.answer) == (other.refusal, other.answer)
    }
}

/// How often the sides take turns: at least and at most so often, and in between
/// until a row has taken so long.
#[derive(Clone, Copy)]
pub struct Turns {
    pub least: usize,
    pub most: usize,
    pub enough: Duration,
}

/// The programs, and the folder of their inputs.
pub struct Sides {
    folder: PathBuf,
    turns: Turns,
}

impl Sides {
    /// Compiles the C programs.
    pub fn new(turns: Turns) -> Sides {
        let folder = std::env::temp_dir().join(format!("bench-{}", std::process::id()));
        fs::create_dir_all(&folder).expect("a folder for the C programs");
        compile(&folder);
        Sides { folder, turns }
    }

    /// The spans of each side on each of several inputs, which all take turns, so
    /// that what is compared is done in the same minute. All sides must answer
    /// alike, with acceptance or, for a proof without the empty clause, with 18, and
    /// for a solver's text that lacks a literal with 21. A job's name may say more
    /// after a comma.
    pub fn compare(&self, job: &str, inputs: &[Vec<&[u8]>], sides: &[Side]) -> Vec<Vec<Run>> {
        let begin = Instant::now();
        let written = inputs.iter().enumerate();
        let arguments: Vec<Vec<String>> = written.map(|(at, all)| self.written(at, all)).collect();
        let job = job.split(',').next().unwrap_or(job);
        let turn = |words: &Vec<String>| -> Vec<Run> {
            let run = |&side: &Side| self.run(side, job, words);
            sides.iter().map(run).collect()
        };
        let mut all: Vec<Vec<Run>> = arguments.iter().map(turn).collect();
        for done in 1..self.turns.most {
            if done >= self.turns.least && begin.elapsed() >= self.turns.enough {
                break;
            }
            for (runs, words) in all.iter_mut().zip(&arguments) {
                runs.iter_mut().zip(turn(words)).for_each(|(run, later)| {
                    assert!(run.same(&later), "{job}: {run:?} and {later:?}");
                    run.add(later);
                });
            }
        }
        for runs in &all {
            let both = sides.iter().zip(runs);
            let answers = both.filter(|(side, _)| **side != Side::Lines);
            alike(job, &answers.map(|(_, run)| run).collect::<Vec<_>>());
        }
        all
    }

    /// Inputs as files, but a bound, which stands between two of them, as it is.
    fn written(&self, at: usize, inputs: &[&[u8]]) -> Vec<String> {
        let file = |(index, input): (usize, &&[u8])| {
            if inputs.len() == 3 && index == 1 {
                return String::from_utf8_lossy(input).into_owned();
            }
            let path = self.folder.join(format!("input-{at}-{index}"));
            fs::write(&path, input).expect("an input is written");
            path.display().to_string()
        };
        inputs.iter().enumerate().map(file).collect()
    }

    fn run(&self, side: Side, job: &str, arguments: &[String]) -> Run {
        let output = command(side, &self.folder)
            .args([side.job(job), &SPAN.to_string(), &TURN.to_string()])
            .args(arguments)
            .output()
            .expect("the program runs");
        let said = String::from_utf8_lossy(&output.stdout);
        Run::parse(&said).unwrap_or_else(|| {
            let error = String::from_utf8_lossy(&output.stderr);
            panic!("{job}: the program said {said:?} {error}")
        })
    }
}

/// Panics unless all sides gave the same answer, which is one that is wanted.
fn alike(job: &str, runs: &[&Run]) {
    let refusal = runs[0].refusal;
    let wanted = matches!(refusal, 0 | 18 | 21);
    assert!(wanted, "{job} is refused with {refusal}");
    for run in runs {
        assert!(run.same(runs[0]), "{job}: {run:?} and {:?}", runs[0]);
    }
}

impl Drop for Sides {
    fn drop(&mut self) {
        let _ = fs::remove_dir_all(&self.folder);
    }
}

#[cfg(test)]
mod tests {
    use super::Run;

    #[test]
    fn spans_are_read_and_gathered() {
        let mut run = Run::parse("18 5 6 700 800 1.5 4\n").expect("a run");
        assert_eq!((run.refusal, run.answer), (18, [5, 6]));
        assert_eq!((run.lent, run.peak, run.time()), (700, 800, 2.75));
        let later = Run::parse("18 5 6 700 900 9").expect("a run");
        assert!(run.same(&later));
        run.add(later);
        assert_eq!((run.peak, run.time()), (900, 4.0));
        assert!(Run::parse("18 5 6 700 800").is_none(), "no span");
    }
}
