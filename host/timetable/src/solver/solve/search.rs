//! What the solvers are asked, in which order, and for how long.

use super::claim::Claim;
use super::process::{self, End, Judge};
use super::programs::Program;
use super::week::Week;
use crate::engine::{self, LARGEST_BOUND};
use crate::solver::answers::{Answer, Reading};
use crate::solver::dimacs;
use crate::solver::Fault;
use std::time::{Duration, Instant};

/// The least time without a better model after which an optimiser is ended.
const PATIENCE: Duration = Duration::from_secs(10);

/// Looks for the best timetable and for a proof that none is better.
pub fn run(
    week: &mut Week,
    optimiser: Option<&Program>,
    refuter: Option<&Program>,
) -> Result<(), Fault> {
    if let Some(optimiser) = optimiser {
        optimise(week, optimiser)?;
    }
    let Some(refuter) = refuter else {
        return Ok(());
    };
    if week.best_cost().is_none() {
        let time = week.left();
        ask(week, refuter, Claim::AnyCost, time)?;
    }
    let start = match optimiser {
        Some(_) => Start::Top,
        None => Start::Middle,
    };
    close_gap(week, refuter, start)
}

/// Where in the costs that are open the first question is put.
#[derive(Clone, Copy, PartialEq, Eq)]
enum Start {
    /// One below the best, which is probably the least there is.
    Top,
    /// In the middle, since the best is just the first that was found.
    Middle,
}

/// Lets an optimiser look for ever better models: until it is done, half of the
/// time is over, or it has found nothing better for as long as it took to find
/// the best, and for `PATIENCE` at least.
fn optimise(week: &mut Week, program: &Program) -> Result<(), Fault> {
    let clauses = engine::text(week.file)?;
    let path = week.folder.write("clauses.wcnf", &clauses)?;
    drop(clauses);
    let started = Instant::now();
    let time = week.left() / 2;
    let mut judge = Finding {
        reading: Reading::new(week.hard.variables as usize),
        doing: format!("{} looks for better models", program.kind.name()),
        started,
        improved: started,
        until: started + time,
        impatient: true,
        week,
    };
    let end = process::run(program.optimising(&path, time), &mut judge)?;
    let Finding { reading, week, .. } = judge;
    if (reading.end(), end) == (Answer::Unknown, End::Finished) {
        week.note(format!("{} ended without an answer", program.kind.name()));
    }
    Ok(())
}

/// Asks for less than the best cost until there is a proof, or the time is
/// over. A bound that takes too long is left for lower ones, which are easier
/// to refute: the middle of what is open, again and again.
fn close_gap(week: &mut Week, refuter: &Program, start: Start) -> Result<(), Fault> {
    // The lowest bound that was left open.
    let mut left_open: Option<u64> = None;
    while let Some(cost) = week.best_cost().filter(|&cost| cost > 0) {
        let Some(top) = largest_bound(week.file, cost - 1) else {
            week.note("the formula is too large for any bound".to_string());
            return Ok(());
        };
        let lowest = week.refuted_bound().map_or(0, |bound| bound + 1);
        let highest = match left_open {
            Some(open) if open <= top => open.checked_sub(1),
            _ => Some(top),
        };
        let Some(highest) = highest.filter(|&highest| highest >= lowest) else {
            if lowest > top && top < cost - 1 {
                week.note(format!("no bound above {top} can be asked"));
            }
            return Ok(());
        };
        let time = week.left();
        if time.is_zero() {
            return Ok(());
        }
        let bound = match (start, left_open) {
            (Start::Top, None) => highest,
            _ => lowest + (highest - lowest).div_ceil(2),
        };
        if ask(week, refuter, Claim::Bound(bound), time / 2)? == Reply::Open {
            left_open = Some(bound);
        }
    }
    Ok(())
}

/// The largest bound up to `wanted` that the engine has a formula for.
fn largest_bound(file: &[u8], wanted: u64) -> Option<u64> {
    let fits = |bound: u64| engine::sizes(file, bound).is_ok();
    let mut bound = wanted.min(LARGEST_BOUND);
    if fits(bound) {
        return Some(bound);
    }
    // `low` fits, `bound` does not.
    let mut low = fits(0).then_some(0)?;
    while bound - low > 1 {
        let middle = low + (bound - low) / 2;
        match fits(middle) {
            true => low = middle,
            false => bound = middle,
        }
    }
    Some(low)
}

/// What came of asking for a claim's proof.
#[derive(Clone, Copy, PartialEq, Eq)]
enum Reply {
    /// A model, which was offered to the engine.
    Model,
    /// A proof, which the engine has checked.
    Refuted,
    Open,
}

/// Asks `program` for a proof of `claim`, or a model against it, for `time` at most.
fn ask(week: &mut Week, program: &Program, claim: Claim, time: Duration) -> Result<Reply, Fault> {
    let name = claim.name();
    let formula = claim.formula(week.file, &week.hard)?;
    let clauses = week
        .folder
        .write(&format!("{name}.cnf"), &dimacs::text(&formula))?;
    let proof = week.folder.path(&format!("{name}.drat"));
    week.folder.remove(&format!("{name}.drat"));
    let command = program.refuting(&clauses, &proof, time);
    let answer = answer(week, program, claim, time, command)?;
    let reply = match answer {
        Answer::Model(_) => Reply::Model,
        Answer::Unsatisfiable if week.refute(claim, &formula)? => Reply::Refuted,
        _ => Reply::Open,
    };
    if reply != Reply::Refuted {
        for kind in ["cnf", "drat"] {
            week.folder.remove(&format!("{name}.{kind}"));
        }
    }
    Ok(reply)
}

/// What the solver says in its time; a model is offered to the engine.
fn answer(
    week: &mut Week,
    program: &Program,
    claim: Claim,
    time: Duration,
    command: std::process::Command,
) -> Result<Answer, Fault> {
    let name = program.kind.name();
    let started = Instant::now();
    let before = week.best_cost();
    let mut judge = Finding {
        reading: Reading::new(week.hard.variables as usize),
        doing: match claim {
            Claim::AnyCost => format!("{name} looks for any timetable"),
            Claim::Bound(bound) => format!("{name} looks for one at {bound} or less"),
        },
        started,
        improved: started,
        until: started + time,
        impatient: false,
        week,
    };
    let end = process::run(command, &mut judge)?;
    let Finding { reading, week, .. } = judge;
    match (reading.end(), end) {
        (Answer::Model(_), _) if week.best_cost() == before => {
            week.note(format!("{name} gave a model that is no better timetable"));
            Ok(Answer::Unknown)
        }
        (Answer::Unsatisfiable, End::Ended) => Ok(Answer::Unknown),
        (Answer::Unknown, End::Finished) => {
            week.note(format!("{name} ended without an answer"));
            Ok(Answer::Unknown)
        }
        (answer, _) => Ok(answer),
    }
}

/// Offers every model of a solver to the engine, and ends the solver in time.
struct Finding<'a, 'b> {
    week: &'a mut Week<'b>,
    reading: Reading,
    doing: String,
    started: Instant,
    /// When the last better model came.
    improved: Instant,
    until: Instant,
    /// Whether it is ended when nothing better comes.
    impatient: bool,
}

impl Judge for Finding<'_, '_> {
    fn line(&mut self, line: &[u8]) -> Result<(), Fault> {
        let found = match self.reading.line(line) {
            Ok(found) => found,
            Err(fault) => {
                self.week.note(format!("a solver's output: {fault}"));
                None
            }
        };
        if let Some(found) = found {
            let before = self.week.best_cost();
            self.week.offer(found)?;
            if self.week.best_cost() != before {
                self.improved = Instant::now();
            }
        }
        Ok(())
    }

    fn goes_on(&mut self) -> Result<bool, Fault> {
        self.week.tell(&self.doing)?;
        let found = self.week.best_cost().is_some();
        let patience = PATIENCE.max(self.improved - self.started);
        let impatient = self.impatient && found && self.improved.elapsed() > patience;
        Ok(!impatient && Instant::now() < self.until)
    }
}
