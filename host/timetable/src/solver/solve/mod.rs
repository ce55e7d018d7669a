//! A week with outside solvers: a model found, decoded and priced by the
//! engine; then the solver is asked for one less, and its proof that there is
//! none is turned into steps and checked by the engine.
//!
//! A solver that optimises (clasp) is asked first, on the engine's own text;
//! without one, a solver that writes proofs is asked again and again for less
//! than the best cost so far. What is claimed at the end comes from the
//! engine's answers alone; a solver's word decides only what is tried next.

mod claim;
mod folder;
mod outcome;
mod process;
mod programs;
mod search;
mod week;

pub use claim::Claim;
pub use outcome::{Best, Outcome, Refuted};
pub use programs::{Kind, Program};

use super::Fault;
use std::path::PathBuf;
use std::time::Duration;

/// How a week is to be gone through.
#[derive(Clone, Debug)]
pub struct Options {
    /// The folder for the files.
    pub folder: PathBuf,
    /// The time for the solvers together. A proof that has come is turned and
    /// checked even if its time is over by then.
    pub time: Duration,
    /// The solvers, the preferred first.
    pub programs: Vec<Program>,
}

/// How far a week is.
pub struct Progress<'a> {
    pub elapsed: Duration,
    pub best: Option<u64>,
    /// The highest bound refuted.
    pub refuted: Option<u64>,
    pub doing: &'a str,
}

/// Who is told how far the week is, and may stop it.
pub trait Watcher {
    fn tell(&mut self, progress: &Progress);

    /// Whether a stop is asked for; what is known by then is kept.
    fn stop(&self) -> bool;
}

/// Goes through the week of an instance file.
pub fn solve(file: &[u8], options: &Options, watcher: &mut dyn Watcher) -> Result<Outcome, Fault> {
    let optimiser = options.programs.iter().find(|one| one.optimises());
    let refuter = options.programs.iter().find(|one| one.refutes());
    if optimiser.is_none() && refuter.is_none() {
        let names = Kind::ALL.map(Kind::name).join(", ");
        return Err(Fault::Failed(format!(
            "there is no solver; known are: {names} (of Debian's packages clasp and cadical go together)"
        )));
    }
    let mut week = week::Week::new(file, options, watcher)?;
    match search::run(&mut week, optimiser, refuter) {
        Ok(()) => {}
        Err(Fault::Stopped) => week.outcome.interrupted = true,
        Err(fault) => return Err(fault),
    }
    if refuter.is_none() && !week.outcome.is_settled() {
        let note = "no solver that writes proofs was there to ask for less".to_string();
        week.outcome.notes.push(note);
    }
    Ok(week.outcome)
}
