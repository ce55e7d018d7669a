//! The solvers that are known, and how each is called.

use std::ffi::OsString;
use std::path::Path;
use std::process::{Command, Stdio};
use std::time::Duration;

/// A solver of which the calls are known.
#[derive(Clone, Copy, Debug, PartialEq, Eq)]
pub enum Kind {
    Clasp,
    Cadical,
    Kissat,
    Picosat,
}

impl Kind {
    /// In the order in which they are preferred.
    pub const ALL: [Kind; 4] = [Kind::Clasp, Kind::Cadical, Kind::Kissat, Kind::Picosat];

    pub fn name(self) -> &'static str {
        match self {
            Kind::Clasp => "clasp",
            Kind::Cadical => "cadical",
            Kind::Kissat => "kissat",
            Kind::Picosat => "picosat",
        }
    }
}

/// A solver's program.
#[derive(Clone, Debug, PartialEq, Eq)]
pub struct Program {
    pub kind: Kind,
    /// A path, or a name that is looked for where programs stand.
    pub path: OsString,
}

impl Program {
    /// The program of a path or name. Its kind is told by how its name begins.
    pub fn named(word: &str) -> Option<Program> {
        let name = Path::new(word).file_name()?.to_string_lossy();
        let kind = Kind::ALL
            .into_iter()
            .find(|kind| name.starts_with(kind.name()))?;
        Some(Program {
            kind,
            path: OsString::from(word),
        })
    }

    /// The programs of a list with commas, or the word that names none.
    pub fn listed(words: &str) -> Result<Vec<Program>, String> {
        let program = |word: &str| Program::named(word).ok_or_else(|| word.to_string());
        words.split(',').map(program).collect()
    }

    /// The known solvers that this machine has.
    pub fn installed() -> Vec<Program> {
        let programs = Kind::ALL.into_iter().map(|kind| Program {
            kind,
            path: OsString::from(kind.name()),
        });
        programs.filter(Program::runs).collect()
    }

    /// Whether the program can be started.
    pub fn runs(&self) -> bool {
        let mut command = Command::new(&self.path);
        command.arg("--version").stdin(Stdio::null());
        let status = command.stdout(Stdio::null()).stderr(Stdio::null()).status();
        status.is_ok_and(|status| status.success())
    }

    /// Whether it finds models of ever lower cost.
    pub fn optimises(&self) -> bool {
        self.kind == Kind::Clasp
    }

    /// Whether it writes proofs.
    pub fn refutes(&self) -> bool {
        !self.optimises()
    }

    /// The call that looks for models of ever lower cost in a "p wcnf" text.
    pub fn optimising(&self, clauses: &Path, time: Duration) -> Command {
        let mut command = self.limited(time);
        command.arg(clauses);
        command
    }

    /// The call that looks for a model of a "p cnf" text, or else writes a proof.
    pub fn refuting(&self, clauses: &Path, proof: &Path, time: Duration) -> Command {
        let mut command = self.limited(time);
        match self.kind {
            Kind::Picosat => command.arg("-R").arg(proof).arg(clauses),
            _ => command.arg("-q").arg(clauses).arg(proof),
        };
        command
    }

    /// The program with a limit of its own, some seconds above `time`, so that
    /// it ends even if nobody is left to end it.
    fn limited(&self, time: Duration) -> Command {
        let seconds = time.as_secs().saturating_add(10).min(1_000_000);
        let mut command = Command::new(&self.path);
        match self.kind {
            Kind::Clasp => command.arg(format!("--time-limit={seconds}")),
            Kind::Cadical => command.arg("-t").arg(seconds.to_string()),
            Kind::Kissat => command.arg(format!("--time={seconds}")),
            Kind::Picosat => command.arg("-L").arg(seconds.to_string()),
        };
        command
    }
}

#[cfg(test)]
mod tests {
    use super::{Kind, Program};

    #[test]
    fn a_program_is_known_by_its_name() {
        let kinds = |words| {
            let programs = Program::listed(words)?;
            Ok(programs.iter().map(|program| program.kind).collect())
        };
        assert_eq!(
            kinds("clasp,./x/cadical-1.9.5"),
            Ok(vec![Kind::Clasp, Kind::Cadical])
        );
        assert_eq!(kinds("kissat"), Ok(vec![Kind::Kissat]));
        assert_eq!(kinds("clasp,gurobi"), Err("gurobi".to_string()));
        assert_eq!(kinds(""), Err(String::new()));
        assert_eq!(kinds(".."), Err("..".to_string()));
    }
}
