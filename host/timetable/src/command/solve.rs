//! `timetable solve`: a week with outside solvers.
//!
//! A program that uses the standard library alone cannot catch the signal of a
//! key press that interrupts it. So the work is done by a second process of the
//! same program, in a process group of its own, which the signal does not
//! reach. It holds the end of a pipe from the first process; when that one is
//! gone, for whatever reason, the pipe ends, and the second process stops its
//! solver, says what it has, and ends too.

use super::frame::answer::{Answer, Fault, ACCEPTED};
use super::frame::declare::{CommandOption, Subcommand, Value};
use super::frame::files;
use super::frame::given::Given;
use super::frame::json::Json;
use super::frame::messages::Messages;
use super::frame::operands::{INSTANCE, JSON, OUT};
use crate::solver::solve::{self, Claim, Kind, Options, Outcome, Program, Progress, Watcher};
use std::env;
use std::ffi::OsStr;
use std::io::{self, Read};
use std::os::unix::process::CommandExt;
use std::path::{Path, PathBuf};
use std::process::{Command, Stdio};
use std::sync::atomic::{AtomicBool, Ordering};
use std::sync::Arc;
use std::thread;
use std::time::{Duration, Instant};

/// The exit status of a week that leaves something open.
const OPEN: u8 = 3;
/// The time for solvers if none is given.
const SECONDS: u64 = 600;
/// The most that a time can be: a year.
const MOST_SECONDS: u64 = 365 * 24 * 60 * 60;
/// Set for the process that does the work: its standard input is the pipe.
const WORKER: &str = "TIMETABLE_SOLVE_WORKER";

pub const SUBCOMMAND: Subcommand = Subcommand {
    name: "solve",
    about: "the cheapest timetable, found by solvers, with the proof that none is cheaper",
    operands: &[INSTANCE],
    options: &[
        CommandOption {
            long: OUT,
            short: Some('o'),
            value: Some(("DIR", Value::Path)),
            about: "the folder for the files; the instance's name with .week if not given",
        },
        CommandOption {
            long: "time",
            short: None,
            value: Some(("SECONDS", Value::Number)),
            about: "the time for the solvers; 600 if not given",
        },
        CommandOption {
            long: "solver",
            short: None,
            value: Some(("PROGRAMS", Value::Text)),
            about: "clasp, cadical, kissat or picosat, or paths of them, with commas between",
        },
        JSON,
    ],
    prints: "what is known, as 'costs 11; none at 10 or less, checked', then the files by name",
    details: "clasp looks for models, one of the others for proofs; without clasp, that one is \
              asked for less again and again. Every cost is the engine's price of a model that it \
              decoded, every bound one that it checked a proof for; where they do not meet, the \
              costs that are left open are told, and the exit status is 3. That there is no \
              timetable at all is told where it checked a proof against the hard clauses alone. \
              Interrupted, it stops the solver and tells what it has; the files stay.",
    refusals: &[1..=6, 8..=8, 19..=19, 22..=22],
    run,
};

fn run(given: &Given, messages: &mut Messages) -> Result<Answer, Fault> {
    let options = options(given)?;
    let stop = Arc::new(AtomicBool::new(false));
    match env::var_os(WORKER) {
        Some(_) => stop_at_end_of_input(Arc::clone(&stop)),
        // What is no regular file cannot be read a second time.
        None if !Path::new(&given.file("INSTANCE").name).is_file() => {}
        None => return by_worker(),
    }
    let mut watcher = Spoken {
        messages,
        stop,
        said: None,
    };
    let outcome = solve::solve(given.bytes("INSTANCE"), &options, &mut watcher)?;
    Ok(answer(&outcome))
}

fn options(given: &Given) -> Result<Options, Fault> {
    let programs = match given.word_if("solver") {
        Some(words) => Program::listed(words).map_err(|word| {
            let known = Kind::ALL.map(Kind::name).join(", ");
            Fault::Usage(format!("'{word}' is none of the solvers known: {known}"))
        })?,
        None => Program::installed(),
    };
    let folder = match given.path_if(OUT) {
        Some(folder) if files::is_standard(folder.as_os_str()) => {
            let message = "the option '--out' wants a folder, not standard output";
            return Err(Fault::Usage(message.to_string()));
        }
        Some(folder) => folder.to_path_buf(),
        None => own_folder(&given.file("INSTANCE").name),
    };
    let seconds = given.number_if("time").unwrap_or(SECONDS);
    Ok(Options {
        folder,
        time: Duration::from_secs(seconds.min(MOST_SECONDS)),
        programs,
    })
}

/// The folder of an instance that none was given for: its name, without what
/// stands behind the last dot, with `.week`.
fn own_folder(instance: &str) -> PathBuf {
    let stem = Path::new(instance).file_stem();
    let mut name = stem.unwrap_or(OsStr::new("instance")).to_os_string();
    name.push(".week");
    PathBuf::from(name)
}

/// Lets a second process of this program do the work, and waits for it.
fn by_worker() -> Result<Answer, Fault> {
    let failed = |error: io::Error| Fault::Failed(format!("a second process: {error}"));
    let mut command = Command::new(env::current_exe().map_err(failed)?);
    command.args(env::args_os().skip(1)).env(WORKER, "1");
    let mut worker = command
        .stdin(Stdio::piped())
        .process_group(0)
        .spawn()
        .map_err(failed)?;
    // Kept open until the worker ends, or this process does.
    let pipe = worker.stdin.take();
    let status = worker.wait().map_err(failed)?;
    drop(pipe);
    match status.code().and_then(|code| u8::try_from(code).ok()) {
        Some(status) => Ok(Answer {
            status,
            ..Answer::default()
        }),
        None => Err(Fault::Failed(format!("the second process: {status}"))),
    }
}

/// Asks for a stop when standard input, the pipe, ends.
fn stop_at_end_of_input(stop: Arc<AtomicBool>) {
    thread::spawn(move || {
        let mut nothing = Vec::new();
        // An error is an end too.
        let _ = io::stdin().read_to_end(&mut nothing);
        stop.store(true, Ordering::Relaxed);
    });
}

fn answer(outcome: &Outcome) -> Answer {
    let sentence = outcome.sentence();
    let files = files_of(outcome);
    let mut report = match outcome.interrupted {
        true => format!("interrupted\n{sentence}\n"),
        false => format!("{sentence}\n"),
    };
    for (name, path) in &files {
        report += &format!("{name} {path}\n");
    }
    let mut fields = vec![
        ("answer", Json::from(sentence.as_str())),
        ("settled", Json::from(outcome.is_settled())),
        ("interrupted", Json::from(outcome.interrupted)),
        (
            "none_at_all",
            Json::from(outcome.claim() == Some(Claim::AnyCost)),
        ),
    ];
    if let Some(best) = &outcome.best {
        fields.push(("cost", Json::from(best.cost)));
    }
    if let Some(refuted) = &outcome.refuted {
        let bound = refuted.claim.bound();
        fields.extend(bound.map(|bound| ("refuted", Json::from(bound))));
        fields.push(("steps", Json::from(refuted.steps)));
    }
    let paths = files
        .iter()
        .map(|(name, path)| (*name, Json::from(path.as_str())));
    fields.extend(paths);
    let notes = outcome.notes.iter().map(|note| format!("{note}\n"));
    Answer {
        report: report.into_bytes(),
        json: Some(Json::object(fields)),
        remarks: notes.collect(),
        status: match outcome.is_settled() {
            true => ACCEPTED,
            false => OPEN,
        },
        ..Answer::default()
    }
}

/// The files that matter, with what each is.
fn files_of(outcome: &Outcome) -> Vec<(&'static str, String)> {
    let best = outcome.best.iter();
    let best = best.flat_map(|best| [("model", &best.model), ("timetable", &best.timetable)]);
    let refuted = outcome.refuted.iter();
    let refuted = refuted.map(|refuted| ("proof", &refuted.proof));
    let files = best.chain(refuted);
    files
        .map(|(name, path)| (name, path.display().to_string()))
        .collect()
}

/// Says how far the week is: at once if something is new, else every few seconds.
struct Spoken<'a, 'b> {
    messages: &'a mut Messages<'b>,
    stop: Arc<AtomicBool>,
    /// When something was said last, and what, without its time.
    said: Option<(Instant, String)>,
}

impl Watcher for Spoken<'_, '_> {
    fn tell(&mut self, progress: &Progress) {
        const PAUSE: Duration = Duration::from_secs(5);
        const TURN: Duration = Duration::from_millis(500);
        let known = |cost: Option<u64>| cost.map_or("none".to_string(), |cost| cost.to_string());
        let line = format!(
            "best cost {}, bound refuted {}; {}",
            known(progress.best),
            known(progress.refuted),
            progress.doing
        );
        let due = match &self.said {
            None => true,
            Some((when, last)) if *last == line => when.elapsed() >= PAUSE,
            Some((when, _)) => when.elapsed() >= TURN,
        };
        if due {
            let seconds = progress.elapsed.as_secs_f64();
            self.messages.progress(&format!("{seconds:.1} s: {line}"));
            self.said = Some((Instant::now(), line));
        }
    }

    fn stop(&self) -> bool {
        self.stop.load(Ordering::Relaxed)
    }
}
