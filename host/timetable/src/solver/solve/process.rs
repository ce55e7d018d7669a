//! A solver's program that runs, watched: its output comes line by line, and it
//! is ended when its time is up or when a stop is asked for.

use crate::solver::Fault;
use std::io::{BufRead, BufReader, Read};
use std::process::{Child, Command, Stdio};
use std::sync::mpsc::{sync_channel, Receiver, RecvTimeoutError, SyncSender};
use std::thread;
use std::time::Duration;

/// How a run ended.
#[derive(Clone, Copy, Debug, PartialEq, Eq)]
pub enum End {
    /// By itself.
    Finished,
    /// It was ended, as `Judge` asked.
    Ended,
}

/// Who reads the lines of a run, and may end it.
pub trait Judge {
    fn line(&mut self, line: &[u8]) -> Result<(), Fault>;

    /// Whether the run may go on; asked a few times a second. An error ends it too.
    fn goes_on(&mut self) -> Result<bool, Fault>;
}

/// How often the judge is asked.
const PAUSE: Duration = Duration::from_millis(50);
/// How many lines may wait for the judge.
const WAITING: usize = 256;

/// Runs `command`. A failed start is told in words.
pub fn run(mut command: Command, judge: &mut dyn Judge) -> Result<End, Fault> {
    command.stdin(Stdio::null()).stdout(Stdio::piped());
    let child = command.stderr(Stdio::null()).spawn();
    let name = command.get_program().to_string_lossy().into_owned();
    let mut child = child.map_err(|error| Fault::Failed(format!("{name}: {error}")))?;
    let output = child.stdout.take();
    let (sender, lines) = sync_channel(WAITING);
    // The thread ends with the output, or when nobody wants its lines.
    thread::spawn(move || read(output, &sender));
    let end = watch(&mut child, &lines, judge);
    // It may have ended by itself; a program that is gone cannot be killed.
    let _ = child.kill();
    let _ = child.wait();
    end
}

/// Sends the lines of `output` one by one, until nobody wants them.
fn read(output: Option<impl Read>, lines: &SyncSender<Vec<u8>>) {
    let Some(output) = output else {
        return;
    };
    let mut output = BufReader::new(output);
    loop {
        let mut line = Vec::new();
        match output.read_until(b'\n', &mut line) {
            Ok(length) if length > 0 && lines.send(line).is_ok() => {}
            _ => return,
        }
    }
}

/// Hands the lines to the judge until the program ends or the judge ends it.
fn watch(
    child: &mut Child,
    lines: &Receiver<Vec<u8>>,
    judge: &mut dyn Judge,
) -> Result<End, Fault> {
    let mut open = true;
    loop {
        match lines.recv_timeout(PAUSE) {
            Ok(line) => {
                judge.line(&line)?;
                // Further lines first, but not for ever.
                for line in lines.try_iter().take(WAITING) {
                    judge.line(&line)?;
                }
            }
            Err(RecvTimeoutError::Timeout) => {}
            Err(RecvTimeoutError::Disconnected) if open => open = false,
            Err(RecvTimeoutError::Disconnected) => thread::sleep(PAUSE),
        }
        let ended = child.try_wait();
        let ended = ended.map_err(|error| Fault::Failed(error.to_string()))?;
        if !open && ended.is_some() {
            return Ok(End::Finished);
        }
        if !judge.goes_on()? {
            return Ok(End::Ended);
        }
    }
}

#[cfg(test)]
mod tests {
    use super::{run, End, Judge};
    use crate::solver::Fault;
    use std::process::Command;
    use std::time::{Duration, Instant};

    struct Lines {
        seen: Vec<String>,
        /// The program is ended after so many lines.
        enough: usize,
    }

    impl Judge for Lines {
        fn line(&mut self, line: &[u8]) -> Result<(), Fault> {
            let line = String::from_utf8_lossy(line);
            self.seen.push(line.trim_end().to_string());
            Ok(())
        }

        fn goes_on(&mut self) -> Result<bool, Fault> {
            Ok(self.seen.len() < self.enough)
        }
    }

    fn lines(script: &str, enough: usize) -> (Result<End, Fault>, Vec<String>) {
        let mut command = Command::new("sh");
        command.args(["-c", script]);
        let mut judge = Lines {
            seen: Vec::new(),
            enough,
        };
        (run(command, &mut judge), judge.seen)
    }

    #[test]
    fn the_output_comes_whole() {
        let (end, seen) = lines("echo one; sleep 0.2; printf 'two\\nthree'", usize::MAX);
        assert_eq!(end, Ok(End::Finished));
        assert_eq!(seen, ["one", "two", "three"]);
        let (end, seen) = lines("seq 5000", usize::MAX);
        assert_eq!(end, Ok(End::Finished));
        assert_eq!(seen.len(), 5000);
    }

    #[test]
    fn a_program_is_ended_when_the_judge_says_so() {
        let started = Instant::now();
        let (end, seen) = lines("echo one; exec sleep 600", 1);
        assert_eq!(end, Ok(End::Ended));
        assert_eq!(seen, ["one"]);
        assert!(started.elapsed() < Duration::from_secs(60));
    }

    #[test]
    fn a_program_that_is_not_there_is_told() {
        let mut judge = Lines {
            seen: Vec::new(),
            enough: 1,
        };
        let missing = Command::new("no-such-solver");
        let Err(Fault::Failed(words)) = run(missing, &mut judge) else {
            panic!("it started");
        };
        assert!(words.starts_with("no-such-solver: "));
    }
}
