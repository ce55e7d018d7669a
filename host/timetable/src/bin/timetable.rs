//! The command `timetable`; see `timetable --help`.

use std::env;
use std::io::{self, IsTerminal, Write};
use std::os::fd::AsFd;
use std::process::ExitCode;
use std::sync::atomic::{AtomicBool, Ordering};
use timetable::command::{self, frame::messages::Messages};

fn main() -> ExitCode {
    let words = env::args_os().skip(1).collect();
    let terminal = io::stderr().is_terminal();
    let mut stderr = io::stderr();
    let mut messages = Messages::new(&mut stderr, terminal);
    let status = match CLOSED.load(Ordering::Relaxed) {
        true => command::run(words, &mut Closed, &mut messages),
        false => command::run(words, &mut io::stdout(), &mut messages),
    };
    ExitCode::from(status)
}

/// Whether standard output was closed when the program started.
static CLOSED: AtomicBool = AtomicBool::new(false);

/// Looks at standard output before `main`, because by then the standard library
/// has put the null device in the place of a closed descriptor.
extern "C" fn look_at_standard_output() {
    let copy = io::stdout().as_fd().try_clone_to_owned();
    CLOSED.store(copy.is_err(), Ordering::Relaxed);
}

#[used]
#[link_section = ".init_array"]
static AT_START: extern "C" fn() = look_at_standard_output;

/// A closed standard output: nothing can be written to it.
struct Closed;

impl Write for Closed {
    fn write(&mut self, _: &[u8]) -> io::Result<usize> {
        Err(io::Error::other("it is closed"))
    }

    fn flush(&mut self) -> io::Result<()> {
        Ok(())
    }
}
