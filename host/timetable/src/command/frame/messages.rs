//! What is said on standard error while a subcommand runs.

use std::io::Write;

pub struct Messages<'a> {
    writer: &'a mut dyn Write,
    /// Whether someone looks at a terminal, where a line can be rewritten.
    terminal: bool,
    /// Whether the terminal's last line is one of progress.
    in_progress: bool,
}

// A message that cannot be written has nowhere to go, so failures are passed over.
impl<'a> Messages<'a> {
    pub fn new(writer: &'a mut dyn Write, terminal: bool) -> Messages<'a> {
        Messages {
            writer,
            terminal,
            in_progress: false,
        }
    }

    /// Says `text`, which ends its own lines.
    pub fn say(&mut self, text: &str) {
        self.end_progress();
        let _ = self.writer.write_all(text.as_bytes());
        let _ = self.writer.flush();
    }

    /// Tells how far the work is: on a terminal in one line that is rewritten,
    /// elsewhere in a line of its own.
    pub fn progress(&mut self, line: &str) {
        let _ = match self.terminal {
            true => write!(self.writer, "\r\x1b[K{line}"),
            false => writeln!(self.writer, "{line}"),
        };
        let _ = self.writer.flush();
        self.in_progress = self.terminal;
    }

    /// Leaves the line of progress.
    fn end_progress(&mut self) {
        if self.in_progress {
            let _ = writeln!(self.writer);
            self.in_progress = false;
        }
    }
}
