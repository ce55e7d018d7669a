//! Those that are compared, each as a program with the same arguments.

use std::path::Path;
use std::process::Command;

/// Who does a job. Plain C is the yardstick, tuned C shows what is still to be
/// had. Lines is plain C that counts the lines of a text and does no more.
#[derive(Clone, Copy, Debug, PartialEq, Eq)]
pub enum Side {
    Engine,
    Plain,
    Tuned,
    Reference,
    Lines,
}

impl Side {
    /// The word after `bench`, or the program's file.
    fn word(self) -> &'static str {
        match self {
            Side::Engine => "engine",
            Side::Plain | Side::Lines => "plain",
            Side::Tuned => "tuned",
            Side::Reference => "reference",
        }
    }

    /// What the program is told to do where `job` is to be done.
    pub fn job(self, job: &str) -> &str {
        match self {
            Side::Lines => "lines",
            _ => job,
        }
    }
}

/// A C program: what `cc` is told, and its files in tests/c.
struct Compiled {
    side: Side,
    level: &'static str,
    files: [&'static str; 7],
}

/// Tuned C has files of its own only where it differs from plain C.
const COMPILED: [Compiled; 2] = [
    Compiled {
        side: Side::Plain,
        level: "-O2",
        files: [
            "plain/main.c",
            "plain/instance.c",
            "plain/score.c",
            "plain/text.c",
            "plain/decode.c",
            "plain/check.c",
            "plain/solver_text.c",
        ],
    },
    Compiled {
        side: Side::Tuned,
        level: "-O3",
        files: [
            "plain/main.c",
            "plain/instance.c",
            "tuned/score.c",
            "tuned/text.c",
            "tuned/decode.c",
            "tuned/check.c",
            "plain/solver_text.c",
        ],
    },
];

/// Compiles the C programs into a folder.
pub fn compile(folder: &Path) {
    let sources = Path::new(env!("CARGO_MANIFEST_DIR")).join("../../tests/c");
    for program in COMPILED {
        let name = program.side.word();
        let status = Command::new("cc")
            .args([program.level, "-std=c11", "-o"])
            .arg(folder.join(name))
            .args(program.files.map(|file| sources.join(file)))
            .status()
            .expect("cc runs");
        assert!(status.success(), "{name} C compiles");
    }
}

/// A side's program, without its arguments.
pub fn command(side: Side, folder: &Path) -> Command {
    match side {
        Side::Plain | Side::Tuned | Side::Lines => Command::new(folder.join(side.word())),
        Side::Engine | Side::Reference => {
            let this = std::env::current_exe().expect("this program's path");
            let mut command = Command::new(this);
            command.arg(side.word());
            command
        }
    }
}
