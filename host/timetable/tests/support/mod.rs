//! The command run as a program, and the files that it is given.
#![allow(dead_code)]

use std::fs;
use std::io::Write;
use std::os::unix::fs::PermissionsExt;
use std::path::{Path, PathBuf};
use std::process::{Command, Stdio};
use timetable::number::write_number;

/// File A of the specification's worked examples, and its proof at bound 3.
pub const FILE_A: &str = "01 01 00 01 00 01 00 01 03 04 01 01";
pub const PROOF_A: &str = "61 11 00 05 04 02 06 0E 10 00";

pub fn hex(text: &str) -> Vec<u8> {
    text.split_whitespace()
        .map(|byte| u8::from_str_radix(byte, 16).expect("two hexadecimal digits"))
        .collect()
}

/// A file that is accepted with more than 8,000,000 variables: 125 times and
/// 505 events of duration 124.
pub fn oversized() -> Vec<u8> {
    let events = [124, 0].repeat(505);
    let mut bytes = Vec::new();
    for value in [vec![125, 505, 0], events, vec![0, 0]].concat() {
        write_number(value, &mut bytes);
    }
    bytes
}

/// What a run printed, said and ended with.
#[derive(Debug, PartialEq, Eq)]
pub struct Run {
    pub printed: String,
    pub said: String,
    pub status: i32,
}

pub fn run(words: &[&str]) -> Run {
    run_with(words, b"")
}

pub fn run_with(words: &[&str], input: &[u8]) -> Run {
    let mut child = command(words)
        .stdin(Stdio::piped())
        .stdout(Stdio::piped())
        .stderr(Stdio::piped())
        .spawn()
        .expect("the command starts");
    let mut stdin = child.stdin.take().expect("its standard input");
    // A run that does not read its input may end before all of it is written.
    let _ = stdin.write_all(input);
    drop(stdin);
    let output = child.wait_with_output().expect("the command ends");
    Run {
        printed: String::from_utf8(output.stdout).expect("text"),
        said: String::from_utf8(output.stderr).expect("text"),
        status: output.status.code().expect("an exit status"),
    }
}

/// The command with its words, in the tests' folder.
pub fn command(words: &[&str]) -> Command {
    let mut command = Command::new(program());
    command.args(words).current_dir(folder());
    command
}

pub fn program() -> &'static str {
    env!("CARGO_BIN_EXE_timetable")
}

/// The folder above the package.
pub fn host() -> PathBuf {
    Path::new(env!("CARGO_MANIFEST_DIR")).join("..")
}

/// The folder of the whole repository.
pub fn repository() -> PathBuf {
    host().join("..")
}

pub fn schools() -> PathBuf {
    host().join("schools")
}

pub fn school(name: &str) -> String {
    schools().join(name).to_str().expect("a path").to_string()
}

/// A recording of what a solver printed or wrote.
pub fn recorded(name: &str) -> String {
    let path = host().join("recorded").join(name);
    path.to_str().expect("a path").to_string()
}

/// Where the runs of this test program stand, and where their files are written.
pub fn folder() -> PathBuf {
    let folder = Path::new(env!("CARGO_TARGET_TMPDIR")).join(env!("CARGO_CRATE_NAME"));
    fs::create_dir_all(&folder).expect("the tests' folder");
    folder
}

/// Writes a file for a run, under a name that no other test of its program uses.
pub fn file(name: &str, bytes: &[u8]) -> String {
    fs::write(folder().join(name), bytes).expect("a file in the tests' folder");
    name.to_string()
}

/// Stand-ins for solvers: makes scripts of these names in a folder of their own, each with the
/// variable R for the recordings, and gives their paths with commas between.
pub fn stand_ins(folder_name: &str, scripts: &[(&str, &str)]) -> String {
    let folder = folder().join(folder_name);
    fs::create_dir_all(&folder).expect("a folder for the scripts");
    let paths = scripts.iter().map(|(name, script)| {
        let path = folder.join(name);
        let recorded = host().join("recorded");
        let text = format!("#!/bin/sh\nR='{}'\n{script}\n", recorded.display());
        fs::write(&path, text).expect("a script");
        fs::set_permissions(&path, fs::Permissions::from_mode(0o755)).expect("a script that runs");
        path.to_str().expect("a path").to_string()
    });
    paths.collect::<Vec<_>>().join(",")
}
