//! `timetable compile`: the instance file of a school's text.

use super::frame::answer::{Answer, Fault};
use super::frame::declare::{CommandOption, Count, Operand, Subcommand, Value};
use super::frame::files::is_standard;
use super::frame::given::Given;
use super::frame::operands::{out, JSON, OUT};
use super::names::{self, MOST_TEXT_BYTES};
use super::read;
use crate::instance::write;
use crate::school::{parse, write_names, School};
use std::path::PathBuf;

const TEXT: Operand = Operand {
    name: "TEXT",
    about: "a school in the text form",
    value: Value::File(MOST_TEXT_BYTES),
    count: Count::One,
};

pub const NAMES: CommandOption = CommandOption {
    long: "names",
    short: None,
    value: Some(("NAMES", Value::Path)),
    about: "where to write the names; else FILE.names",
};

pub const SUBCOMMAND: Subcommand = Subcommand {
    name: "compile",
    about: "the instance file of a school in the text form, with its names beside it",
    operands: &[TEXT],
    options: &[out("where to write the instance file"), NAMES, JSON],
    prints: "what 'read' prints of the instance file",
    details: "The names go to FILE.names, where the other subcommands find them. A text that is \
              no school is told with line and column and what was expected; nothing is written \
              then. Without '--out' the instance file is printed and no names are written.",
    refusals: &[1..=6, 19..=19, 22..=22],
    run: |given, _| {
        let file = given.file("TEXT");
        let text = names::text(file)?;
        let school = parse(text).map_err(|fault| names::rejected(file, text, &fault))?;
        written(given, &school, &[])
    },
};

/// The instance file of `school` as the product, with its names beside it; `further`
/// numbers are told after those of the file.
pub fn written(given: &Given, school: &School, further: &[(&str, u64)]) -> Result<Answer, Fault> {
    let bytes = write(&school.instance);
    let numbers = [&read::counts(&bytes)?[..], further].concat();
    let names = write_names(&school.names, &bytes).into_bytes();
    let files = names_path(given).map(|path| (path, names));
    let answer = match given.path_if(OUT) {
        Some(_) => Answer::report(Some(read::ACCEPTED), &numbers),
        None => Answer::default(),
    };
    Ok(Answer {
        product: Some(bytes),
        files: files.into_iter().collect(),
        ..answer
    })
}

/// Where the names go, if anywhere.
fn names_path(given: &Given) -> Option<PathBuf> {
    let beside = given
        .path_if(OUT)
        .filter(|out| !is_standard(out.as_os_str()));
    let named = given.path_if(NAMES.long).map(PathBuf::from);
    named.or_else(|| beside.map(names::side_file))
}
