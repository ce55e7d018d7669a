//! `timetable import`: the instance file of another program's school.

use super::compile::{self, NAMES};
use super::frame::answer::{Answer, Fault};
use super::frame::declare::{CommandOption, Count, Operand, Subcommand, Value};
use super::frame::given::{File, Given};
use super::frame::operands::{out, JSON, OUT};
use crate::import::{self, fet, xhstt, xml, Fate, Imported};
use crate::instance::LARGEST_WEIGHT;
use std::ffi::OsString;
use std::path::PathBuf;

/// The longest file that is read as a school of another program.
pub const MOST_SCHOOL_BYTES: u64 = 64 << 20;

const FORMAT: Operand = Operand {
    name: "FORMAT",
    about: "whose form the school is in: fet or xhstt",
    value: Value::OneOf(&["fet", "xhstt"]),
    count: Count::One,
};

const SCHOOL: Operand = Operand {
    name: "SCHOOL",
    about: "the school in XML",
    value: Value::File(MOST_SCHOOL_BYTES),
    count: Count::One,
};

const DROP: CommandOption = CommandOption {
    long: "drop",
    short: None,
    value: None,
    about: "leave out, and list, what has no counterpart",
};

const SCALE: CommandOption = CommandOption {
    long: "scale",
    short: None,
    value: Some(("PARTS", Value::Number)),
    about: "fet: the soft weight that stands for 100 percent; else 10",
};

const PLACED: CommandOption = CommandOption {
    long: "placed",
    short: None,
    value: Some(("RESULT", Value::File(MOST_SCHOOL_BYTES))),
    about: "fet: FET's own list of placed activities; its timetable goes to FILE.timetable",
};

/// The option for an archive of several instances.
pub const INSTANCE_ID: CommandOption = CommandOption {
    long: "instance",
    short: None,
    value: Some(("ID", Value::Text)),
    about: "xhstt: which instance of the archive",
};

/// The soft weight that stands for 100 percent, if the call names none.
const USUAL_SCALE: u64 = 10;

pub const SUBCOMMAND: Subcommand = Subcommand {
    name: "import",
    about: "the instance file of a school of FET or in XHSTT, with its names beside it",
    operands: &[FORMAT, SCHOOL],
    options: &[
        out("where to write the instance file"),
        NAMES,
        DROP,
        SCALE,
        PLACED,
        INSTANCE_ID,
        JSON,
    ],
    prints: "what 'read' prints of the instance file, and how many items of the school are \
             carried exactly, weakened and dropped",
    details: "An item that the engine cannot say exactly is named with its line, and nothing is \
              written; with '--drop' it is weakened or left out, and listed. That can only lower \
              the least cost: a bound refuted for the instance file is refuted for the school, \
              and a timetable of the file may break what was left out. docs/IMPORT.md says what \
              is carried, and how.",
    refusals: &[1..=6, 19..=19, 22..=22],
    run: |given, _| {
        let file = given.file("SCHOOL");
        let imported = imported(given, given.word("FORMAT"), file)?;
        if !imported.remarks.is_empty() && !given.flag(DROP.long) {
            return Err(Fault::Rejected(format!(
                "{} items have no exact counterpart; '--drop' leaves them out\n{}",
                imported.remarks.len(),
                listed(&imported, file).trim_end()
            )));
        }
        let (weakened, dropped) = (
            imported.count(Fate::Weakened),
            imported.count(Fate::Dropped),
        );
        let further = [
            ("exact", imported.carried as u64),
            ("weakened", weakened as u64),
            ("dropped", dropped as u64),
        ];
        let mut answer = compile::written(given, &imported.school, &further)?;
        answer.files.extend(placed(given, file)?);
        Ok(Answer {
            remarks: remarks(&imported, file),
            ..answer
        })
    },
};

/// The file with the timetable that FET made of the school, if its result is given.
fn placed(given: &Given, file: &File) -> Result<Option<(PathBuf, Vec<u8>)>, Fault> {
    let Some(result) = given.file_if(PLACED.long) else {
        return Ok(None);
    };
    let (Some(out), "fet") = (given.path_if(OUT), given.word("FORMAT")) else {
        let message = "the option '--placed' is for fet, and wants '--out' beside it";
        return Err(Fault::Usage(message.to_string()));
    };
    let read = |file: &File| xml::read(&file.bytes).map_err(|error| rejected(file, &error.into()));
    let timetable = fet::timetable(&read(file)?, &read(result)?);
    let timetable = timetable.map_err(|fault| rejected(result, &fault))?;
    let mut path = OsString::from(out);
    path.push(".timetable");
    Ok(Some((PathBuf::from(path), timetable)))
}

/// The school of a file in this form.
pub fn imported(given: &Given, format: &str, file: &File) -> Result<Imported, Fault> {
    let scale = scale(given)?;
    let read = xml::read(&file.bytes).map_err(import::Fault::from);
    let imported = read.and_then(|root| match format {
        "fet" => fet::import(&root, scale),
        _ => xhstt::import(&root, given.word_if(INSTANCE_ID.long)),
    });
    imported.map_err(|fault| rejected(file, &fault))
}

/// A fault of a file, with its place.
pub fn rejected(file: &File, fault: &import::Fault) -> Fault {
    Fault::Rejected(format!("{}:{fault}", file.name))
}

/// The soft weight that stands for 100 percent.
fn scale(given: &Given) -> Result<u32, Fault> {
    let asked = match given.has_option(SCALE.long) {
        true => given.number_if(SCALE.long),
        false => None,
    };
    match u32::try_from(asked.unwrap_or(USUAL_SCALE)) {
        Ok(scale) if (1..=LARGEST_WEIGHT).contains(&scale) => Ok(scale),
        _ => Err(Fault::Usage(format!(
            "the option '--{}' wants a number from 1 to {LARGEST_WEIGHT}",
            SCALE.long
        ))),
    }
}

/// The items that are not carried exactly, a line each.
fn listed(imported: &Imported, file: &File) -> String {
    let lines = imported.remarks.iter();
    let lines = lines.map(|remark| format!("{}:{remark}\n", file.name));
    lines.collect()
}

fn remarks(imported: &Imported, file: &File) -> String {
    match imported.remarks.is_empty() {
        true => String::new(),
        false => format!(
            "{}The least cost of the school is at least that of the instance file: a refuted \
             bound holds for both. A timetable may break what is listed.\n",
            listed(imported, file)
        ),
    }
}
