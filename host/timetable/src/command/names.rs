//! The names of an instance's things: the side file, or invented ones.

use super::frame::answer::Fault;
use super::frame::declare::{CommandOption, Value};
use super::frame::files;
use super::frame::given::{File, Given};
use crate::instance::{self, Instance};
use crate::school::{read_names, Names, School, TextFault};
use crate::{engine, engine::Refusal};
use std::ffi::OsString;
use std::path::{Path, PathBuf};

/// The longest text that is read as a school or as names.
pub const MOST_TEXT_BYTES: u64 = 16 << 20;

/// The option for the side file.
pub const NAMES: CommandOption = CommandOption {
    long: "names",
    short: None,
    value: Some(("NAMES", Value::File(MOST_TEXT_BYTES))),
    about: "the file with the names; else INSTANCE.names, if there is one",
};

/// The flag that asks for invented names.
pub const NO_NAMES: CommandOption = CommandOption {
    long: "no-names",
    short: None,
    value: None,
    about: "invent names: T1 for times, Mon to Sun for a calendar's days, L1 for lessons, R1 for \
            resources, G1 for groups, W1 for windows",
};

/// What the options are about, for the help of a subcommand.
pub const ABOUT: &str = "Names come from a side file, which 'compile' writes. It keeps a mark of \
                         the instance's bytes and is rejected for others.";

/// The side file of the instance file `path`.
pub fn side_file(path: &Path) -> PathBuf {
    let mut name = OsString::from(path);
    name.push(".names");
    PathBuf::from(name)
}

/// The instance of the call, as the engine accepts it, with its names.
pub fn school(given: &Given) -> Result<School, Fault> {
    let file = given.file("INSTANCE");
    let instance = accepted(&file.bytes)?;
    let names = match (given.file_if(NAMES.long), given.flag(NO_NAMES.long)) {
        (Some(_), true) => {
            let message = "the options '--names' and '--no-names' exclude each other";
            return Err(Fault::Usage(message.to_string()));
        }
        (Some(side), false) => Some(named(side, file, &instance)?),
        (None, true) => None,
        (None, false) => beside(file, &instance)?,
    };
    Ok(match names {
        Some(names) => School { instance, names },
        None => School::unnamed(instance),
    })
}

/// The typed instance of a file that the engine accepts.
pub fn accepted(bytes: &[u8]) -> Result<Instance, Fault> {
    engine::read(bytes)?;
    instance::read(bytes).map_err(|fault| Fault::Refused {
        refusal: Refusal {
            number: fault.number(),
            value: fault.field.offset as u64,
        },
        operand: None,
    })
}

/// The names of the side file beside `file`, if there is one.
fn beside(file: &File, instance: &Instance) -> Result<Option<Names>, Fault> {
    let path = Path::new(&file.name);
    let side = side_file(path);
    // Standard input has nothing beside it.
    if !path.is_file() || !side.is_file() {
        return Ok(None);
    }
    let side = File {
        name: side.display().to_string(),
        bytes: files::read(side.as_os_str(), MOST_TEXT_BYTES).map_err(Fault::Failed)?,
    };
    named(&side, file, instance).map(Some)
}

fn named(side: &File, file: &File, instance: &Instance) -> Result<Names, Fault> {
    let text = text(side)?;
    read_names(text, &file.bytes, instance.counts()).map_err(|fault| rejected(side, text, &fault))
}

/// The text of a file, which must be UTF-8.
pub fn text(file: &File) -> Result<&str, Fault> {
    std::str::from_utf8(&file.bytes).map_err(|error| {
        let before = String::from_utf8_lossy(&file.bytes[..error.valid_up_to()]);
        let line = before.matches('\n').count() + 1;
        let column = before.chars().rev().take_while(|&c| c != '\n').count() + 1;
        Fault::Rejected(format!(
            "{}: line {line}, column {column}: this is not UTF-8",
            file.name
        ))
    })
}

/// A fault in a text, with the line that it is in.
pub fn rejected(file: &File, text: &str, fault: &TextFault) -> Fault {
    Fault::Rejected(format!("{}: {fault}\n{}", file.name, fault.excerpt(text)))
}
