//! `timetable help`: how the command, or one subcommand, is used.

use super::frame::answer::{Answer, Fault};
use super::frame::declare::{Count, Operand, Subcommand, Value};

pub const SUBCOMMAND: Subcommand = Subcommand {
    name: "help",
    about: "how the command, or one of its subcommands, is used",
    operands: &[Operand {
        name: "SUBCOMMAND",
        about: "the subcommand to explain",
        value: Value::Subcommand,
        count: Count::Optional,
    }],
    options: &[],
    prints: "the help",
    details: "",
    refusals: &[],
    run: |given, _| {
        let name = given.word_if("SUBCOMMAND");
        match given.manual.help(name) {
            Some(help) => Ok(Answer::text(help)),
            None => Err(Fault::Usage(format!(
                "there is no subcommand '{}'",
                name.unwrap_or_default()
            ))),
        }
    },
};
