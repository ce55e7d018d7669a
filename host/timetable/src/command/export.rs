//! `timetable export`: a timetable as a solution in its school's own form.

use super::frame::answer::{Answer, Fault};
use super::frame::declare::{Count, Operand, Subcommand, Value};
use super::frame::operands::{out, INSTANCE, TIMETABLE};
use super::import::{imported, rejected, INSTANCE_ID, MOST_SCHOOL_BYTES};
use crate::engine;
use crate::import::xhstt;
use crate::instance::write;

const FORMAT: Operand = Operand {
    name: "FORMAT",
    about: "whose form the school is in: xhstt",
    value: Value::OneOf(&["xhstt"]),
    count: Count::One,
};

const SCHOOL: Operand = Operand {
    name: "SCHOOL",
    about: "the archive that was imported",
    value: Value::File(MOST_SCHOOL_BYTES),
    count: Count::One,
};

pub const SUBCOMMAND: Subcommand = Subcommand {
    name: "export",
    about: "an XHSTT archive with a timetable as a further solution",
    operands: &[FORMAT, SCHOOL, INSTANCE, TIMETABLE],
    options: &[out("where to write the archive"), INSTANCE_ID],
    prints: "the archive, unless it is written to a file",
    details: "The instance file must be the import of the archive. The solution's description \
              has the infeasibility and the objective that the engine gives to the timetable.",
    refusals: &[1..=6, 10..=12, 19..=19, 22..=22],
    run: |given, _| {
        let (file, bytes) = (given.file("SCHOOL"), given.bytes("INSTANCE"));
        let score = engine::score(bytes, given.bytes("TIMETABLE"))?;
        let school = imported(given, given.word("FORMAT"), file)?.school;
        if write(&school.instance) != bytes {
            let message = format!("the instance file is not the import of {}", file.name);
            return Err(Fault::Rejected(message));
        }
        let description = format!(
            "infeasibility {}, objective {} for the instance file",
            score.infeasibility.0, score.objective.0
        );
        let id = given.word_if(INSTANCE_ID.long);
        let timetable = given.bytes("TIMETABLE");
        let archive = xhstt::with_solution(&file.bytes, id, timetable, &description);
        let archive = archive.map_err(|fault| rejected(file, &fault))?;
        Ok(Answer::product(archive.into_bytes()))
    },
};
