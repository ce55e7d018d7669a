//! Refusals in words.

use super::given::{File, Given};
use crate::diagnosis::{reasons, Inputs, Sort};
use crate::engine::{refusal_facts, Refusal};
use crate::proof;

/// When refusal `number` is given.
pub fn words(number: u32) -> &'static str {
    entry(number).0
}

/// A refusal in words, with the file that earned it: `operand`, or the one that
/// the refusal's number tells.
pub fn message(given: &Given, refusal: Refusal, operand: Option<&'static str>) -> String {
    let operand = operand.or_else(|| {
        let mut names = operands(refusal.number).iter();
        names.find(|name| given.has_operand(name)).copied()
    });
    if operand == Some("BOUND") {
        return format!("bound {}: {}", refusal.value, in_words(refusal, &[], &[]));
    }
    let file = operand.and_then(|name| Some((name, operand_file(given, name)?)));
    let Some((operand, file)) = file else {
        return in_words(refusal, &[], &[]);
    };
    let instance = operand_file(given, "INSTANCE");
    let inputs = Inputs {
        instance: instance.map_or(&[], |file| &file.bytes),
        bound: match given.has_operand("BOUND") {
            true => given.number_if("BOUND"),
            false => None,
        },
        file: &file.bytes,
        sort: sort(operand),
    };
    let reasons = reasons(refusal, &inputs);
    format!(
        "{}: {}",
        file.name,
        in_words(refusal, &file.bytes, &reasons)
    )
}

/// The file of the operand `name`, if the subcommand has one and was given it.
fn operand_file<'a>(given: &'a Given, name: &str) -> Option<&'a File> {
    match given.has_operand(name) {
        true => given.files(name).first().copied(),
        false => None,
    }
}

/// The operands that can earn refusal `number`.
fn operands(number: u32) -> &'static [&'static str] {
    match number {
        7 => &["BOUND"],
        10..=13 => &["TIMETABLE", "FIRST", "MODEL", "ANSWER"],
        14..=18 => &["PROOF"],
        20..=21 => &["ANSWER"],
        _ => &["INSTANCE"],
    }
}

/// What the file of an operand should be.
fn sort(operand: &str) -> Sort {
    match operand {
        "TIMETABLE" | "FIRST" | "SECOND" => Sort::Timetable,
        "MODEL" => Sort::Model,
        "ANSWER" => Sort::SolverText,
        "PROOF" => Sort::Proof,
        _ => Sort::Instance,
    }
}

/// A refusal in words and numbers, with the reasons for it and with the bytes
/// that it points at.
pub fn in_words(refusal: Refusal, bytes: &[u8], reasons: &[String]) -> String {
    let Refusal { number, value } = refusal;
    let (when, gives) = entry(number);
    let mut message = format!("refusal {number} {value}: {when}");
    if !gives.is_empty() {
        message += &format!("; {}", gives.replace("{}", &value.to_string()));
    }
    let mut pointed = gives.contains("offset").then_some(value);
    // Where the step that was refused starts, or where the steps that were read end.
    let in_proof = match number {
        14..=17 => Some(("which starts at", value)),
        18 => Some(("up to", value + 1)),
        _ => None,
    };
    if let Some((before, step)) = in_proof {
        if let Some(at) = proof::start_of(bytes, step) {
            message += &format!(", {before} offset {at}");
            pointed = Some(at as u64);
        }
    }
    for reason in reasons {
        message += &format!("\n  {reason}");
    }
    if let Some(at) = pointed {
        message += &format!("\n  {}", excerpt(bytes, at));
    }
    message
}

/// When refusal `number` is given, and what its value is. A number that no
/// refusal has is told as it is.
fn entry(number: u32) -> (&'static str, &'static str) {
    match refusal_facts(number) {
        Some(facts) => (facts.when, facts.gives),
        None => ("no refusal has this number", "its value is {}"),
    }
}

/// The bytes around `offset` in hexadecimal, the one there in brackets. Past
/// the last byte the brackets are empty.
fn excerpt(bytes: &[u8], offset: u64) -> String {
    const AROUND: usize = 8;
    let at = usize::try_from(offset).map_or(bytes.len(), |at| at.min(bytes.len()));
    let from = at.saturating_sub(AROUND);
    let to = (at + 1 + AROUND).min(bytes.len());
    let hexadecimal =
        |part: &[u8]| -> String { part.iter().map(|byte| format!(" {byte:02x}")).collect() };
    let there = match bytes.get(at) {
        Some(byte) => format!("{byte:02x}"),
        None => "end".to_string(),
    };
    format!(
        "bytes from offset {from}:{}{} [{there}]{}{}",
        if from > 0 { " .." } else { "" },
        hexadecimal(&bytes[from..at]),
        hexadecimal(bytes.get(at + 1..to).unwrap_or(&[])),
        if to < bytes.len() { " .." } else { "" },
    )
}
