//! A solver's proof, in whatever form it comes, turned into the steps of a
//! bound proof.

use super::formula::Formula;
use super::{drat, lrat, Fault};

/// Who is told how far the work is, and may stop it.
pub trait Observer {
    /// `done` of `of` are done. An error ends the work.
    fn progress(&mut self, doing: &str, done: usize, of: usize) -> Result<(), Fault>;
}

/// An observer that says nothing.
pub struct Quiet;

impl Observer for Quiet {
    fn progress(&mut self, _doing: &str, _done: usize, _of: usize) -> Result<(), Fault> {
        Ok(())
    }
}

/// How many steps pass between two words to the observer.
pub(super) const EVERY: usize = 256;

/// The steps of a bound proof.
#[derive(Clone, Debug, PartialEq, Eq)]
pub struct Steps {
    pub bytes: Vec<u8>,
    /// How many clauses the solver's proof adds up to its end.
    pub lemmas: usize,
    /// How many clauses the steps add, the empty one included.
    pub kept: usize,
    /// Deletions of the solver's proof that have no counterpart: they name no
    /// clause, or one that is still used.
    pub ignored_deletions: usize,
}

/// The form of a solver's proof.
#[derive(Clone, Copy, Debug, PartialEq, Eq)]
pub enum Form {
    DratText,
    DratBinary,
    LratText,
    LratBinary,
}

impl Form {
    /// The form of `proof`. A binary proof ends each list with the byte 0,
    /// which no text has. A text is LRAT if every line has an id: it then holds
    /// two lists, or `d` behind its first word. A binary proof is DRAT if it can
    /// be read so: in LRAT the hints stand where DRAT has the next step's letter.
    pub fn of(proof: &[u8]) -> Form {
        match proof.contains(&0) {
            true if drat::from_binary(proof).is_ok() => Form::DratBinary,
            true => Form::LratBinary,
            false if lines(proof).next().is_none() => Form::DratText,
            false if lines(proof).all(has_id) => Form::LratText,
            false => Form::DratText,
        }
    }
}

/// Turns `proof` into steps over the clauses of `formula`, with ids after theirs.
pub fn steps(formula: &Formula, proof: &[u8], observer: &mut dyn Observer) -> Result<Steps, Fault> {
    match Form::of(proof) {
        Form::DratText => drat::elaborate(formula, &drat::from_text(proof)?, observer),
        Form::DratBinary => drat::elaborate(formula, &drat::from_binary(proof)?, observer),
        Form::LratText => lrat::convert(formula, &lrat::from_text(proof)?, observer),
        Form::LratBinary => lrat::from_binary_over(formula, proof, observer),
    }
}

/// A step names a variable that the formula has not.
pub(super) fn extension(step: usize, variable: u32, variables: usize) -> Fault {
    Fault::Other(format!(
        "step {step} of the proof names variable {variable}, and the formula has {variables}: an \
         extension is a RAT step, which no hints spell"
    ))
}

/// The lines of a proof in text that are not empty and no comments.
fn lines(text: &[u8]) -> impl Iterator<Item = &[u8]> {
    let said = |line: &&[u8]| !matches!(line.first(), None | Some(b'c' | b'%'));
    let lines = text.split(|&byte| byte == b'\n');
    lines.map(<[u8]>::trim_ascii).filter(said)
}

/// Whether a line of a proof in text begins with an id.
fn has_id(line: &[u8]) -> bool {
    let mut words = line.split(|byte| byte.is_ascii_whitespace());
    let second_is_d = words.clone().nth(1) == Some(b"d");
    let first_0 = words.position(|word| word == b"0");
    second_is_d || (first_0.is_some() && words.any(|word| word == b"0"))
}

/// The words of a proof in text, without its comments.
pub(super) fn words(text: &[u8]) -> impl Iterator<Item = &[u8]> {
    lines(text).flat_map(|line| {
        line.split(|byte| byte.is_ascii_whitespace())
            .filter(|word| !word.is_empty())
    })
}

#[cfg(test)]
mod tests {
    use super::Form;

    #[test]
    fn the_form_is_seen() {
        for (proof, form) in [
            (&b""[..], Form::DratText),
            (b"0\n", Form::DratText),
            (b"c 1 0 2 0\n1 -2 0\n", Form::DratText),
            (b"d 1 -2 0\n", Form::DratText),
            (b"1 0 -2 0\n0\n", Form::DratText),
            (b"17 1 -2 0 3 4 0\n", Form::LratText),
            (b"16 d 1 0\n", Form::LratText),
            (b"17 0 3 4 0\n", Form::LratText),
            (b"a\x02\x05\0d\x02\x05\0", Form::DratBinary),
            (b"a\x11\x02\0\x03\x04\0", Form::LratBinary),
        ] {
            assert_eq!(Form::of(proof), form, "{proof:?}");
        }
    }
}
