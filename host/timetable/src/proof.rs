//! The bytes of a bound proof: where its steps stand, and what they add to the
//! stores.

use crate::number::read_number;

/// The first byte of a step that adds a clause.
pub const ADD: u8 = b'a';
/// The first byte of a step that deletes clauses.
pub const DELETE: u8 = b'd';

/// A step of a proof, as it is spelt.
#[derive(Clone, Debug, PartialEq, Eq)]
pub enum Step {
    Add {
        id: u32,
        /// Codes: v is 2v, not v is 2v + 1.
        literals: Vec<u32>,
        hints: Vec<u32>,
    },
    Delete {
        ids: Vec<u32>,
    },
}

/// Why a step cannot be read.
#[derive(Clone, Copy, Debug, PartialEq, Eq)]
pub enum Misread {
    /// It begins with this byte.
    FirstByte(u8),
    /// The number at this offset is missing, cut short, overlong or too large.
    Number(usize),
}

/// The step at `at`, and the offset after it.
pub fn read_step(proof: &[u8], at: usize) -> Result<(Step, usize), Misread> {
    match *proof.get(at).ok_or(Misread::Number(at))? {
        ADD => {
            let (id, at) = number(proof, at + 1)?;
            let (literals, at) = list(proof, at)?;
            let (hints, at) = list(proof, at)?;
            let step = Step::Add {
                id,
                literals,
                hints,
            };
            Ok((step, at))
        }
        DELETE => {
            let (ids, at) = list(proof, at + 1)?;
            Ok((Step::Delete { ids }, at))
        }
        other => Err(Misread::FirstByte(other)),
    }
}

fn number(proof: &[u8], at: usize) -> Result<(u32, usize), Misread> {
    read_number(proof, at).ok_or(Misread::Number(at))
}

/// The numbers before the 0 that ends a list, and the offset after it.
fn list(proof: &[u8], mut at: usize) -> Result<(Vec<u32>, usize), Misread> {
    let mut members = Vec::new();
    loop {
        let (member, next) = number(proof, at)?;
        at = next;
        if member == 0 {
            return Ok((members, at));
        }
        members.push(member);
    }
}

/// The offset at which step `step`, from 1, of `proof` starts, where the steps
/// before it are well formed; none if there are not so many.
pub fn start_of(proof: &[u8], step: u64) -> Option<usize> {
    let mut at = 0;
    for _ in 1..step {
        (at, _) = step_end(proof, at)?;
    }
    Some(at)
}

/// What a proof adds to the stores.
#[derive(Clone, Copy, Debug, Default, PartialEq, Eq)]
pub struct Room {
    /// A word for each literal of its clauses.
    pub words: usize,
    /// A row for each of its clauses that is not empty.
    pub rows: usize,
}

/// What `proof` adds to the stores, up to its first step that is misformed:
/// a check with this room beside the formula's never gives 17. The C header's
/// `timetable_room` counts in the same way.
pub fn room(proof: &[u8]) -> Room {
    let mut room = Room::default();
    let mut at = 0;
    while let Some((next, literals)) = step_end(proof, at) {
        room.words += literals;
        room.rows += usize::from(literals > 0);
        at = next;
    }
    room
}

/// The offset after the step at `at`, whatever its numbers, and how many
/// literals it adds; none where no step begins.
fn step_end(proof: &[u8], at: usize) -> Option<(usize, usize)> {
    match *proof.get(at)? {
        ADD => {
            let (at, literals) = list_end(proof, number_end(proof, at + 1));
            let (at, _) = list_end(proof, at);
            Some((at, literals))
        }
        DELETE => {
            let (at, _) = list_end(proof, at + 1);
            Some((at, 0))
        }
        _ => None,
    }
}

/// The offset after the number at `at`, whatever its form.
fn number_end(proof: &[u8], at: usize) -> usize {
    let bytes = proof.get(at..).unwrap_or_default();
    let more = bytes.iter().take_while(|&&byte| byte >= 0x80).count();
    proof.len().min(at + more + 1)
}

/// The offset after the list at `at`, and how many numbers stand before the 0
/// that ends it.
fn list_end(proof: &[u8], mut at: usize) -> (usize, usize) {
    let mut members = 0;
    while let Some(&first) = proof.get(at) {
        at = number_end(proof, at);
        if first == 0 {
            break;
        }
        members += 1;
    }
    (at, members)
}
