//! Helpers shared by the tests.
#![allow(dead_code)]

pub mod both;
pub mod cases;
pub mod hasty;
pub mod hasty_calendar;
pub mod models;

use testing::prover::clause_list;
use testing::reference::{write_number, Instance, Refusal};

/// File A of the checked examples.
pub const FILE_A: &str = "01 01 00 01 00 01 00 01 03 04 01 01";

/// Proof of the checked examples, for file A at bound 3.
pub const PROOF_A: &str = "61 11 00 05 04 02 06 0E 10 00";

pub fn hex(text: &str) -> Vec<u8> {
    text.split_whitespace()
        .map(|byte| u8::from_str_radix(byte, 16).expect("two hexadecimal digits"))
        .collect()
}

pub fn refused<T>(number: u32, value: u64) -> Result<T, Refusal> {
    Err(Refusal { number, value })
}

/// The file that consists of these numbers.
pub fn numbers(values: &[u32]) -> Vec<u8> {
    let mut file = Vec::new();
    for &value in values {
        write_number(value, &mut file);
    }
    file
}

/// The clauses of a file by id − 1, a negated variable as a negative number.
pub fn clauses(file: &[u8], bound: Option<u64>) -> Vec<Vec<i64>> {
    let instance = Instance::read(file).expect("an accepted instance");
    clause_list(&instance, bound)
        .iter()
        .map(|clause| {
            let signed = clause.iter().map(|literal| match literal.is_negated() {
                true => -i64::from(literal.variable()),
                false => i64::from(literal.variable()),
            });
            signed.collect()
        })
        .collect()
}

/// A file that is accepted with more than 8,000,000 variables: 125 times and
/// 505 events of duration 124.
pub fn oversized() -> Vec<u8> {
    let mut values = vec![125, 505, 0];
    for _ in 0..505 {
        values.extend([124, 0]);
    }
    values.extend([0, 0]);
    numbers(&values)
}

/// A file with a counted list of 256 entries: the starts of four events at 64
/// times.
pub fn long_list() -> Vec<u8> {
    let mut values = vec![125, 4, 0];
    for _ in 0..4 {
        values.extend([1, 0]);
    }
    values.extend([1, 64]);
    values.extend(1..=64);
    values.extend([1, 5, 1, 4, 1, 2, 3, 4, 1, 0, 9]);
    numbers(&values)
}

/// A file with a kind 11 of which both events are one, and lo above hi.
pub fn same_event() -> Vec<u8> {
    numbers(&[4, 2, 0, 1, 0, 2, 0, 0, 1, 11, 3, 2, 2, 1, 0])
}

/// A timetable of `events` events that each take the first `duration` of
/// `times` times with one start.
pub fn first_times(times: usize, events: usize, duration: usize) -> Vec<u8> {
    let mut table = vec![0; 2 * events * times];
    for event in 0..events {
        table[event * times..][..duration].fill(1);
        table[(events + event) * times] = 1;
    }
    table
}
