//! Kinds 9 and 10 on every tiny instance: all numbers of times up to 4, all
//! durations, lengths and ranges, hard and soft, and every assignment of Y and S.
//! The counts are taken from the rows here, beside the reference and the engine.

mod support;

use support::both::read;
use support::models::{models_match, one_event, subevents};
use testing::reference::{Constraint, Kind, Range};

const MOST_TIMES: usize = 4;
/// The weight of soft constraints; 0 means hard.
const WEIGHTS: [u32; 2] = [0, 3];

/// What the constraint counts, and how far that lies outside what is allowed.
fn deviation(kind: &Kind, table: &[u8]) -> u64 {
    let subevents = subevents(table);
    let counted = |wanted: &dyn Fn(usize) -> bool| {
        let lengths = subevents.iter().map(|&(_, length)| length);
        lengths.filter(|&length| wanted(length)).count() as u64
    };
    match *kind {
        Kind::Distribute { length, range, .. } => {
            let count = counted(&|found| found == length);
            u64::from(range.lo).saturating_sub(count) + count.saturating_sub(u64::from(range.hi))
        }
        Kind::Lengths {
            shortest, longest, ..
        } => counted(&|found| found < shortest || found > longest),
        _ => unreachable!("no other kind is tried"),
    }
}

/// Every kind 9 and 10 over `times` times; hi goes above the list's length.
fn kinds(times: usize) -> Vec<Kind> {
    let mut kinds = Vec::new();
    for length in 1..=times {
        for lo in 0..=times as u32 {
            for hi in lo..=times as u32 + 1 {
                let range = Range { lo, hi };
                kinds.push(Kind::Distribute {
                    event: 0,
                    length,
                    range,
                });
            }
        }
        kinds.extend((length..=times).map(|longest| Kind::Lengths {
            event: 0,
            shortest: length,
            longest,
        }));
    }
    kinds
}

#[test]
fn models_and_timetables_match_one_to_one() {
    let (mut instances, mut timetables) = (0, 0);
    for times in 1..=MOST_TIMES {
        for duration in 1..=times {
            for kind in kinds(times) {
                for weight in WEIGHTS {
                    let kind = kind.clone();
                    let constraint = Constraint { weight, kind };
                    let instance = one_event(times, duration, Vec::new(), constraint);
                    let kind = &instance.constraints[0].kind;
                    timetables += models_match(&instance, |table| deviation(kind, table));
                    instances += 1;
                }
            }
        }
    }
    println!("{instances} instances, {timetables} timetables");
    assert!(instances > 1_000 && timetables > 7_000);
}

/// Lengths and bounds from 0 to beyond their limits: 2 where a number is outside,
/// 5 for shortest above longest, lo above hi and lo above the list's length.
#[test]
fn fields_are_refused_by_their_limits() {
    for times in 1..=MOST_TIMES as u32 {
        let start = [times, 1, 0, 1, 0, 0, 1];
        let answer = |fields: &[u32]| {
            let file = support::numbers(&[&start, fields].concat());
            read(&file)
                .err()
                .map(|refusal| (refusal.number, refusal.value))
        };
        for first in 0..=times + 1 {
            for second in 0..=times + 1 {
                let outside = |length: u32| length < 1 || length > times;
                let crossed = match (outside(first), outside(second)) {
                    (true, _) => Some((2, 10)),
                    (_, true) => Some((2, 11)),
                    _ => (first > second).then_some((5, 7)),
                };
                assert_eq!(answer(&[10, 0, 1, first, second]), crossed);
                let bounds = (first > second || first > times).then_some((5, 7));
                for length in 0..=times + 1 {
                    let expected = match outside(length) {
                        true => Some((2, 10)),
                        false => bounds,
                    };
                    assert_eq!(answer(&[9, 0, 1, length, first, second]), expected);
                }
            }
        }
    }
}
