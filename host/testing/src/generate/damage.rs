//! Damaged inputs: instances, bytes, numbers, timetables and models.

use super::random::Random;
use crate::reference::{
    read_number, write_number, Constraint, Instance, Kind, Range, LARGEST_GAP, LARGEST_HI,
};

/// A random change of one field, or of two of kind 11, so that the file of the result
/// earns one of 2 to 5 and 19, unless the field does not matter or does not exist. A 0
/// in place of T makes a calendar of what follows. Windows stay as they are.
pub fn damaged_instance(random: &mut Random, instance: &Instance) -> Instance {
    let mut changed = instance.clone();
    let event = random.below(instance.events.len());
    let group = random.below(instance.groups.len().max(1));
    let choice = random.below(10);
    match choice {
        0 => changed.events[event].duration = random.pick(&[0, instance.times + 1]),
        1 => changed.events[event].resources.push(instance.resources),
        2 => changed.times = random.pick(&[0, 126]),
        3 => {
            for members in changed.groups.iter_mut().skip(group).take(1) {
                members.extend(members.last().copied()); // equal members
            }
        }
        4 => {
            for members in changed.groups.iter_mut().skip(group).take(1) {
                members.reverse();
            }
        }
        _ if instance.constraints.is_empty() => {}
        _ => {
            let at = random.below(instance.constraints.len());
            let lo = random.below(LARGEST_HI as usize) as u32;
            damage_constraint(instance, &mut changed.constraints[at], choice, lo);
        }
    }
    changed
}

fn damage_constraint(instance: &Instance, constraint: &mut Constraint, choice: usize, lo: u32) {
    let length = instance.list_length(&constraint.kind) as u32;
    let bad_range = match choice {
        7 => Range { lo: lo + 1, hi: lo },
        _ => Range {
            lo: length + 1,
            hi: LARGEST_HI,
        },
    };
    let longest_group = (0..instance.groups.len()).max_by_key(|&g| instance.groups[g].len());
    match (choice, longest_group, &mut constraint.kind) {
        (5, _, _) => constraint.weight = 1_001,
        (6, Some(group), kind) => {
            *kind = Kind::Spread {
                events: (0..instance.events.len()).collect(),
                group,
                range: Range { lo: 0, hi: lo },
            };
        }
        (
            7,
            _,
            Kind::Lengths {
                shortest, longest, ..
            },
        ) => match *longest < instance.times {
            true => *shortest = *longest + 1,
            false => *longest = *shortest - 1,
        },
        (
            8,
            _,
            Kind::Lengths {
                shortest: length, ..
            },
        )
        | (
            _,
            _,
            Kind::Lengths {
                longest: length, ..
            },
        )
        | (9, _, Kind::Distribute { length, .. }) => {
            *length = [0, instance.times + 1][lo as usize % 2];
        }
        (_, _, Kind::Precedence { first, second, gap }) => {
            damage_precedence(instance.events.len(), [first, second], gap, choice, lo);
        }
        (_, _, Kind::Clash { resource }) => *resource = instance.resources,
        (_, _, Kind::Unavailable { group, .. } | Kind::PreferredTimes { group, .. }) => {
            *group = instance.groups.len();
        }
        (
            _,
            _,
            Kind::Split { range, .. }
            | Kind::Spread { range, .. }
            | Kind::BusyLimit { range, .. }
            | Kind::Cluster { range, .. }
            | Kind::Idle { range, .. }
            | Kind::Distribute { range, .. },
        ) => *range = bad_range,
    }
}

/// A gap's lo above its hi, two events that are one, both of these, two events that
/// are one before a bound above its limit, such a bound, or an event that is not there.
fn damage_precedence(
    events: usize,
    [first, second]: [&mut usize; 2],
    gap: &mut Range,
    choice: usize,
    lo: u32,
) {
    let crossed = Range {
        lo: lo % LARGEST_GAP + 1,
        hi: lo % LARGEST_GAP,
    };
    let above = LARGEST_GAP + 1 + lo % 3;
    match (choice, lo % 5) {
        (7, _) => *gap = crossed,
        (8, _) => *second = *first,
        (9, 0) => (*second, *gap) = (*first, crossed),
        (9, 1) => (*second, gap.lo) = (*first, above),
        (9, 2) => gap.hi = above,
        (9, 3) => *second = events,
        _ => *first = events,
    }
}

/// A random change of any bytes.
pub fn damaged_bytes(random: &mut Random, bytes: &[u8]) -> Vec<u8> {
    let mut bytes = bytes.to_vec();
    let at = random.below(bytes.len() + 1);
    let byte = random.draw() as u8;
    match random.below(6) {
        0 => bytes.truncate(at),
        1 => bytes.insert(at, byte),
        2 => bytes.push(byte),
        _ if at == bytes.len() => bytes.push(0),
        3 => bytes[at] ^= 1 << random.below(8),
        4 => bytes[at] = byte,
        _ => drop(bytes.remove(at)),
    }
    bytes
}

/// A random change of bytes that are a list of numbers, as instance files and
/// proofs are: of any byte, or of one number.
pub fn damaged_numbers(random: &mut Random, bytes: &[u8]) -> Vec<u8> {
    let starts = number_starts(bytes);
    if starts.is_empty() || random.chance(40) {
        return damaged_bytes(random, bytes);
    }
    let start = random.pick(&starts);
    let Some((value, end)) = read_number(bytes, start) else {
        return damaged_bytes(random, bytes);
    };
    let mut changed = Vec::new();
    match random.below(6) {
        0 => write_number(value.wrapping_add(1), &mut changed),
        1 => write_number(value.wrapping_sub(1), &mut changed),
        2 => {
            // Overlong: the last group is not the last byte.
            write_number(value, &mut changed);
            if let Some(last) = changed.last_mut() {
                *last |= 0x80;
            }
            changed.push(0);
        }
        3 => changed.extend_from_slice(&[0x80, 0x80, 0x80, 0x80, 0x10]), // 2^32
        4 => write_number(u32::MAX, &mut changed),
        _ => {
            let limits = [
                0, 1, 7, 8, 11, 12, 24, 25, 99, 100, 124, 125, 126, 255, 256, 1_000, 1_001, 1_024,
                1_025, 1_440, 1_441, 4_097,
            ];
            write_number(random.pick(&limits), &mut changed);
        }
    }
    [&bytes[..start], &changed, &bytes[end..]].concat()
}

/// The offsets at which numbers start, up to the first bad one.
pub fn number_starts(bytes: &[u8]) -> Vec<usize> {
    let mut starts = Vec::new();
    let mut offset = 0;
    while let Some((_, next)) = read_number(bytes, offset) {
        starts.push(offset);
        offset = next;
    }
    starts
}

/// A random change of a timetable or model.
pub fn damaged_table(random: &mut Random, table: &[u8]) -> Vec<u8> {
    let mut table = table.to_vec();
    if table.is_empty() {
        return vec![0];
    }
    let at = random.below(table.len());
    match random.below(8) {
        0 => table.truncate(at),
        1 => table.push(random.below(2) as u8),
        2 => table[at] = 2 + random.below(254) as u8,
        3 => {
            let other = random.below(table.len());
            table.swap(at, other);
        }
        4 => {
            // The same change of a taken byte and its start byte.
            let half = table.len() / 2;
            table[at % half.max(1)] ^= 1;
            table[half + at % half.max(1)] ^= 1;
        }
        _ => table[at] ^= 1,
    }
    table
}
