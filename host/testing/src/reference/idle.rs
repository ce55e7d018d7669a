//! Idle times of a row: for each member of a group in turn, whether it has X.

use timetable::engine::Kept;

/// The members without X, with X at an earlier and at a later member.
pub fn idle_times(row: &[bool]) -> usize {
    let idle = |&at: &usize| {
        let [earlier, later] = [&row[..at], &row[at + 1..]];
        !row[at] && earlier.contains(&true) && later.contains(&true)
    };
    (0..row.len()).filter(idle).count()
}

/// What is kept after the members of `row`, by what the three numbers mean.
pub fn kept(row: &[bool]) -> Kept {
    let after_last = row.iter().rev().position(|&used| used);
    Kept {
        idle: idle_times(row) as u32,
        since: after_last.unwrap_or(0) as u32,
        seen: u32::from(row.contains(&true)),
    }
}

/// One step from any numbers: yes is any number but 0, and a sum that does not fit
/// is the largest number.
pub fn idle_step(kept: Kept, used: u32) -> Kept {
    let sum = |first: u32, second: u32| first.saturating_add(second);
    let seen = u32::from(kept.seen != 0);
    match used {
        0 => Kept {
            idle: kept.idle,
            since: sum(kept.since, seen),
            seen,
        },
        _ => Kept {
            idle: sum(kept.idle, kept.since),
            since: 0,
            seen: 1,
        },
    }
}
