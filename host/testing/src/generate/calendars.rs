//! Calendars of a given number of periods, and windows of their days.

use super::random::Random;
use crate::reference::{Calendar, Period, Window, DAYS, LAST_MINUTE, MOST_PERIODS};

/// Minutes from the start of a lesson to that of the next: 24 of them fill a day.
const HOUR: u32 = 60;

/// A calendar of `times` periods and without windows; some of its days may be empty.
pub fn calendar(random: &mut Random, times: usize) -> Calendar {
    let counts = counts(random, times);
    Calendar {
        days: counts.map(|count| periods(random, count)),
        windows: Vec::new(),
    }
}

/// How many of `times` periods each day has: anywhere on some of the days, or one day
/// after the other as full as can be.
fn counts(random: &mut Random, times: usize) -> [usize; DAYS] {
    let most = MOST_PERIODS as usize;
    let open = random.within(&(times.div_ceil(most)..=DAYS));
    let open = random.choose(open, DAYS);
    let packed = random.chance(30);
    let mut counts = [0; DAYS];
    for _ in 0..times {
        let room = open.iter().copied().filter(|&day| counts[day] < most);
        let room: Vec<usize> = room.collect();
        let day = if packed { room[0] } else { random.pick(&room) };
        counts[day] += 1;
    }
    counts
}

/// The periods of a day: lessons on the hour, periods without a break, short ones from
/// the first minute on, or any.
fn periods(random: &mut Random, count: usize) -> Vec<Period> {
    let free = LAST_MINUTE - HOUR * count as u32;
    match random.below(4) {
        0 => {
            let first = random.below(free as usize + 1) as u32;
            let lesson = |at| {
                let start = first + HOUR * at as u32;
                Period {
                    start,
                    end: start + 45,
                }
            };
            (0..count).map(lesson).collect()
        }
        1 => one_after_another(random, count, 0, HOUR),
        2 => one_after_another(random, count, 2, 2),
        _ => anywhere(random, count),
    }
}

/// Periods of up to `longest` minutes with breaks of up to `pause`.
fn one_after_another(random: &mut Random, count: usize, pause: u32, longest: u32) -> Vec<Period> {
    let mut end = 0;
    let mut next = || {
        let start = end + random.below(pause as usize + 1) as u32;
        end = start + 1 + random.below(longest as usize) as u32;
        Period { start, end }
    };
    (0..count).map(|_| next()).collect()
}

/// Periods at any minutes, of which a third starts where the one before ends; the first
/// minute of the day and its last are taken more often than others.
fn anywhere(random: &mut Random, count: usize) -> Vec<Period> {
    let minutes = random.choose(2 * count, LAST_MINUTE as usize + 1);
    let pairs = minutes.chunks(2).map(|pair| Period {
        start: pair[0] as u32,
        end: pair[1] as u32,
    });
    let mut periods: Vec<Period> = pairs.collect();
    for at in 1..count {
        if random.chance(30) {
            periods[at].start = periods[at - 1].end;
        }
    }
    if let (Some(first), true) = (periods.first_mut(), random.chance(30)) {
        first.start = 0;
    }
    if let (Some(last), true) = (periods.last_mut(), random.chance(30)) {
        last.end = LAST_MINUTE;
    }
    periods
}

/// A window: a whole day, any minutes in any order, or most often from the start of one
/// period to the end of the same or a later one, or a minute beside these.
pub fn window(random: &mut Random, calendar: &Calendar) -> Window {
    let busy = |&day: &usize| !calendar.days[day].is_empty();
    let busy: Vec<usize> = (0..DAYS).filter(busy).collect();
    let day = match random.chance(90) {
        true => random.pick(&busy),
        false => random.below(DAYS),
    };
    let periods = &calendar.days[day];
    let [from, to] = match random.below(10) {
        0 => [0, LAST_MINUTE],
        1 => minutes(random),
        2 => {
            let [from, to] = minutes(random);
            [from.max(to), from.min(to)]
        }
        _ if periods.is_empty() => minutes(random),
        _ => {
            let first = random.below(periods.len());
            let last = first + random.below(periods.len() - first);
            [
                beside(random, periods[first].start),
                beside(random, periods[last].end),
            ]
        }
    };
    Window {
        day: day as u32 + 1,
        from,
        to,
    }
}

fn minutes(random: &mut Random) -> [u32; 2] {
    [(); 2].map(|()| random.below(LAST_MINUTE as usize + 1) as u32)
}

/// A minute, or sometimes the one before or after it.
fn beside(random: &mut Random, minute: u32) -> u32 {
    match random.below(6) {
        0 => minute.saturating_sub(1),
        1 => (minute + 1).min(LAST_MINUTE),
        _ => minute,
    }
}
