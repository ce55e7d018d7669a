//! Timetables and their refusals 10 to 12.

use super::instance::Instance;
use super::refusal::refuse;
use timetable::engine::Refusal;

/// A checked timetable.
pub struct Sheet<'a> {
    times: usize,
    taken: &'a [u8],
    starts: &'a [u8],
}

impl<'a> Sheet<'a> {
    /// The timetable `table` of `instance`, or 10 to 12.
    pub fn read(instance: &Instance, table: &'a [u8]) -> Result<Sheet<'a>, Refusal> {
        let half = instance.events.len() * instance.times;
        check_bytes(table, 2 * half)?;
        let (taken, starts) = table.split_at(half);
        let sheet = Sheet {
            times: instance.times,
            taken,
            starts,
        };
        for (event, fields) in instance.events.iter().enumerate() {
            if !sheet.keeps(event, fields.duration) {
                return refuse(12, event as u64 + 1);
            }
        }
        Ok(sheet)
    }

    /// Whether `event` takes `time`.
    pub fn takes(&self, event: usize, time: usize) -> bool {
        self.taken[event * self.times + time] == 1
    }

    /// Whether `event` starts at `time`.
    pub fn starts(&self, event: usize, time: usize) -> bool {
        self.starts[event * self.times + time] == 1
    }

    /// The length of the subevent of `event` that starts at `time`: to before the
    /// next time that is not taken or is a start, or to the last time.
    pub fn length_from(&self, event: usize, time: usize) -> usize {
        let ends = |&next: &usize| !self.takes(event, next) || self.starts(event, next);
        (time + 1..self.times).find(ends).unwrap_or(self.times) - time
    }

    /// The starts of the subevents of `event`, ascending.
    pub fn starts_of(&self, event: usize) -> impl Iterator<Item = usize> + '_ {
        (0..self.times).filter(move |&time| self.starts(event, time))
    }

    /// The lengths of the subevents of `event`, by ascending start.
    pub fn lengths(&self, event: usize) -> impl Iterator<Item = usize> + '_ {
        self.starts_of(event)
            .map(move |time| self.length_from(event, time))
    }

    /// The gap between two events: the first time of `second`, less the last of
    /// `first`, less 1. Each takes a time, since a duration is at least 1.
    pub fn gap(&self, first: usize, second: usize) -> i64 {
        let mut times = 0..self.times;
        let begin = times.clone().find(|&time| self.takes(second, time));
        let last = times.rfind(|&time| self.takes(first, time));
        let [begin, last] = [begin, last].map(|time| time.expect("a time") as i64);
        begin - last - 1
    }

    /// Whether the row of `event` follows the rules of a timetable.
    fn keeps(&self, event: usize, duration: usize) -> bool {
        let taken = (0..self.times).filter(|&t| self.takes(event, t)).count();
        taken == duration
            && (0..self.times).all(|t| {
                let begins = self.takes(event, t) && (t == 0 || !self.takes(event, t - 1));
                if self.starts(event, t) {
                    self.takes(event, t)
                } else {
                    !begins
                }
            })
    }
}

/// Whether two timetables are the same sheet: their taken bytes agree.
pub fn same_sheet(file: &[u8], first: &[u8], second: &[u8]) -> Result<bool, Refusal> {
    let instance = Instance::read(file)?;
    let first = Sheet::read(&instance, first)?;
    let second = Sheet::read(&instance, second)?;
    Ok(first.taken == second.taken)
}

/// 10 unless there are `wanted` bytes, 11 unless each is 0 or 1.
pub(super) fn check_bytes(bytes: &[u8], wanted: usize) -> Result<(), Refusal> {
    if bytes.len() != wanted {
        return refuse(10, wanted as u64);
    }
    match bytes.iter().position(|&byte| byte > 1) {
        Some(offset) => refuse(11, offset as u64),
        None => Ok(()),
    }
}
