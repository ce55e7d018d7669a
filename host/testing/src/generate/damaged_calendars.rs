//! Files whose calendar or windows break one rule, each with the refusal that it earns.

use super::calendars::calendar;
use super::file::encode;
use super::random::Random;
use crate::reference::{
    read_number, write_number, Calendar, Instance, Refusal, DAYS, LAST_MINUTE, MOST_PERIODS,
    MOST_TIMES, MOST_WINDOWS,
};
use std::ops::RangeInclusive;

/// A damaged file.
pub struct DamagedCalendar {
    /// What is wrong with it.
    pub name: &'static str,
    pub file: Vec<u8>,
    pub refusal: Refusal,
}

/// What the numbers of a part are.
#[derive(Clone, Copy, Debug, PartialEq, Eq)]
enum Sort {
    /// The count of a day's periods.
    Periods,
    FirstPeriod,
    /// A period after another one of its day.
    LaterPeriod,
    /// The count of windows.
    Windows,
    Window,
    Other,
}

/// A count, period or window, number by number as bytes, or what is none.
struct Part {
    sort: Sort,
    numbers: Vec<Vec<u8>>,
}

/// A file of which one part is to be changed.
struct Layout {
    parts: Vec<Part>,
}

/// Numbers with the most that they may be.
const LIMITS: [(&str, Sort, usize, u32); 9] = [
    (
        "a count of periods above its limit",
        Sort::Periods,
        0,
        MOST_PERIODS,
    ),
    (
        "a first start above its limit",
        Sort::FirstPeriod,
        0,
        LAST_MINUTE,
    ),
    (
        "a later start above its limit",
        Sort::LaterPeriod,
        0,
        LAST_MINUTE,
    ),
    ("an end above its limit", Sort::FirstPeriod, 1, LAST_MINUTE),
    (
        "a later end above its limit",
        Sort::LaterPeriod,
        1,
        LAST_MINUTE,
    ),
    (
        "a count of windows above its limit",
        Sort::Windows,
        0,
        MOST_WINDOWS,
    ),
    ("a day above its limit", Sort::Window, 0, DAYS as u32),
    ("a from above its limit", Sort::Window, 1, LAST_MINUTE),
    ("a to above its limit", Sort::Window, 2, LAST_MINUTE),
];

/// Numbers whose form may be bad.
const FORMS: [(&str, Sort, usize); 8] = [
    ("a bad count of periods", Sort::Periods, 0),
    ("a bad start", Sort::FirstPeriod, 0),
    ("a bad end", Sort::FirstPeriod, 1),
    ("a bad later end", Sort::LaterPeriod, 1),
    ("a bad count of windows", Sort::Windows, 0),
    ("a bad day", Sort::Window, 0),
    ("a bad from", Sort::Window, 1),
    ("a bad to", Sort::Window, 2),
];

/// The file of an instance with a calendar, damaged in one of the ways that it allows.
pub fn damaged_calendar(random: &mut Random, instance: &Instance) -> Option<DamagedCalendar> {
    let mut all = damaged_calendars(random, instance);
    match all.is_empty() {
        true => None,
        false => Some(all.swap_remove(random.below(all.len()))),
    }
}

/// The file of an instance with a calendar, damaged in every way that it allows.
pub fn damaged_calendars(random: &mut Random, instance: &Instance) -> Vec<DamagedCalendar> {
    let Some(calendar) = &instance.calendar else {
        return Vec::new();
    };
    let layout = Layout::of(instance, calendar);
    let mut all = vec![
        damaged_total(random, instance, "no period", 0..=0),
        damaged_total(
            random,
            instance,
            "too many periods",
            MOST_TIMES as usize + 1..=DAYS * MOST_PERIODS as usize,
        ),
    ];
    for (name, sort, number, limit) in LIMITS {
        let above = match random.chance(60) {
            true => limit + 1,
            false => limit + 1 + random.below((u32::MAX - limit) as usize) as u32,
        };
        let changed = |_: &[Vec<u8>]| vec![(number, bytes(above))];
        all.extend(layout.broken(random, name, sort, changed));
    }
    let no_day = |_: &[Vec<u8>]| vec![(0, bytes(0))];
    all.extend(layout.broken(random, "a day of 0", Sort::Window, no_day));
    for sort in [Sort::FirstPeriod, Sort::LaterPeriod] {
        let end_at_start = |numbers: &[Vec<u8>]| vec![(1, numbers[0].clone())];
        all.extend(layout.broken(random, "an end at its start", sort, end_at_start));
        let swapped = |numbers: &[Vec<u8>]| vec![(0, numbers[1].clone()), (1, numbers[0].clone())];
        all.extend(layout.broken(random, "an end before its start", sort, swapped));
    }
    all.extend(layout.overlapping(random));
    for (name, sort, number) in FORMS {
        all.extend(layout.misformed(random, name, sort, number));
    }
    all
}

/// A calendar that has another number of periods.
fn damaged_total(
    random: &mut Random,
    instance: &Instance,
    name: &'static str,
    times: RangeInclusive<usize>,
) -> DamagedCalendar {
    let mut changed = instance.clone();
    let times = random.within(&times);
    if let Some(old) = &mut changed.calendar {
        old.days = calendar(random, times).days;
    }
    DamagedCalendar {
        name,
        file: encode(&changed),
        refusal: Refusal {
            number: 22,
            value: 0,
        },
    }
}

impl Layout {
    fn of(instance: &Instance, calendar: &Calendar) -> Layout {
        let part = |sort, numbers: &[u32]| Part {
            sort,
            numbers: numbers.iter().map(|&number| bytes(number)).collect(),
        };
        let mut parts = vec![part(Sort::Other, &[0])];
        for periods in &calendar.days {
            parts.push(part(Sort::Periods, &[periods.len() as u32]));
            for (at, period) in periods.iter().enumerate() {
                let sort = match at {
                    0 => Sort::FirstPeriod,
                    _ => Sort::LaterPeriod,
                };
                parts.push(part(sort, &[period.start, period.end]));
            }
        }
        let head: usize = parts
            .iter()
            .flat_map(|part| &part.numbers)
            .map(Vec::len)
            .sum();
        let mut windows = vec![part(Sort::Windows, &[calendar.windows.len() as u32])];
        for window in &calendar.windows {
            windows.push(part(Sort::Window, &[window.day, window.from, window.to]));
        }
        let windows_length: usize = windows
            .iter()
            .flat_map(|part| &part.numbers)
            .map(Vec::len)
            .sum();
        // What stands between is what is there without constraints and windows.
        let mut short = instance.clone();
        short.constraints.clear();
        let until_constraints = encode(&short).len() - 1;
        let file = encode(instance);
        let begin = until_constraints - windows_length;
        let other = |bytes: &[u8]| Part {
            sort: Sort::Other,
            numbers: vec![bytes.to_vec()],
        };
        parts.push(other(&file[head..begin]));
        parts.extend(windows);
        parts.push(other(&file[until_constraints..]));
        Layout { parts }
    }

    /// The numbers before number `number` of part `at`, as bytes.
    fn before(&self, at: usize, number: usize) -> Vec<u8> {
        let whole = self.parts[..at].iter().flat_map(|part| &part.numbers);
        let numbers = whole.chain(&self.parts[at].numbers[..number]);
        numbers.flatten().copied().collect()
    }

    fn after(&self, at: usize) -> Vec<u8> {
        let parts = self.parts[at + 1..].iter();
        parts
            .flat_map(|part| &part.numbers)
            .flatten()
            .copied()
            .collect()
    }

    /// Any part of this sort, if there is one.
    fn any(&self, random: &mut Random, sort: Sort) -> Option<usize> {
        let all = (0..self.parts.len()).filter(|&at| self.parts[at].sort == sort);
        let all: Vec<usize> = all.collect();
        (!all.is_empty()).then(|| random.pick(&all))
    }

    /// The file with some numbers of part `at` in place of others; 22 with its offset.
    fn with(
        &self,
        at: usize,
        name: &'static str,
        changed: Vec<(usize, Vec<u8>)>,
    ) -> DamagedCalendar {
        let before = self.before(at, 0);
        let mut numbers = self.parts[at].numbers.clone();
        for (number, bytes) in changed {
            numbers[number] = bytes;
        }
        let refusal = Refusal {
            number: 22,
            value: before.len() as u64,
        };
        DamagedCalendar {
            name,
            file: [before, numbers.concat(), self.after(at)].concat(),
            refusal,
        }
    }

    /// Any part of this sort with a fault.
    fn broken(
        &self,
        random: &mut Random,
        name: &'static str,
        sort: Sort,
        changed: impl Fn(&[Vec<u8>]) -> Vec<(usize, Vec<u8>)>,
    ) -> Option<DamagedCalendar> {
        let at = self.any(random, sort)?;
        Some(self.with(at, name, changed(&self.parts[at].numbers)))
    }

    /// A period that starts one minute before the one before it ends.
    fn overlapping(&self, random: &mut Random) -> Option<DamagedCalendar> {
        let at = self.any(random, Sort::LaterPeriod)?;
        let (end, _) = read_number(&self.parts[at - 1].numbers[1], 0)?;
        let name = "a start before the end of the period before";
        Some(self.with(at, name, vec![(0, bytes(end - 1))]))
    }

    /// A number that is cut short, overlong or too large; 1 with its own offset.
    fn misformed(
        &self,
        random: &mut Random,
        name: &'static str,
        sort: Sort,
        number: usize,
    ) -> Option<DamagedCalendar> {
        let at = self.any(random, sort)?;
        let before = self.before(at, number);
        let whole = &self.parts[at].numbers[number];
        let changed = match random.below(3) {
            0 => whole[..random.below(whole.len())].to_vec(),
            1 => {
                let mut overlong = whole.clone();
                overlong[whole.len() - 1] |= 0x80;
                overlong.push(0);
                [overlong, self.after(at)].concat()
            }
            _ => [vec![0x80, 0x80, 0x80, 0x80, 0x10], self.after(at)].concat(), // 2^32
        };
        let refusal = Refusal {
            number: 1,
            value: before.len() as u64,
        };
        Some(DamagedCalendar {
            name,
            file: [before, changed].concat(),
            refusal,
        })
    }
}

fn bytes(number: u32) -> Vec<u8> {
    let mut bytes = Vec::new();
    write_number(number, &mut bytes);
    bytes
}
