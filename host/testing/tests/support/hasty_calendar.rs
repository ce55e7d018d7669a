//! Readers of calendars and windows that each make one mistake, beside one that makes
//! none. Tests show that their inputs tell each of them from the reference.

use testing::generate::encode;
use testing::reference::{read_number, write_number, Instance, Refusal};

/// What a reader gets wrong, and the list of all mistakes.
macro_rules! mistakes {
    ($($name:ident,)*) => {
        #[derive(Clone, Copy, Debug, PartialEq, Eq)]
        pub enum Mistake {
            $($name,)*
        }

        pub const MISTAKES: &[Mistake] = &[$(Mistake::$name,)*];
    };
}

mistakes! {
    // The number in place of T.
    ZeroIsOutsideItsLimit,
    OverlongZeroAccepted,
    ManyTimesAre22,
    // Days and counts.
    FiveDays,
    SixDays,
    EightDays,
    CountOf24Refused,
    CountOf25Accepted,
    CountIs2,
    // Periods.
    PeriodIs2,
    OffsetOfTheNumberInAPeriod,
    OffsetOfTheCount,
    OffsetOfTheEnd,
    OffsetOfThePeriodBefore,
    BadNumberAtThePeriod,
    BadNumberIs22,
    LimitsAfterTheEnd,
    NeighboursBeforeTheEnd,
    OrderAfterTheDay,
    StartOf1440RefusedAtOnce,
    EndOf1440Refused,
    MinuteOf1441Accepted,
    EmptyPeriodAccepted,
    TouchingRefused,
    OverlapAccepted,
    StartsOfNeighboursCompared,
    OnlyWithTheFirstPeriodCompared,
    DaysCompared,
    // All periods.
    NoPeriodAccepted,
    TotalOf125Refused,
    TotalIs2,
    TotalAfterTheCalendar,
    TotalAtTheCount,
    TotalAtThePeriod,
    TotalInsideADay,
    TotalAfterTheEvents,
    TotalAtTheFilesEnd,
    // Where windows stand.
    WindowsInEveryFile,
    WindowsInNoFile,
    WindowsBeforeTheGroups,
    WindowsAfterTheCalendar,
    // Their count, and their numbers.
    CountOf1024Refused,
    CountOf1025Accepted,
    CountOfWindowsIs2,
    CountOfAllGroups,
    WindowIs2,
    DayIs3,
    OffsetOfTheNumberInAWindow,
    OffsetOfTheWindowsCount,
    BadNumberAtTheWindow,
    LimitsAfterTo,
    DaysFrom0,
    Day8Accepted,
    FromOf1440Refused,
    ToOf1440Refused,
    MinuteOf1441InAWindowAccepted,
    FromAboveToRefused,
    FromAboveToSwapped,
    FromAtToRefused,
    EmptyWindowRefused,
    EmptyWindowLeftOut,
    // What a window stands for.
    FromExcluded,
    ToExcluded,
    OverlappingPeriods,
    TouchedPeriods,
    PeriodsThatStartInside,
    PeriodsThatEndInside,
    PeriodsOfEveryDay,
    TimesOfADayFrom1,
    TimesByTheClock,
    TimesOfFullDays,
    WindowsFirst,
    WindowsBackwards,
    WindowsAreNoGroups,
}

use Mistake::*;

const MOST_MINUTE: u32 = 1_440;

/// A period with its day, from 0, and its offset.
#[derive(Clone, Copy)]
struct Placed {
    at: usize,
    day: usize,
    start: u32,
    end: u32,
}

/// The instance that a reader with `mistake`, or with none, makes of a file: its groups
/// spelled out. It reads constraints as the reference does.
pub fn read(file: &[u8], mistake: Option<Mistake>) -> Result<Instance, Refusal> {
    let mut reader = Reader {
        file,
        at: 0,
        mistake,
    };
    let spelled = reader.spelled()?;
    let rest = &file[reader.at..];
    let spelled_head = spelled.head.len() as u64;
    if spelled.lists.len() > 1_024 {
        // No file spells these out: the reference's own reading, if its groups are these.
        let head = Instance::read(&[&file[..reader.at], &[0]].concat());
        if head.is_ok_and(|head| head.groups == spelled.lists) {
            let instance = Instance::read(file)?;
            let calendar = None;
            return Ok(Instance {
                calendar,
                ..instance
            });
        }
        return refuse(6, reader.at);
    }
    let answer = Instance::read(&[&spelled.head[..], rest].concat());
    answer.map_err(|refusal| Refusal {
        value: (refusal.value + reader.at as u64).saturating_sub(spelled_head),
        ..refusal
    })
}

/// A file that the reference reads as a reader with a mistake reads this one.
pub fn spelled_out(file: &[u8], mistake: Option<Mistake>) -> Result<Vec<u8>, Refusal> {
    let instance = read(file, mistake)?;
    Ok(match instance.groups.len() > 1_024 {
        true => file.to_vec(),
        false => encode(&instance),
    })
}

/// A file up to its constraints, with the times and groups that a reader found.
struct Spelled {
    head: Vec<u8>,
    lists: Vec<Vec<usize>>,
}

struct Reader<'a> {
    file: &'a [u8],
    at: usize,
    mistake: Option<Mistake>,
}

fn refuse<T>(number: u32, value: usize) -> Result<T, Refusal> {
    let value = value as u64;
    Err(Refusal { number, value })
}

impl Reader<'_> {
    fn makes(&self, mistake: Mistake) -> bool {
        self.mistake == Some(mistake)
    }

    fn number(&mut self) -> Result<u32, Refusal> {
        match read_number(self.file, self.at) {
            Some((value, next)) => {
                self.at = next;
                Ok(value)
            }
            None => refuse(1, self.at),
        }
    }

    fn limited(&mut self, least: u32, most: u32) -> Result<u32, Refusal> {
        let at = self.at;
        let value = self.number()?;
        match (least..=most).contains(&value) {
            true => Ok(value),
            false => refuse(2, at),
        }
    }

    /// A list of numbers from 1, as in the file.
    fn list(&mut self, most: u32) -> Result<Vec<u32>, Refusal> {
        let mut members: Vec<u32> = Vec::new();
        for _ in 0..self.limited(0, most)? {
            let at = self.at;
            let member = self.number()?;
            if member <= members.last().copied().unwrap_or(0) || member > most {
                return refuse(3, at);
            }
            members.push(member);
        }
        Ok(members)
    }

    fn spelled(&mut self) -> Result<Spelled, Refusal> {
        let (times, calendar) = self.times()?;
        let expected = calendar.is_some() && !self.makes(WindowsInNoFile);
        let periods = calendar.unwrap_or_default();
        let mut values = vec![times];
        let mut windows = None;
        if expected && self.makes(WindowsAfterTheCalendar) {
            windows = Some(self.windows(&periods, 0)?);
        }
        let [events, resources] = [self.limited(1, 1_024)?, self.limited(0, 99)?];
        values.extend([events, resources]);
        for _ in 0..events {
            values.push(self.limited(1, times)?);
            push_list(&mut values, &self.list(resources)?);
        }
        if self.makes(TotalAfterTheEvents) {
            self.total(times, 0)?;
        }
        if expected && self.makes(WindowsBeforeTheGroups) {
            windows = Some(self.windows(&periods, 0)?);
        }
        let mut groups = Vec::new();
        for _ in 0..self.limited(0, 1_024)? {
            groups.push(self.list(times)?);
        }
        if windows.is_none() && (expected || self.makes(WindowsInEveryFile)) {
            windows = Some(self.windows(&periods, groups.len())?);
        }
        self.all_groups(&mut groups, windows.unwrap_or_default());
        if self.makes(TotalAtTheFilesEnd) {
            self.total(times, 0)?;
        }
        Ok(spelled_file(values, groups))
    }

    /// The time groups and the windows, in the order of their numbers.
    fn all_groups(&self, groups: &mut Vec<Vec<u32>>, mut windows: Vec<Vec<u32>>) {
        match self.mistake {
            Some(WindowsAreNoGroups) => windows.clear(),
            Some(WindowsBackwards) => windows.reverse(),
            Some(EmptyWindowLeftOut) => windows.retain(|window| !window.is_empty()),
            _ => {}
        }
        match self.makes(WindowsFirst) {
            true => {
                windows.append(groups);
                *groups = windows;
            }
            false => groups.append(&mut windows),
        }
    }

    /// How many times there are, and the periods if there is a calendar.
    fn times(&mut self) -> Result<(u32, Option<Vec<Placed>>), Refusal> {
        let overlong = self.file.starts_with(&[0x80, 0]) && self.makes(OverlongZeroAccepted);
        let times = match overlong {
            true => {
                self.at = 2;
                0
            }
            false => self.number()?,
        };
        if times > 125 {
            return refuse(if self.makes(ManyTimesAre22) { 22 } else { 2 }, 0);
        }
        if times > 0 {
            return Ok((times, None));
        }
        if self.makes(ZeroIsOutsideItsLimit) {
            return refuse(2, 0);
        }
        let periods = self.calendar()?;
        Ok((periods.len() as u32, Some(periods)))
    }

    fn calendar(&mut self) -> Result<Vec<Placed>, Refusal> {
        let days = match self.mistake {
            Some(FiveDays) => 5,
            Some(SixDays) => 6,
            Some(EightDays) => 8,
            _ => 7,
        };
        let mut periods: Vec<Placed> = Vec::new();
        let mut at = self.at;
        for day in 0..days {
            at = self.at;
            self.day(day, &mut periods)?;
        }
        if !self.makes(TotalAfterTheEvents) && !self.makes(TotalAtTheFilesEnd) {
            let value = match self.mistake {
                Some(TotalAfterTheCalendar) => self.at,
                Some(TotalAtTheCount) => at,
                _ => 0,
            };
            self.total(periods.len() as u32, value)?;
        }
        Ok(periods)
    }

    /// More than 125 periods, or none.
    fn total(&self, periods: u32, value: usize) -> Result<(), Refusal> {
        let least = u32::from(!self.makes(NoPeriodAccepted));
        let most = 125 - u32::from(self.makes(TotalOf125Refused));
        match (least..=most).contains(&periods) {
            true => Ok(()),
            false => refuse(if self.makes(TotalIs2) { 2 } else { 22 }, value),
        }
    }

    fn day(&mut self, day: usize, periods: &mut Vec<Placed>) -> Result<(), Refusal> {
        let count_at = self.at;
        let count = self
            .number()
            .map_err(|refusal| self.bad(refusal, count_at))?;
        let most = match self.mistake {
            Some(CountOf24Refused) => 23,
            Some(CountOf25Accepted) => 25,
            _ => 24,
        };
        if count > most {
            return refuse(if self.makes(CountIs2) { 2 } else { 22 }, count_at);
        }
        if self.makes(TotalInsideADay) && periods.len() + count as usize > 125 {
            return refuse(22, 0);
        }
        let first = periods.len();
        let mut out_of_order = None;
        for _ in 0..count {
            let at = self.at;
            let earlier = match self.makes(DaysCompared) {
                true => &periods[..],
                false => &periods[first..],
            };
            let earlier = earlier.to_vec();
            let answer = self.period(day, &earlier, count_at);
            match answer {
                Ok(period) => periods.push(period),
                Err((refusal, Some(period))) if self.makes(OrderAfterTheDay) => {
                    out_of_order.get_or_insert(refusal);
                    periods.push(period);
                }
                Err((refusal, _)) => return Err(refusal),
            }
            if self.makes(TotalAtThePeriod) && periods.len() > 125 {
                return refuse(22, at);
            }
        }
        out_of_order.map_or(Ok(()), Err)
    }

    /// A bad number of what stands at `at`.
    fn bad(&self, refusal: Refusal, at: usize) -> Refusal {
        match self.mistake {
            Some(BadNumberIs22) => Refusal {
                number: 22,
                value: at as u64,
            },
            Some(BadNumberAtThePeriod) => Refusal {
                value: at as u64,
                ..refusal
            },
            _ => refusal,
        }
    }

    /// A period after `earlier` ones; with a fault of its order, the period too.
    fn period(
        &mut self,
        day: usize,
        earlier: &[Placed],
        count_at: usize,
    ) -> Result<Placed, (Refusal, Option<Placed>)> {
        let at = self.at;
        let broken = |reader: &Self, value: usize| {
            let number = if reader.makes(PeriodIs2) { 2 } else { 22 };
            let value = match reader.mistake {
                Some(OffsetOfTheCount) => count_at,
                _ => value,
            };
            Refusal {
                number,
                value: value as u64,
            }
        };
        let alone = |refusal| (refusal, None);
        let limit = MOST_MINUTE + u32::from(self.makes(MinuteOf1441Accepted));
        let number_at =
            |reader: &Self, number: usize| match reader.makes(OffsetOfTheNumberInAPeriod) {
                true => number,
                false => at,
            };
        let start = self
            .number()
            .map_err(|refusal| alone(self.bad(refusal, at)))?;
        let late = self.makes(LimitsAfterTheEnd);
        let least = limit + u32::from(!self.makes(StartOf1440RefusedAtOnce));
        if start >= least && !late {
            return Err(alone(broken(self, number_at(self, at))));
        }
        let neighbour = self.overlaps(start, earlier);
        if neighbour && self.makes(NeighboursBeforeTheEnd) {
            return Err(alone(broken(self, at)));
        }
        let end_at = self.at;
        let end = self
            .number()
            .map_err(|refusal| alone(self.bad(refusal, at)))?;
        let most = limit - u32::from(self.makes(EndOf1440Refused));
        if end > most {
            return Err(alone(broken(self, number_at(self, end_at))));
        }
        if start >= least && late {
            return Err(alone(broken(self, at)));
        }
        let period = Placed {
            at,
            day,
            start,
            end,
        };
        let empty = start > end || start == end && !self.makes(EmptyPeriodAccepted);
        if empty || neighbour && !self.makes(OverlapAccepted) {
            let value = match self.mistake {
                Some(OffsetOfTheEnd) => end_at,
                Some(OffsetOfThePeriodBefore) if !empty => earlier.last().map_or(at, |one| one.at),
                _ => at,
            };
            return Err((broken(self, value), Some(period)));
        }
        Ok(period)
    }

    /// Whether a start comes too early after the periods before it.
    fn overlaps(&self, start: u32, earlier: &[Placed]) -> bool {
        let before = match self.makes(OnlyWithTheFirstPeriodCompared) {
            true => earlier.first(),
            false => earlier.last(),
        };
        before.is_some_and(|before| match self.mistake {
            Some(StartsOfNeighboursCompared) => start < before.start,
            Some(TouchingRefused) => start <= before.end,
            _ => start < before.end,
        })
    }

    /// The windows after so many groups, as lists of times.
    fn windows(&mut self, periods: &[Placed], groups: usize) -> Result<Vec<Vec<u32>>, Refusal> {
        let at = self.at;
        let count = self.number()?;
        let most = match self.mistake {
            Some(CountOf1024Refused) => 1_023,
            Some(CountOf1025Accepted) => 1_025,
            Some(CountOfAllGroups) => 1_024 - groups as u32,
            _ => 1_024,
        };
        if count > most {
            return refuse(if self.makes(CountOfWindowsIs2) { 2 } else { 22 }, at);
        }
        let mut windows = Vec::new();
        for _ in 0..count {
            let window_at = self.at;
            let window = self.window(at)?;
            let group = self.group(periods, window);
            if group.is_empty() && self.makes(EmptyWindowRefused) {
                return refuse(22, window_at);
            }
            windows.push(group);
        }
        Ok(windows)
    }

    /// A window as written: day, from and to.
    fn window(&mut self, count_at: usize) -> Result<[u32; 3], Refusal> {
        let at = self.at;
        let days = match self.mistake {
            Some(DaysFrom0) => [0, 6],
            Some(Day8Accepted) => [1, 8],
            _ => [1, 7],
        };
        let last = MOST_MINUTE + u32::from(self.makes(MinuteOf1441InAWindowAccepted));
        let from_most = last - u32::from(self.makes(FromOf1440Refused));
        let to_most = last - u32::from(self.makes(ToOf1440Refused));
        let mut values = [0; 3];
        let mut broken = None;
        for (field, [least, most]) in [days, [0, from_most], [0, to_most]].into_iter().enumerate() {
            let number_at = self.at;
            let value = self.number().map_err(|refusal| Refusal {
                value: match self.makes(BadNumberAtTheWindow) {
                    true => at as u64,
                    false => refusal.value,
                },
                ..refusal
            })?;
            values[field] = value;
            if (least..=most).contains(&value) {
                continue;
            }
            let number = match self.mistake {
                Some(WindowIs2) => 2,
                Some(DayIs3) if field == 0 => 3,
                _ => 22,
            };
            let value = match self.mistake {
                Some(OffsetOfTheNumberInAWindow) => number_at,
                Some(OffsetOfTheWindowsCount) => count_at,
                _ => at,
            };
            match self.makes(LimitsAfterTo) {
                true => broken = Some(refuse(number, value)),
                false => return refuse(number, value),
            }
        }
        let [day, from, to] = values;
        if from > to && self.makes(FromAboveToRefused) || from == to && self.makes(FromAtToRefused)
        {
            return refuse(22, at);
        }
        if let Some(broken) = broken {
            return broken;
        }
        let day = day + u32::from(self.makes(DaysFrom0));
        match from > to && self.makes(FromAboveToSwapped) {
            true => Ok([day, to, from]),
            false => Ok([day, from, to]),
        }
    }

    /// The times of a window, from 1.
    fn group(&self, periods: &[Placed], [day, from, to]: [u32; 3]) -> Vec<u32> {
        let mut order: Vec<&Placed> = periods.iter().collect();
        if self.makes(TimesByTheClock) {
            order.sort_by_key(|period| period.start);
        }
        let mut group = Vec::new();
        let mut in_its_day = [0; 8];
        for (at, period) in order.into_iter().enumerate() {
            let before = in_its_day[period.day];
            in_its_day[period.day] += 1;
            let time = match self.mistake {
                Some(TimesOfADayFrom1) => before + 1,
                Some(TimesOfFullDays) => 24 * period.day as u32 + before + 1,
                _ => at as u32 + 1,
            };
            let here = period.day + 1 == day as usize || self.makes(PeriodsOfEveryDay);
            if here && self.inside(period, from, to) {
                group.push(time);
            }
        }
        group.sort_unstable();
        group.dedup();
        group
    }

    fn inside(&self, &Placed { start, end, .. }: &Placed, from: u32, to: u32) -> bool {
        match self.mistake {
            Some(FromExcluded) => start > from && end <= to,
            Some(ToExcluded) => start >= from && end < to,
            Some(OverlappingPeriods) => end > from && start < to,
            Some(TouchedPeriods) => end >= from && start <= to,
            Some(PeriodsThatStartInside) => start >= from && start < to,
            Some(PeriodsThatEndInside) => end > from && end <= to,
            _ => start >= from && end <= to,
        }
    }
}

fn push_list(values: &mut Vec<u32>, members: &[u32]) {
    values.push(members.len() as u32);
    values.extend(members);
}

/// The file of these numbers and groups, without its constraints.
fn spelled_file(mut values: Vec<u32>, groups: Vec<Vec<u32>>) -> Spelled {
    let bytes = |values: &[u32]| {
        let mut bytes = Vec::new();
        values
            .iter()
            .for_each(|&value| write_number(value, &mut bytes));
        bytes
    };
    values.push(groups.len() as u32);
    for group in &groups {
        push_list(&mut values, group);
    }
    let index = |group: &Vec<u32>| group.iter().map(|&time| time as usize - 1).collect();
    Spelled {
        head: bytes(&values),
        lists: groups.iter().map(index).collect(),
    }
}
