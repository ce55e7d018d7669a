//! Reading a calendar and its windows. What breaks their rules is told of a whole
//! count, period or window, by its first byte.

use super::calendar::{Calendar, Period, Window};
use super::fault::{CalendarRule, Fault, Reason};
use super::field::{Field, Part};
use super::limits::{DAYS, LAST_MINUTE, MOST_PERIODS, MOST_TIMES, MOST_WINDOWS};
use super::read::{alone, Reader};
use std::ops::RangeInclusive;

const MINUTES: RangeInclusive<u32> = 0..=LAST_MINUTE;

impl Reader<'_> {
    /// The seven days after `zero`, which stands in place of the number of times.
    pub fn calendar(&mut self, zero: &Field) -> Result<Calendar, Fault> {
        let mut calendar = Calendar::default();
        for (day, periods) in (1..).zip(&mut calendar.days) {
            for number in 1..=self.calendar_count(Part::Day(day), "periods", MOST_PERIODS)? {
                let part = Part::Period { day, number };
                periods.push(self.period(part, periods.last().copied())?);
            }
        }
        match calendar.times() {
            0 => Err(broken(zero, CalendarRule::NoPeriod)),
            times if times > MOST_TIMES as usize => {
                Err(broken(zero, CalendarRule::TooMany { periods: times }))
            }
            _ => Ok(calendar),
        }
    }

    /// The windows of a file with a calendar.
    pub fn windows(&mut self) -> Result<Vec<Window>, Fault> {
        let count = self.calendar_count(Part::Counts, "windows", MOST_WINDOWS)?;
        (1..=count).map(|number| self.window(number)).collect()
    }

    fn calendar_count(
        &mut self,
        part: Part,
        name: &'static str,
        most: u32,
    ) -> Result<usize, Fault> {
        let field = self.number(alone(part, name), 0..=most)?;
        match field.value {
            Some(count) if count <= most => Ok(count as usize),
            _ => Err(broken(&field, CalendarRule::Count)),
        }
    }

    /// A period after `before`, the one before it in its day.
    fn period(&mut self, part: Part, before: Option<Period>) -> Result<Period, Fault> {
        let first = self.number(alone(part, "start"), MINUTES)?;
        let start = within(&first, &first)?;
        let end = self.number(alone(part, "end"), MINUTES)?;
        let end = within(&end, &first)?;
        if start >= end {
            return Err(broken(&first, CalendarRule::Order { start, end }));
        }
        match before {
            Some(before) if start < before.end => {
                let before = before.end;
                Err(broken(&first, CalendarRule::Overlap { start, before }))
            }
            _ => Ok(Period { start, end }),
        }
    }

    fn window(&mut self, number: usize) -> Result<Window, Fault> {
        let part = Part::Window(number);
        let first = self.number(alone(part, "day"), 1..=DAYS)?;
        let day = within(&first, &first)? as usize - 1;
        let from = self.number(alone(part, "from"), MINUTES)?;
        let from = within(&from, &first)?;
        let to = self.number(alone(part, "to"), MINUTES)?;
        let to = within(&to, &first)?;
        Ok(Window { day, from, to })
    }
}

/// The value of a number within its limits; outside, the period or window that
/// begins with `first` is at fault.
fn within(field: &Field, first: &Field) -> Result<u32, Fault> {
    let value = field.value.unwrap_or_default();
    if field.limits.contains(&value) {
        return Ok(value);
    }
    let rule = CalendarRule::Limit {
        name: field.path.name,
        value,
        least: *field.limits.start(),
        most: *field.limits.end(),
    };
    Err(broken(first, rule))
}

fn broken(field: &Field, rule: CalendarRule) -> Fault {
    Fault {
        reason: Reason::Calendar(rule),
        field: field.clone(),
    }
}

#[cfg(test)]
mod tests {
    use super::super::{field_at, read, write};
    use super::*;

    fn hex(text: &str) -> Vec<u8> {
        let bytes = text.split_whitespace();
        bytes
            .map(|byte| u8::from_str_radix(byte, 16).expect("two hexadecimal digits"))
            .collect()
    }

    /// A period from 0 to 5 on day 1, one event; what stands after its windows' count.
    const START: &str = "00 01 00 05 00 00 00 00 00 00 01 00 01 00 00";

    #[test]
    fn what_breaks_a_rule_is_told_by_its_first_byte() {
        for (bytes, number, offset, words) in [
            (
                "00 01 00 A1 0B",
                22,
                2,
                "day 1, period 1: its end is 1441, not from 0 to 1440",
            ),
            (
                "00 01 A1 0B",
                22,
                2,
                "day 1, period 1: its start is 1441, not from 0 to 1440",
            ),
            (
                "00 01 05 05",
                22,
                2,
                "day 1, period 1: it ends at 00:05, not after its start at 00:05",
            ),
            (
                "00 00 02 00 05 04 09",
                22,
                5,
                "day 2, period 2: it starts at 00:04, before the one before it ends at 00:05",
            ),
            (
                "00 02 00 05 04 04",
                22,
                4,
                "day 1, period 2: it ends at 00:04, not after its start at 00:04",
            ),
            (
                "00 19",
                22,
                1,
                "day 1, number of periods: 25 is not from 0 to 24",
            ),
            (
                "00 00 00 00 00 00 00 00",
                22,
                0,
                "calendar: it has no period",
            ),
            (
                "00 01 05 80",
                1,
                3,
                "day 1, period 1, end: the number is cut short, overlong or too large",
            ),
            (
                "00",
                1,
                1,
                "day 1, number of periods: the number is cut short, overlong or too large",
            ),
            (
                "80 00",
                1,
                0,
                "number of times: the number is cut short, overlong or too large",
            ),
            ("7E", 2, 0, "number of times: 126 is not from 0 to 125"),
            (
                &format!("{START} 01 01 00 A1 0B 00"),
                22,
                16,
                "window 1: its to is 1441, not from 0 to 1440",
            ),
            (
                &format!("{START} 02 01 00 00 08"),
                22,
                19,
                "window 2: its day is 8, not from 1 to 7",
            ),
            (
                &format!("{START} 01 00 00 00 00"),
                22,
                16,
                "window 1: its day is 0, not from 1 to 7",
            ),
            (
                &format!("{START} 01 01 A1 0B"),
                22,
                16,
                "window 1: its from is 1441, not from 0 to 1440",
            ),
            (
                &format!("{START} 81 08"),
                22,
                15,
                "number of windows: 1025 is not from 0 to 1024",
            ),
            (
                &format!("{START} 01 01"),
                1,
                17,
                "window 1, from: the number is cut short, overlong or too large",
            ),
            (
                &format!("{START} 01 01 00 05 01 03 00 01 02"),
                3,
                23,
                "constraint 1, kind preferred-times, group: 2 names nothing, 1 to 1 are there",
            ),
            (
                "00 01 00 05 00 00 00 00 00 00 01 01 01 01 01 00 01 01 05 00 01 06 00 01 01 01 01",
                5,
                21,
                "constraint 1, kind busy-limit: lo is 1, above the 0 entries of its counted list \
                 (lo 1, hi 1, length 0)",
            ),
        ] {
            let file = hex(bytes);
            let fault = read(&file).expect_err(bytes);
            let found = (fault.number(), fault.field.offset);
            assert_eq!(found, (number, offset), "{bytes}: {fault}");
            assert_eq!(fault.to_string(), words, "{bytes}");
            let met = field_at(&file, offset).expect(bytes);
            assert_eq!(met.value, fault.field.value, "{bytes}");
        }
    }

    #[test]
    fn too_many_periods_are_told_after_the_last_day() {
        // 18 periods of a minute on each day, with a pause between.
        let day: Vec<u8> = (0..36).collect();
        let mut file = vec![0];
        for _ in 0..DAYS {
            file.push(18);
            file.extend(&day);
        }
        let fault = read(&file).expect_err("126 periods");
        assert_eq!((fault.number(), fault.field.offset), (22, 0));
        assert_eq!(
            fault.to_string(),
            "calendar: it has 126 periods, 125 are the most"
        );
        // A fault of the last day comes before it.
        *file.last_mut().expect("a byte") = 0;
        let fault = read(&file).expect_err("a period that ends early");
        assert_eq!((fault.number(), fault.field.offset), (22, file.len() - 2));
        let accepted = [
            &file[..file.len() - 37],
            &[17],
            &day[..34],
            &[1, 0, 1, 0, 0, 0, 0],
        ];
        let instance = read(&accepted.concat()).expect("125 periods");
        assert_eq!(instance.times, 125);
    }

    #[test]
    fn each_number_has_a_name_and_the_file_is_written_back() {
        let file = hex(&format!("{START} 02 01 00 05 07 05 00 01 03 00 01 02"));
        let instance = read(&file).expect("a file");
        assert_eq!(write(&instance), file);
        assert_eq!(instance.times, 1);
        assert_eq!(instance.groups, [vec![0], vec![]]);
        let path = |offset| field_at(&file, offset).expect("a number").path.to_string();
        for (offset, words) in [
            (0, "number of times"),
            (1, "day 1, number of periods"),
            (2, "day 1, period 1, start"),
            (3, "day 1, period 1, end"),
            (4, "day 2, number of periods"),
            (9, "day 7, number of periods"),
            (10, "number of events"),
            (14, "number of groups"),
            (15, "number of windows"),
            (16, "window 1, day"),
            (17, "window 1, from"),
            (18, "window 1, to"),
            (19, "window 2, day"),
            (22, "number of constraints"),
            (26, "constraint 1, kind preferred-times, group"),
        ] {
            assert_eq!(path(offset), words);
        }
        let touching = hex("00 02 00 05 05 09 00 00 00 00 00 00 01 00 01 00 00 00 00");
        assert_eq!(read(&touching).expect("periods may touch").times, 2);
        let plain = hex("01 01 00 01 00 00 00");
        assert_eq!(read(&plain).expect("no count of windows").calendar, None);
    }
}
