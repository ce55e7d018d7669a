//! Times and groups of an instance in words, by number; by the clock where there is a
//! calendar.

use super::calendar::clock;
use super::Instance;

impl Instance {
    /// "time 3", or "time 3 (day 1, 09:55 to 10:40)".
    pub fn time_words(&self, time: usize) -> String {
        let calendar = self.calendar.as_ref();
        let period = calendar.and_then(|calendar| calendar.periods().nth(time));
        let number = time + 1;
        match period {
            Some((day, period)) => format!(
                "time {number} (day {}, {} to {})",
                day + 1,
                clock(period.start),
                clock(period.end)
            ),
            None => format!("time {number}"),
        }
    }

    /// "group 3", or "group 3 (window 1: day 2, 08:00 to 12:00)".
    pub fn group_words(&self, group: usize) -> String {
        let window = group.checked_sub(self.written_groups().len());
        let found = window.and_then(|window| Some((window + 1, self.windows().get(window)?)));
        let number = group + 1;
        match found {
            Some((window, shown)) => format!(
                "group {number} (window {window}: day {}, {} to {})",
                shown.day + 1,
                clock(shown.from),
                clock(shown.to)
            ),
            None => format!("group {number}"),
        }
    }
}
