//! When lessons begin and end: by the names of times, or by the clock where there is a
//! calendar.

use super::View;
use crate::instance::{clock, Period};
use std::ops::Range;

impl View<'_> {
    /// The name of a time's day and its period, if there is a calendar.
    fn period(&self, time: usize) -> Option<(&str, Period)> {
        let calendar = self.school.instance.calendar.as_ref()?;
        let (day, period) = calendar.periods().nth(time)?;
        let name = self.school.names.days.get(day)?.name.as_deref()?;
        Some((name, period))
    }

    /// When a time begins: "Mon.3", or "Mon 09:55".
    pub fn begin(&self, time: usize) -> String {
        match self.period(time) {
            Some((day, period)) => format!("{day} {}", clock(period.start)),
            None => self.school.names.times()[time].clone(),
        }
    }

    /// When a time ends: "Mon.3" with it, or "Mon 10:40".
    pub fn end(&self, time: usize) -> String {
        match self.period(time) {
            Some((day, period)) => format!("{day} {}", clock(period.end)),
            None => self.begin(time),
        }
    }

    /// Blocks by their times: "Mon.3 to Mon.4", or "Mon 09:55\u{2013}11:30".
    pub fn blocks_line(&self, blocks: &[Range<usize>]) -> String {
        let lines = blocks.iter().map(|block| self.block_line(block));
        lines.collect::<Vec<_>>().join(", ")
    }

    fn block_line(&self, block: &Range<usize>) -> String {
        let (first, last) = (block.start, block.end - 1);
        match (self.period(first), self.period(last)) {
            (Some((day, from)), Some((same, to))) if day == same => {
                format!("{day} {}", between(from.start, to.end))
            }
            _ if first == last => self.begin(first),
            _ => format!("{} to {}", self.begin(first), self.end(last)),
        }
    }
}

/// "08:00\u{2013}08:45"
pub fn between(from: u32, to: u32) -> String {
    format!("{}\u{2013}{}", clock(from), clock(to))
}

#[cfg(test)]
mod tests {
    use super::super::{diff, diff_text, grids, grids_text, lessons_csv, page, View};
    use crate::school::parse;

    /// A Monday and a Tuesday that have one period in common, and a Sunday without any.
    const SCHOOL: &str = "calendar Mon periods 08:00-08:45 08:50-09:35 10:00-10:45
calendar Tue periods 08:00-08:40 08:45-09:25 10:00-10:45
classes 1A
lesson Theory takes 2 with 1A
lesson Laboratory takes 1 with 1A
window Early is Mon 08:00 to 09:35
precedence hard Theory before Laboratory
unavailable weight 2 1A in Early
";

    fn table(rows: [&str; 4]) -> Vec<u8> {
        rows.concat().bytes().map(|digit| digit - b'0').collect()
    }

    #[test]
    fn blocks_and_gaps_are_told_by_the_clock() {
        let school = parse(SCHOOL).expect("a school");
        let first = table(["110000", "000001", "100000", "000001"]);
        let second = table(["001100", "100000", "001000", "100000"]);
        let [first, second] =
            [&first, &second].map(|table| View::new(&school, table).expect("one"));
        assert_eq!(
            diff_text(&first, &second, &diff(&first, &second)),
            "moved 2\n  Theory: Mon 08:00\u{2013}09:35 -> Mon 10:00 to Tue 08:40\n  \
             Laboratory: Tue 10:00\u{2013}10:45 -> Mon 08:00\u{2013}08:45\n\
             charged otherwise 2\n  \
             1: hard 0 -> hard 1  precedence hard Theory before Laboratory \
             (gap 3 before, \u{2212}4 after, allowed 0 or more)\n  \
             2: +4 -> +2  unavailable weight 2 1A in Early\n\
             infeasibility 0 -> 1\nobjective 4 -> 2\n"
        );
        assert_eq!(
            second.charge_line(0),
            "precedence hard Theory before Laboratory (gap \u{2212}4, allowed 0 or more: \
             Theory ends at Tue 08:40, Laboratory begins at Mon 08:00)"
        );
    }

    #[test]
    fn rows_stand_in_the_order_of_the_clock() {
        let school = parse(SCHOOL).expect("a school");
        // Theory in two periods of Monday, with a row of Tuesday's between them.
        let table = table(["110000", "000100", "100000", "000100"]);
        let view = View::new(&school, &table).expect("one");
        let grids = grids(&view, &[0], true);
        let text = "\
Class 1A

             Mon       Tue
-----------  --------  ----------
08:00\u{2013}08:40  -         Laboratory
08:00\u{2013}08:45  Theory    -
             !2 +4
08:45\u{2013}09:25  -
08:50\u{2013}09:35  | Theory  -
             !2
10:00\u{2013}10:45
  !2 +4  unavailable weight 2 1A in Early
";
        assert_eq!(grids_text(&view, &grids), text);
        let page = page(&view, &grids);
        assert!(
            page.contains("<td rowspan=\"3\"><div class=\"lesson\""),
            "{page}"
        );
        // What lies between the two periods is part of the lesson's cell.
        assert_eq!(page.matches("<td class=\"absent\">").count(), 3, "{page}");
        let csv = lessons_csv(&view, &grids);
        let line = "Class 1A,Tue,08:00\u{2013}08:40,Laboratory,yes,,1A,,,\r\n";
        assert!(csv.ends_with(line), "{csv}");
    }
}
