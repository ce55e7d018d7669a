//! The gap between two lessons, which a precedence looks at.

use super::sheet::Sheet;
use super::View;
use crate::instance::{Kind, LARGEST_GAP};

/// The times between two lessons, and how many there may be.
#[derive(Clone, Copy, Debug, PartialEq, Eq)]
pub struct Gap {
    /// The lesson before the gap, and the last of its times.
    pub before: (usize, usize),
    /// The lesson after the gap, and the first of its times.
    pub after: (usize, usize),
    lo: usize,
    hi: usize,
}

impl Gap {
    /// What a precedence finds; none for other kinds, or where a lesson takes no time.
    pub fn found(kind: &Kind, sheet: &Sheet) -> Option<Gap> {
        let Kind::Precedence {
            first,
            second,
            lo,
            hi,
        } = *kind
        else {
            return None;
        };
        Some(Gap {
            before: (first, *sheet.times_of(first).last()?),
            after: (second, *sheet.times_of(second).first()?),
            lo,
            hi,
        })
    }

    /// How many times lie between; below 0 where the lessons share a time or stand the
    /// other way round.
    fn length(self) -> i64 {
        self.after.1 as i64 - self.before.1 as i64 - 1
    }

    pub fn is_outside(self) -> bool {
        !(self.lo as i64..=self.hi as i64).contains(&self.length())
    }

    /// Its length in words.
    fn said(self) -> String {
        match self.length() {
            below @ ..0 => format!("\u{2212}{}", -below),
            length => length.to_string(),
        }
    }

    /// What its length may be.
    fn allowed(self) -> String {
        match self.hi as u32 {
            LARGEST_GAP => format!("{} or more", self.lo),
            hi => format!("{} to {hi}", self.lo),
        }
    }
}

impl View<'_> {
    fn gap(&self, number: usize) -> Option<Gap> {
        Gap::found(&self.school.instance.constraints[number].kind, &self.sheet)
    }

    /// The constraint `number`, from 0, in the text form; a precedence with its gap, and
    /// with the times around it if it is broken.
    pub fn charge_line(&self, number: usize) -> String {
        let line = self.constraint_line(number);
        let gap = match self.gap(number) {
            Some(gap) if gap.is_outside() => gap,
            Some(gap) => return format!("{line} (gap {})", gap.said()),
            None => return line,
        };
        let lessons = &self.school.names.lessons;
        let [(before, last), (after, first)] = [gap.before, gap.after];
        format!(
            "{line} (gap {}, allowed {}: {} ends at {}, {} begins at {})",
            gap.said(),
            gap.allowed(),
            lessons[before],
            self.end(last),
            lessons[after],
            self.begin(first)
        )
    }

    /// The same for this timetable and a later one.
    pub fn changed_line(&self, later: &View, number: usize) -> String {
        let line = self.constraint_line(number);
        match (self.gap(number), later.gap(number)) {
            (Some(before), Some(after)) => format!(
                "{line} (gap {} before, {} after, allowed {})",
                before.said(),
                after.said(),
                after.allowed()
            ),
            _ => line,
        }
    }
}
