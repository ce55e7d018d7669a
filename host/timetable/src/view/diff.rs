//! What is different between two timetables of a school.

use super::View;
use std::ops::Range;

pub struct Diff {
    pub moved: Vec<Moved>,
    /// The constraints that charge something else, from 0.
    pub charged: Vec<usize>,
}

/// A lesson whose blocks differ.
pub struct Moved {
    pub lesson: usize,
    /// The blocks of the first timetable that the second has not.
    pub left: Vec<Range<usize>>,
    /// The blocks of the second timetable that the first has not.
    pub entered: Vec<Range<usize>>,
}

impl Diff {
    pub fn is_empty(&self) -> bool {
        self.moved.is_empty() && self.charged.is_empty()
    }

    /// Whether a block that `lesson` moved to holds `time`.
    pub fn has_entered(&self, lesson: usize, time: usize) -> bool {
        let mut moved = self.moved.iter().filter(|moved| moved.lesson == lesson);
        moved.any(|moved| moved.entered.iter().any(|block| block.contains(&time)))
    }
}

/// Compares two timetables of one school.
pub fn diff(first: &View, second: &View) -> Diff {
    let lessons = 0..first.school.instance.events.len();
    let moved = lessons.filter_map(|lesson| {
        let [left, entered] = [first, second].map(|view| view.sheet.blocks(lesson));
        let without = |blocks: &[Range<usize>], others: &[Range<usize>]| -> Vec<Range<usize>> {
            let kept = blocks.iter().filter(|block| !others.contains(block));
            kept.cloned().collect()
        };
        (left != entered).then(|| Moved {
            lesson,
            left: without(&left, &entered),
            entered: without(&entered, &left),
        })
    });
    let numbers = 0..first.charges.len();
    let differs = |&at: &usize| first.charges[at].deviation != second.charges[at].deviation;
    Diff {
        moved: moved.collect(),
        charged: numbers.filter(differs).collect(),
    }
}
