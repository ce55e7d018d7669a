//! A grid as a table: a block of a lesson is one cell.

use super::super::diff::Diff;
use super::super::grid::{Cell, Grid, Mark, Placed, Row};
use super::super::words::{amount, others};
use super::super::View;
use super::{escaped, Part};
use std::ops::Range;

/// The grid, the `at`th of the page, with what is broken in it; where it is
/// compared with another timetable, what moved is marked.
pub fn part(view: &View, grid: &Grid, at: usize, diff: Option<&Diff>) -> Part {
    let days = grid.days.iter();
    let days = days.map(|day| format!("<th scope=\"col\">{}</th>", escaped(day)));
    let table = Table { view, grid, diff };
    let rows: String = (0..grid.rows.len()).map(|row| table.row(row)).collect();
    let broken = grid.broken.iter().map(|&constraint| {
        let first = true;
        let mark = mark(view, Mark { constraint, first });
        format!(
            "<li>{mark} {}</li>\n",
            escaped(&view.charge_line(constraint))
        )
    });
    let broken: String = broken.collect();
    let broken = match broken.is_empty() {
        true => "<p class=\"kept\">Nothing is broken here.</p>\n".to_string(),
        false => format!("<ul class=\"broken\">\n{broken}</ul>\n"),
    };
    Part {
        id: format!("g{at}"),
        class: "grid",
        title: grid.title.clone(),
        body: format!(
            "<table>\n<thead>\n<tr><th scope=\"col\" class=\"corner\">Period</th>{}</tr>\n\
             </thead>\n<tbody>\n{rows}</tbody>\n</table>\n{broken}",
            days.collect::<String>(),
        ),
    }
}

struct Table<'a> {
    view: &'a View<'a>,
    grid: &'a Grid,
    diff: Option<&'a Diff>,
}

impl Table<'_> {
    fn row(&self, row: usize) -> String {
        let Row { period, cells } = &self.grid.rows[row];
        let mut text = format!("<tr><th scope=\"row\">{}</th>", escaped(period));
        for (column, cell) in cells.iter().enumerate() {
            match cell {
                _ if self.continues_above(row, column) => {}
                None => text += "<td class=\"absent\"></td>",
                Some(cell) => text += &self.cell(cell, row, column),
            }
        }
        text + "</tr>\n"
    }

    /// Whether the place belongs to the cell above: it and the cell above hold one lesson,
    /// the same block of it. Where the day has no such period, the next cell below tells.
    fn continues_above(&self, row: usize, column: usize) -> bool {
        let mut above = self.cells(0..row, column);
        let mut below = self.cells(row..self.grid.rows.len(), column);
        let (Some(above), Some(here)) = (above.next_back(), below.next()) else {
            return false;
        };
        match (&above.lessons[..], &here.lessons[..]) {
            ([above], [here]) => above.lesson == here.lesson && here.continues,
            _ => false,
        }
    }

    /// The cells of a column, where its day has such periods.
    fn cells(&self, rows: Range<usize>, column: usize) -> impl DoubleEndedIterator<Item = &Cell> {
        let rows = self.grid.rows[rows].iter();
        rows.filter_map(move |row| row.cells[column].as_ref())
    }

    fn cell(&self, cell: &Cell, row: usize, column: usize) -> String {
        let below = row + 1..self.grid.rows.len();
        let span = 1 + below
            .take_while(|&row| self.continues_above(row, column))
            .count();
        let cells: Vec<&Cell> = self.cells(row..row + span, column).collect();
        let mut text = match span {
            1 => "<td>".to_string(),
            _ => format!("<td rowspan=\"{span}\">"),
        };
        // What the resource breaks stands with the last lesson, or alone.
        let of_resource = marks(self.view, cells.iter().flat_map(|cell| &cell.marks));
        for (at, placed) in cell.lessons.iter().enumerate() {
            let of_lesson = cells.iter().flat_map(|cell| &cell.lessons[at].marks);
            let mut marks = marks(self.view, of_lesson);
            if at + 1 == cell.lessons.len() {
                marks += &of_resource;
            }
            text += &self.lesson(placed, cell.time, &marks);
        }
        if cell.lessons.is_empty() {
            text += &of_resource;
        }
        text + "</td>"
    }

    fn lesson(&self, placed: &Placed, time: usize, marks: &str) -> String {
        let diff = self.diff;
        let moved = diff.is_some_and(|diff| diff.has_entered(placed.lesson, time));
        // Hues a golden angle apart stay apart, however many there are.
        let hue = placed.lesson * 137 % 360;
        format!(
            "<div class=\"lesson{}\" style=\"--hue:{hue}\"><b>{}</b><span>{}</span>{}{marks}</div>",
            if moved { " moved" } else { "" },
            escaped(&self.view.school.names.lessons[placed.lesson]),
            escaped(&others(self.view, self.grid, placed.lesson).join(", ")),
            if moved { " <em>moved</em>" } else { "" },
        )
    }
}

/// Marks, each constraint once, with a space before each.
fn marks<'a>(view: &View, marks: impl Iterator<Item = &'a Mark>) -> String {
    let mut marks: Vec<Mark> = marks.copied().collect();
    // The first mark of a constraint, which shows its cost, before the others.
    marks.sort_unstable_by_key(|mark| (mark.constraint, !mark.first));
    marks.dedup_by_key(|mark| mark.constraint);
    let marks = marks.iter().map(|&one| format!(" {}", mark(view, one)));
    marks.collect()
}

/// The number of a broken constraint and what it costs, linked to its row.
fn mark(view: &View, mark: Mark) -> String {
    let charge = &view.charges[mark.constraint];
    let class = if charge.is_hard() {
        "mark hard"
    } else {
        "mark"
    };
    let cost = match mark.first {
        true => format!(": {}", amount(charge)),
        false => String::new(),
    };
    format!(
        "<a class=\"{class}\" href=\"#c{0}\" title=\"{1}\">{0}{cost}</a>",
        mark.constraint + 1,
        escaped(&view.charge_line(mark.constraint)),
    )
}
