//! Lessons and charges as CSV (RFC 4180): a line for each lesson at each time,
//! or for each constraint.

use super::grid::Grid;
use super::words::{weight, CHARGE_COLUMNS};
use super::View;
use crate::school::ResourceSort;

/// The lessons in `grids`, grid by grid, by time.
pub fn lessons_csv(view: &View, grids: &[Grid]) -> String {
    let mut text = line([
        "grid", "day", "period", "lesson", "starts", "teachers", "classes", "rooms", "others",
        "broken",
    ]);
    for grid in grids {
        for (column, day) in grid.days.iter().enumerate() {
            for row in &grid.rows {
                let Some(cell) = &row.cells[column] else {
                    continue;
                };
                for placed in &cell.lessons {
                    let starts = view.sheet.starts(placed.lesson, cell.time);
                    let marks = placed.marks.iter().chain(&cell.marks);
                    let broken = marks.map(|mark| (mark.constraint + 1).to_string());
                    let broken: Vec<String> = broken.collect();
                    let [teachers, classes, rooms, others] =
                        ResourceSort::ALL.map(|sort| resources(view, placed.lesson, sort));
                    text += &line([
                        &grid.title,
                        day,
                        &row.period,
                        &view.school.names.lessons[placed.lesson],
                        if starts { "yes" } else { "no" },
                        &teachers,
                        &classes,
                        &rooms,
                        &others,
                        &broken.join(" "),
                    ]);
                }
            }
        }
    }
    text
}

/// The resources of one sort that a lesson has.
fn resources(view: &View, lesson: usize, sort: ResourceSort) -> String {
    let names = &view.school.names.resources;
    let resources = view.school.instance.events[lesson].resources.iter();
    let of_sort = resources.filter(|&&at| names[at].sort == sort);
    let of_sort = of_sort.map(|&at| names[at].name.as_str());
    of_sort.collect::<Vec<_>>().join(", ")
}

/// What each constraint charges.
pub fn charges_csv(view: &View) -> String {
    let mut text = line(CHARGE_COLUMNS);
    for (number, charge) in view.charges.iter().enumerate() {
        text += &line([
            (number + 1).to_string().as_str(),
            &charge.deviation.to_string(),
            &weight(charge),
            &charge.amount().to_string(),
            &view.charge_line(number),
        ]);
    }
    text
}

/// A line of fields, each in quotes where it must be.
fn line<'a, const N: usize>(fields: [&'a str; N]) -> String {
    let field = |field: &'a str| match field.contains(['"', ',', '\n', '\r']) {
        true => format!("\"{}\"", field.replace('"', "\"\"")),
        false => field.to_string(),
    };
    fields.map(field).join(",") + "\r\n"
}
