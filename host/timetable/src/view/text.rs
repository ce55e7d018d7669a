//! Grids and charges for a terminal.

use super::charges::Totals;
use super::diff::{Diff, Moved};
use super::grid::{Cell, Grid, Mark};
use super::words::{amount, others, weight, CHARGE_COLUMNS};
use super::View;

/// The grids one below the other, each with what is broken in it.
pub fn grids_text(view: &View, grids: &[Grid]) -> String {
    let grids = grids.iter().map(|grid| grid_text(view, grid));
    grids.collect::<Vec<_>>().join("\n")
}

/// What stands where a day has no such period.
const ABSENT: &str = "-";

fn grid_text(view: &View, grid: &Grid) -> String {
    let mut table = vec![vec![Vec::new()]];
    table[0].extend(grid.days.iter().map(|day| vec![day.clone()]));
    for row in &grid.rows {
        let mut cells = vec![vec![row.period.clone()]];
        cells.extend(row.cells.iter().map(|cell| match cell {
            Some(cell) => cell_lines(view, grid, cell),
            None => vec![ABSENT.to_string()],
        }));
        table.push(cells);
    }
    let mut text = format!("{}\n\n{}", grid.title, ruled(&table));
    for &constraint in &grid.broken {
        let mark = mark(
            view,
            Mark {
                constraint,
                first: true,
            },
        );
        text += &format!("  {mark}  {}\n", view.charge_line(constraint));
    }
    text
}

/// The lines of a cell: each lesson with its other resources and marks.
fn cell_lines(view: &View, grid: &Grid, cell: &Cell) -> Vec<String> {
    let names = &view.school.names;
    let mut lines = Vec::new();
    for placed in &cell.lessons {
        let name = &names.lessons[placed.lesson];
        if placed.continues {
            lines.push(format!("| {name}"));
        } else {
            lines.push(name.clone());
            let others = others(view, grid, placed.lesson);
            lines.extend((!others.is_empty()).then(|| format!("  {}", others.join(", "))));
        }
        lines.extend(placed.marks.iter().map(|&one| mark(view, one)));
    }
    lines.extend(cell.marks.iter().map(|&one| mark(view, one)));
    lines
}

/// "!12 +5": constraint 12 is broken, which costs 5; further marks of it in a
/// grid are "!12".
fn mark(view: &View, mark: Mark) -> String {
    let number = mark.constraint + 1;
    match mark.first {
        true => format!("!{number} {}", amount(&view.charges[mark.constraint])),
        false => format!("!{number}"),
    }
}

/// Cells of several lines in columns as wide as their widest line, a rule
/// below the first row and a gap between the others.
fn ruled(table: &[Vec<Vec<String>>]) -> String {
    let width = |text: &String| text.chars().count();
    let columns = table.first().map_or(0, Vec::len);
    let widths: Vec<usize> = (0..columns)
        .map(|column| {
            let lines = table.iter().flat_map(|row| &row[column]);
            lines.map(width).max().unwrap_or(0)
        })
        .collect();
    let mut text = String::new();
    for (index, row) in table.iter().enumerate() {
        let height = row.iter().map(Vec::len).max().unwrap_or(0).max(1);
        for line in 0..height {
            let cells = row.iter().zip(&widths).map(|(cell, &width)| {
                let empty = String::new();
                let cell = cell.get(line).unwrap_or(&empty);
                format!("{cell:<width$}")
            });
            let line = cells.collect::<Vec<_>>().join("  ");
            text += &format!("{}\n", line.trim_end());
        }
        if index == 0 {
            let rule = widths.iter().map(|&width| "-".repeat(width));
            text += &format!("{}\n", rule.collect::<Vec<_>>().join("  ").trim_end());
        }
    }
    text
}

/// The charges that are not 0, or all, and their sums.
pub fn charges_text(view: &View, all: bool) -> String {
    let mut table: Vec<Vec<String>> = vec![CHARGE_COLUMNS.map(str::to_string).to_vec()];
    for (number, charge) in view.charges.iter().enumerate() {
        if all || charge.deviation > 0 {
            table.push(vec![
                (number + 1).to_string(),
                charge.deviation.to_string(),
                weight(charge),
                charge.amount().to_string(),
                view.charge_line(number),
            ]);
        }
    }
    let cells: Vec<Vec<Vec<String>>> = table
        .into_iter()
        .map(|row| row.into_iter().map(|cell| vec![cell]).collect())
        .collect();
    let kept = view.charges.len() - view.broken().count();
    let Totals {
        infeasibility,
        objective,
    } = view.totals();
    format!(
        "Charges\n\n{}{}\nkept {kept} of {} constraints\ninfeasibility {infeasibility}\nobjective {objective}\n",
        ruled(&cells),
        if cells.len() > 1 { "" } else { "none\n" },
        view.charges.len(),
    )
}

/// What moved and which charges changed.
pub fn diff_text(first: &View, second: &View, diff: &Diff) -> String {
    if diff.is_empty() {
        return "nothing moved\n".to_string();
    }
    let names = &first.school.names;
    let mut text = format!("moved {}\n", diff.moved.len());
    for Moved {
        lesson,
        left,
        entered,
    } in &diff.moved
    {
        let name = &names.lessons[*lesson];
        let [from, to] = [left, entered].map(|blocks| first.blocks_line(blocks));
        text += &format!("  {name}: {from} -> {to}\n");
    }
    text += &format!("charged otherwise {}\n", diff.charged.len());
    for &number in &diff.charged {
        let [before, after] = [first, second].map(|view| amount(&view.charges[number]));
        let line = first.changed_line(second, number);
        text += &format!("  {}: {before} -> {after}  {line}\n", number + 1);
    }
    let [before, after] = [first.totals(), second.totals()];
    text += &format!(
        "infeasibility {} -> {}\n",
        before.infeasibility, after.infeasibility
    );
    text += &format!("objective {} -> {}\n", before.objective, after.objective);
    text
}
