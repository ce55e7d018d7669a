//! The page of what moved between two timetables.

use super::super::diff::Diff;
use super::super::grid::Grid;
use super::super::words::amount;
use super::super::View;
use super::{charges, document, escaped, grid, head, summary, Part};

/// The page of the second timetable: what moved, which charges changed, then
/// `grids` with the moved lessons marked, and the charges.
pub fn diff_page(first: &View, second: &View, diff: &Diff, grids: &[Grid]) -> String {
    let title = first.school.names.title.as_deref().unwrap_or("Timetable");
    let mut parts = vec![moved(first, diff), charged(first, second, diff)];
    let grids = grids.iter().enumerate();
    parts.extend(grids.map(|(at, one)| grid::part(second, one, at, Some(diff))));
    parts.push(charges::part(second));
    let [before, after] = [first, second].map(summary);
    let summary = format!("<h3>Before</h3>\n{before}<h3>After</h3>\n{after}");
    document(&format!("{title}: what moved"), &summary, &parts)
}

fn moved(view: &View, diff: &Diff) -> Part {
    let rows = diff.moved.iter().map(|moved| {
        let lesson = escaped(&view.school.names.lessons[moved.lesson]);
        let [from, to] = [&moved.left, &moved.entered].map(|blocks| view.blocks_line(blocks));
        format!(
            "<tr><th scope=\"row\">{lesson}</th><td>{}</td><td>{}</td></tr>\n",
            escaped(&from),
            escaped(&to)
        )
    });
    Part {
        id: "moved".to_string(),
        class: "changes",
        title: "Lessons that moved".to_string(),
        body: table(&["Lesson", "From", "To"], rows.collect()),
    }
}

fn charged(first: &View, second: &View, diff: &Diff) -> Part {
    let rows = diff.charged.iter().map(|&number| {
        let [before, after] = [first, second].map(|view| amount(&view.charges[number]));
        format!(
            "<tr><th scope=\"row\">{}</th><td>{}</td><td>{before}</td><td>{after}</td></tr>\n",
            number + 1,
            escaped(&first.changed_line(second, number)),
        )
    });
    Part {
        id: "changed".to_string(),
        class: "changes",
        title: "Charges that changed".to_string(),
        body: table(&["No.", "Constraint", "Before", "After"], rows.collect()),
    }
}

fn table(columns: &[&str], rows: String) -> String {
    match rows.is_empty() {
        true => "<p>None.</p>\n".to_string(),
        false => format!(
            "<table>\n{}<tbody>\n{rows}</tbody>\n</table>\n",
            head(columns)
        ),
    }
}
