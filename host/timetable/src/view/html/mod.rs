//! Timetables as one HTML page that needs no other file and no script.

mod charges;
mod diff;
mod grid;

pub use diff::diff_page;

use super::charges::Totals;
use super::grid::Grid;
use super::View;

const STYLE: &str = include_str!("page.css");

/// The page of a timetable: the grids, each with what is broken in it, then
/// the charges. Its sums are those of `view`, which the caller has compared
/// with the engine's score.
pub fn page(view: &View, grids: &[Grid]) -> String {
    let title = view.school.names.title.as_deref().unwrap_or("Timetable");
    let mut parts: Vec<Part> = grids
        .iter()
        .enumerate()
        .map(|(at, grid)| grid::part(view, grid, at, None))
        .collect();
    parts.push(charges::part(view));
    document(title, &summary(view), &parts)
}

/// A part of a page with a heading of its own.
struct Part {
    /// For links; no other part has it.
    id: String,
    class: &'static str,
    title: String,
    /// HTML.
    body: String,
}

/// What the timetable costs, in a line.
fn summary(view: &View) -> String {
    let Totals {
        infeasibility,
        objective,
    } = view.totals();
    let hard = match infeasibility {
        0 => "<p>Every hard constraint is kept.".to_string(),
        sum => format!("<p class=\"failed\">Hard constraints are broken by {sum}."),
    };
    format!("{hard} What it misses of the wishes weighs <strong>{objective}</strong>.</p>\n")
}

fn document(title: &str, summary: &str, parts: &[Part]) -> String {
    let title = escaped(title);
    let links = parts.iter().map(|part| {
        format!(
            "<li><a href=\"#{}\">{}</a></li>\n",
            part.id,
            escaped(&part.title)
        )
    });
    let links: String = links.collect();
    let sections: String = parts.iter().map(section).collect();
    format!(
        "<!DOCTYPE html>\n<html lang=\"en\">\n<head>\n<meta charset=\"utf-8\">\n\
         <meta name=\"viewport\" content=\"width=device-width, initial-scale=1\">\n\
         <title>{title}</title>\n<style>\n{STYLE}</style>\n</head>\n<body>\n\
         <header>\n<h1>{title}</h1>\n{summary}</header>\n\
         <nav aria-label=\"Parts of this page\">\n<ul>\n{links}</ul>\n</nav>\n\
         <main>\n{sections}</main>\n</body>\n</html>\n",
    )
}

fn section(part: &Part) -> String {
    let Part {
        id,
        class,
        title,
        body,
    } = part;
    format!(
        "<section class=\"{class}\" id=\"{id}\" aria-labelledby=\"{id}-title\">\n\
         <h2 id=\"{id}-title\">{}</h2>\n{body}</section>\n",
        escaped(title),
    )
}

/// The head of a table, a column for each name.
fn head(columns: &[&str]) -> String {
    let columns = columns
        .iter()
        .map(|column| format!("<th scope=\"col\">{column}</th>"));
    format!(
        "<thead>\n<tr>{}</tr>\n</thead>\n",
        columns.collect::<String>()
    )
}

/// `text` without the characters that HTML gives a meaning.
fn escaped(text: &str) -> String {
    let mut out = String::new();
    for c in text.chars() {
        match c {
            '&' => out += "&amp;",
            '<' => out += "&lt;",
            '>' => out += "&gt;",
            '"' => out += "&quot;",
            _ => out.push(c),
        }
    }
    out
}
