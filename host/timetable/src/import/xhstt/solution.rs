//! A timetable written back as a solution of its archive.

use super::super::remark::Fault;
use super::super::xml::{self, escape, Element};
use super::archive::{self, Archive};

/// The archive's text with a further solution group, which holds the timetable: a byte
/// for each event and time, taken or not, then a byte each, a start or not.
pub fn with_solution(
    text: &[u8],
    id: Option<&str>,
    timetable: &[u8],
    description: &str,
) -> Result<String, Fault> {
    let root = xml::read(text)?;
    let archive = Archive::read(archive::instance(&root, id)?)?;
    let (events, times) = (archive.lessons.len(), archive.times.len());
    if timetable.len() != 2 * events * times {
        let message = format!("the timetable is not one of {events} events and {times} times");
        return Err(Fault::at(&root, message));
    }
    let name = free_name(&root);
    let group = solution_group(&archive, timetable, &name, description);
    let written = inserted(&String::from_utf8_lossy(text), &root, &group)?;
    let read_back = xml::read(written.as_bytes())?;
    match solution_groups(&read_back).filter(|id| *id == name).count() {
        1 => Ok(written),
        _ => Err(Fault::at(
            &root,
            "the solution found no place in the archive",
        )),
    }
}

/// The ids of the archive's solution groups.
fn solution_groups(root: &Element) -> impl Iterator<Item = &str> {
    let groups = root
        .all("SolutionGroups")
        .flat_map(|groups| &groups.children);
    groups.filter_map(|group| group.attribute("Id"))
}

/// A name that no solution group has.
fn free_name(root: &Element) -> String {
    let mut count = 1;
    loop {
        let name = format!("Timetable{count}");
        if solution_groups(root).all(|id| id != name) {
            return name;
        }
        count += 1;
    }
}

/// The archive's text with a solution group at its end.
fn inserted(text: &str, root: &Element, group: &str) -> Result<String, Fault> {
    let (before, part) = match solution_groups(root).next() {
        Some(_) => ("</SolutionGroups>", group.to_string()),
        None => (
            "</HighSchoolTimetableArchive>",
            format!("<SolutionGroups>\n{group}</SolutionGroups>\n"),
        ),
    };
    match text.rfind(before) {
        Some(place) => Ok(format!("{}{part}{}", &text[..place], &text[place..])),
        None => Err(Fault::at(root, format!("'{before}' is not found"))),
    }
}

fn solution_group(archive: &Archive, timetable: &[u8], name: &str, description: &str) -> String {
    let mut group = format!(
        "<SolutionGroup Id=\"{}\">\n<MetaData>\n<Contributor>timetable</Contributor>\n\
         <Date></Date>\n<Description>{}</Description>\n</MetaData>\n\
         <Solution Reference=\"{}\">\n<Events>\n",
        escape(name),
        escape(description),
        escape(&archive.named.id)
    );
    for (event, lesson) in archive.lessons.iter().enumerate() {
        for (start, duration) in parts(archive, timetable, event) {
            group += &format!(
                "<Event Reference=\"{}\"><Duration>{duration}</Duration>\
                 <Time Reference=\"{}\"/></Event>\n",
                escape(&lesson.named.id),
                escape(&archive.times[start].id)
            );
        }
    }
    group + "</Events>\n</Solution>\n</SolutionGroup>\n"
}

/// The parts of an event: where each starts, and how long it lasts.
fn parts(archive: &Archive, timetable: &[u8], event: usize) -> Vec<(usize, usize)> {
    let times = archive.times.len();
    let (taken, starts) = timetable.split_at(timetable.len() / 2);
    let row = event * times..(event + 1) * times;
    let (taken, starts) = (&taken[row.clone()], &starts[row]);
    let mut parts: Vec<(usize, usize)> = Vec::new();
    for time in 0..times {
        match (taken[time], starts[time], parts.last_mut()) {
            (0, _, _) => {}
            (_, 0, Some((_, duration))) => *duration += 1,
            _ => parts.push((time, 1)),
        }
    }
    parts
}
