//! The side file of an instance: the names of its things, and a mark of the
//! bytes that they were written for.

use super::cursor::Cursor;
use super::declarations::Declarations;
use super::fault::TextFault;
use super::names::Names;
use super::print::Page;
use super::words::{statements, written, Statement};
use crate::instance::{self, Calendar, Counts};

/// The side file for the names of the instance file `instance`.
pub fn write_names(names: &Names, instance: &[u8]) -> String {
    let mut page = Page::default();
    page.comment("Names for an instance file; 'file' has its length and a mark of its bytes.");
    let mark = format!("{:016x}", mark(instance));
    page.statement(&["file".to_string(), instance.len().to_string(), mark]);
    page.title(names);
    let calendar = calendar(instance);
    match calendar {
        Some(_) => page.week(names),
        None => page.days(names),
    }
    page.resources(names);
    page.gap();
    let windows = calendar.map_or(0, |found| found.windows.len());
    let groups = names.groups.len().saturating_sub(windows);
    let (groups, windows) = names.groups.split_at(groups);
    for (keyword, list) in [
        (LESSONS, &names.lessons[..]),
        (GROUPS, groups),
        (WINDOWS, windows),
    ] {
        if !list.is_empty() {
            let mut words = vec![keyword.to_string()];
            words.extend(list.iter().map(|name| written(name)));
            page.statement(&words);
        }
    }
    page.text
}

/// The calendar of an instance file, which names the times by itself.
fn calendar(file: &[u8]) -> Option<Calendar> {
    instance::read(file).ok()?.calendar
}

const LESSONS: &str = "lesson-names";
const GROUPS: &str = "group-names";
const WINDOWS: &str = "window-names";

/// The names that the side file `text` gives to the things of the instance
/// file `instance`, which has `counts` of them.
pub fn read_names(text: &str, instance: &[u8], counts: Counts) -> Result<Names, TextFault> {
    let calendar = calendar(instance);
    let windows = calendar.as_ref().map_or(0, |found| found.windows.len());
    let mut declared = calendar.map_or_else(Declarations::default, Declarations::with_calendar);
    let statements = statements(text)?;
    for statement in &statements {
        read_statement(&mut declared, statement, instance)?;
    }
    let named = declared.names.counts();
    let pairs = [
        ("times", named.times, counts.times),
        ("lessons", named.events, counts.events),
        ("resources", named.resources, counts.resources),
        (
            "groups",
            declared.written_groups(),
            counts.groups.saturating_sub(windows),
        ),
        ("windows", named.groups - declared.written_groups(), windows),
    ];
    for (things, named, there) in pairs {
        if named != there {
            let end = statements
                .last()
                .map_or(super::parse::START, |last| last.end);
            let message = format!("{named} {things} are named, the instance has {there}");
            return Err(TextFault::at(end, message));
        }
    }
    Ok(declared.names)
}

fn read_statement(
    declared: &mut Declarations,
    statement: &Statement,
    instance: &[u8],
) -> Result<(), TextFault> {
    let keyword = &statement.words[0];
    let mut cursor = Cursor::after_first(statement);
    match keyword.text.as_str() {
        "file" => {
            let length = cursor.name("a length")?.text.clone();
            let written = cursor.name("a mark of the bytes")?.text.clone();
            let here = (
                instance.len().to_string(),
                format!("{:016x}", mark(instance)),
            );
            if (length, written) != here {
                let message = "these names were written for an instance file with other bytes";
                return Err(TextFault::at(keyword.place, message));
            }
        }
        "week" if declared.calendar.is_some() => declared.week(keyword, &mut cursor)?,
        LESSONS => {
            for name in cursor.names("the name of a lesson")? {
                declared.lesson(name)?;
            }
        }
        GROUPS => {
            for name in cursor.names("the name of a group")? {
                declared.group(name)?;
            }
        }
        WINDOWS => {
            for name in cursor.names("the name of a window")? {
                declared.add_window(name)?;
            }
        }
        _ => {
            if !declared.read(keyword, &mut cursor)? {
                let message = format!("expected names, found '{}'", keyword.text);
                return Err(TextFault::at(keyword.place, message));
            }
        }
    }
    cursor.end()
}

/// FNV-1a over 64 bits. It shows a file that was exchanged by mistake; it is
/// no protection against intent.
fn mark(bytes: &[u8]) -> u64 {
    bytes.iter().fold(0xcbf2_9ce4_8422_2325, |mark, &byte| {
        (mark ^ u64::from(byte)).wrapping_mul(0x0000_0100_0000_01b3)
    })
}
