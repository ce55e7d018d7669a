//! The names of an imported school, as its side file can hold them: each once.

use crate::instance::{write, Instance};
use crate::school::{read_names, write_names, Names, School};
use std::collections::HashSet;

/// The instance with names that read back. Where those of the file do not, such as a
/// day that has the name of a time, names are invented.
pub fn settled(instance: Instance, mut names: Names) -> School {
    names.groups = group_names(&instance, &names);
    make_unique(names.lessons.iter_mut());
    make_unique(
        names
            .resources
            .iter_mut()
            .map(|resource| &mut resource.name),
    );
    for day in &mut names.days {
        make_unique(day.periods.iter_mut());
    }
    let bytes = write(&instance);
    match read_names(&write_names(&names, &bytes), &bytes, instance.counts()) {
        Ok(read) if read == names => School { instance, names },
        _ => School::unnamed(instance),
    }
}

/// A group that is a day has its name; the others are numbered.
fn group_names(instance: &Instance, names: &Names) -> Vec<String> {
    let days = names.spans();
    let day_of = |times: &Vec<usize>| {
        let day = days
            .iter()
            .find(|(_, span)| span.clone().eq(times.iter().copied()));
        day.and_then(|(day, _)| day.name.clone())
    };
    let groups = instance.groups.iter().enumerate();
    let names = groups.map(|(at, times)| day_of(times).unwrap_or(format!("G{}", at + 1)));
    let mut names: Vec<String> = names.collect();
    make_unique(names.iter_mut());
    names
}

/// Puts a number after a name that is empty or stands for an earlier thing.
fn make_unique<'a>(names: impl Iterator<Item = &'a mut String>) {
    let mut used: HashSet<String> = HashSet::new();
    for name in names {
        let mut count = 1;
        let mut unique = name.clone();
        while unique.is_empty() || used.contains(&unique) {
            count += 1;
            unique = format!("{name} ({count})");
        }
        used.insert(unique.clone());
        *name = unique;
    }
}
