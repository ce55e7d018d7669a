//! What the names of a statement refer to: one thing, a list, or all of a sort.

use super::cursor::Cursor;
use super::declarations::Declarations;
use super::fault::TextFault;
use super::names::ResourceSort;
use super::nearest::missing;
use super::parse::Builder;
use super::times::EVERY_DAY;
use super::words::Word;
use crate::instance::{Counts, Instance, Thing};

/// What names can refer to.
pub struct Scope<'a> {
    declared: &'a Declarations,
    instance: &'a Instance,
    pub counts: Counts,
}

impl<'a> Scope<'a> {
    pub fn of(builder: &'a Builder) -> Self {
        Scope {
            declared: &builder.declared,
            instance: &builder.instance,
            counts: builder.instance.counts(),
        }
    }

    /// A list of things, ascending, or `none`.
    pub fn list(&self, thing: Thing, cursor: &mut Cursor) -> Result<Vec<usize>, TextFault> {
        let mut members = Vec::new();
        if cursor.passes("none") {
            return Ok(members);
        }
        loop {
            let place = cursor.place();
            let of_days = self.groups_of_days(thing, cursor);
            let more = match (of_days, cursor.passes("all")) {
                (Some(groups), _) => groups,
                (None, true) => self.several(thing, Number::Plural, cursor)?,
                (None, false) => vec![self.named(thing, cursor)?],
            };
            for member in more {
                if members.contains(&member) {
                    let name = &self.names(thing)[member];
                    let message = format!("'{name}' stands twice in a list");
                    return Err(TextFault::at(place, message));
                }
                members.push(member);
            }
            if !cursor
                .peek()
                .is_some_and(|word| word.is("all") || word.is_name())
            {
                members.sort_unstable();
                return Ok(members);
            }
        }
    }

    /// The thing with the name that stands next.
    pub fn named(&self, thing: Thing, cursor: &mut Cursor) -> Result<usize, TextFault> {
        let one = one(thing);
        let word = cursor.name(&format!("the name of a {one}"))?;
        let found = match thing {
            Thing::Resource => self.declared.resources.get(&word.text).copied(),
            Thing::Group => self.declared.group_number(&word.text),
            _ => self.declared.lessons.get(&word.text).copied(),
        };
        found.ok_or_else(|| {
            let message = match self.of_days(thing, word).is_empty() {
                true => missing(one, &word.text, self.names(thing).iter()),
                false => format!(
                    "'{0}' stands for several groups; 'each {0}' makes a constraint for each",
                    word.text
                ),
            };
            TextFault::at(word.place, message)
        })
    }

    /// Passes `*.NAME` where it stands for groups of days.
    fn groups_of_days(&self, thing: Thing, cursor: &mut Cursor) -> Option<Vec<usize>> {
        let found = self.of_days(thing, cursor.peek()?);
        if found.is_empty() {
            return None;
        }
        cursor.next_name();
        Some(found)
    }

    /// What `*.NAME` stands for, where no group has just that name: the groups and windows
    /// `DAY.NAME` of every day that has one.
    fn of_days(&self, thing: Thing, word: &Word) -> Vec<usize> {
        let name = word.text.strip_prefix(EVERY_DAY).filter(|_| !word.quoted);
        let named = |name: &str| self.declared.group_number(name);
        let (Some(name), Thing::Group, None) = (name, thing, named(&word.text)) else {
            return Vec::new();
        };
        let days = self.declared.names.days.iter();
        let days = days.filter(|day| day.name.is_some());
        days.filter_map(|day| named(&day.time(name))).collect()
    }

    /// What `each` or `all` stands for; it is never nothing.
    pub fn several(
        &self,
        thing: Thing,
        number: Number,
        cursor: &mut Cursor,
    ) -> Result<Vec<usize>, TextFault> {
        let place = cursor.place();
        if let Some(groups) = self.groups_of_days(thing, cursor) {
            return Ok(groups);
        }
        let (found, what) = match thing {
            Thing::Resource => self.several_resources(number, cursor)?,
            Thing::Group => self.several_groups(number, cursor)?,
            _ => self.several_lessons(number, cursor)?,
        };
        match found.is_empty() {
            true => Err(TextFault::at(place, format!("there is no {what}"))),
            false => Ok(found),
        }
    }

    /// The resources of a sort. The word for those of no other sort stands for
    /// every resource here.
    fn several_resources(&self, number: Number, cursor: &mut Cursor) -> Several {
        let word = |sort: ResourceSort| number.pick(sort.one(), sort.many());
        let mut sorts = ResourceSort::ALL.into_iter();
        let Some(sort) = sorts.find(|&sort| cursor.passes(word(sort))) else {
            let words = ResourceSort::ALL.map(word);
            return Err(cursor.expected(&format!("one of {}", words.join(", "))));
        };
        let resources = &self.declared.names.resources;
        let chosen = |&at: &usize| sort == ResourceSort::Other || resources[at].sort == sort;
        let found = (0..self.counts.resources).filter(chosen);
        Ok((found.collect(), sort.one().to_string()))
    }

    /// Every group, windows among them, every window, or those with the name of a day.
    fn several_groups(&self, number: Number, cursor: &mut Cursor) -> Several {
        let all = 0..self.counts.groups;
        let [group, window, day] = [("group", "groups"), ("window", "windows"), ("day", "days")]
            .map(|(one, many)| number.pick(one, many));
        if cursor.passes(group) {
            return Ok((all.collect(), "group".to_string()));
        }
        if cursor.passes(window) {
            let windows = self.declared.written_groups()..self.counts.groups;
            return Ok((windows.collect(), "window".to_string()));
        }
        if !cursor.passes(day) {
            return Err(cursor.expected(&format!("'{day}', '{group}' or '{window}'")));
        }
        let names = &self.declared.names;
        let is_day = |&at: &usize| {
            let mut days = names.days.iter().filter_map(|day| day.name.as_ref());
            days.any(|day| *day == names.groups[at])
        };
        let what = "group with the name of a day; 'groups by day' declares them";
        Ok((all.filter(is_day).collect(), what.to_string()))
    }

    /// Every lesson, or those with a resource.
    fn several_lessons(&self, number: Number, cursor: &mut Cursor) -> Several {
        cursor.expect(number.pick("lesson", "lessons"))?;
        let all = 0..self.counts.events;
        if !cursor.passes("with") {
            return Ok((all.collect(), "lesson".to_string()));
        }
        let resource = self.named(Thing::Resource, cursor)?;
        let found = all.filter(|&lesson| self.instance.uses(lesson, resource));
        Ok((found.collect(), "lesson with this resource".to_string()))
    }

    fn names(&self, thing: Thing) -> Vec<String> {
        let names = &self.declared.names;
        match thing {
            Thing::Resource => names.resources.iter().map(|r| r.name.clone()).collect(),
            Thing::Group => names.groups.clone(),
            Thing::Event => names.lessons.clone(),
            Thing::Time => names.times(),
        }
    }
}

/// Things, with the word for one of them.
type Several = Result<(Vec<usize>, String), TextFault>;

/// Which of a word's two forms is wanted: after `each` or after `all`.
#[derive(Clone, Copy)]
pub enum Number {
    Singular,
    Plural,
}

impl Number {
    fn pick<'a>(self, one: &'a str, many: &'a str) -> &'a str {
        match self {
            Number::Singular => one,
            Number::Plural => many,
        }
    }
}

fn one(thing: Thing) -> &'static str {
    match thing {
        Thing::Resource => "resource",
        Thing::Group => "group",
        Thing::Event => "lesson",
        Thing::Time => "time",
    }
}
