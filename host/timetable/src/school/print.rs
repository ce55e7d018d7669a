//! A school in its text form.

use super::names::Names;
use super::times::set_words;
use super::words::written;
use super::School;
use crate::instance::{Constraint, FieldFacts, Sort, Thing, Value};
use std::ops::RangeInclusive;

/// The text form of `school`: read again, it gives the same instance and names.
pub fn print(school: &School) -> String {
    let School { instance, names } = school;
    let mut page = Page::default();
    let windows = match instance.calendar {
        Some(_) => format!("{} windows, ", instance.windows().len()),
        None => String::new(),
    };
    page.comment(&format!(
        "{} times, {} lessons, {} resources, {} groups, {windows}{} constraints",
        instance.times,
        instance.events.len(),
        instance.resources,
        instance.written_groups().len(),
        instance.constraints.len(),
    ));
    page.title(names);
    match &instance.calendar {
        Some(calendar) => page.calendar(names, calendar),
        None => page.days(names),
    }
    page.resources(names);
    page.gap();
    for (name, event) in names.lessons.iter().zip(&instance.events) {
        let mut words = vec!["lesson".to_string(), written(name), "takes".to_string()];
        words.push(event.duration.to_string());
        if !event.resources.is_empty() {
            words.push("with".to_string());
            words.extend(
                event
                    .resources
                    .iter()
                    .map(|&at| written(&names.resources[at].name)),
            );
        }
        page.statement(&words);
    }
    page.gap();
    let (groups, windows) = names.groups.split_at(instance.written_groups().len());
    for (name, members) in groups.iter().zip(&instance.groups) {
        let mut words = vec!["group".to_string(), written(name), "is".to_string()];
        words.extend(set_words(names, members));
        page.statement(&words);
    }
    for (name, &window) in windows.iter().zip(instance.windows()) {
        page.window(names, name, window);
    }
    page.gap();
    for constraint in &instance.constraints {
        page.statement(&constraint_words(names, constraint));
    }
    page.text
}

/// A constraint on one line, as the text form says it.
pub fn constraint_line(names: &Names, constraint: &Constraint) -> String {
    constraint_words(names, constraint).join(" ")
}

fn constraint_words(names: &Names, constraint: &Constraint) -> Vec<String> {
    let facts = constraint.kind.facts();
    let mut words = vec![facts.name.to_string()];
    match constraint.weight {
        0 => words.push("hard".to_string()),
        weight => words.extend(["weight".to_string(), weight.to_string()]),
    }
    let values = constraint.kind.values();
    let mut fields = facts.fields.iter().zip(values).peekable();
    while let Some((field, value)) = fields.next() {
        let hi = fields.next_if(|_| field.lead == "between");
        match (value, hi) {
            (Value::One(lo), Some((field, Value::One(hi)))) => {
                let limits = field.sort.limits(&names.counts());
                words.extend(bounds(lo, hi, field, limits));
            }
            _ => {
                words.extend((!field.lead.is_empty()).then(|| field.lead.to_string()));
                words.extend(value_words(names, field.sort, value));
            }
        }
    }
    words
}

/// The shortest way to say `between lo and hi`.
fn bounds(lo: usize, hi: usize, field: &FieldFacts, limits: RangeInclusive<u32>) -> Vec<String> {
    let [least, most] = [*limits.start(), *limits.end()].map(|limit| limit as usize);
    if (lo, hi) == (least, most) && field.sort.may_be_left_out() {
        return Vec::new();
    }
    let said = match (lo, hi) {
        _ if lo == least => format!("at most {hi}"),
        _ if lo == hi => format!("exactly {lo}"),
        _ if hi == most => format!("at least {lo}"),
        _ => format!("between {lo} {} {hi}", field.lead),
    };
    said.split(' ').map(str::to_string).collect()
}

fn value_words(names: &Names, sort: Sort, value: Value) -> Vec<String> {
    let name = |at: usize| match sort.thing() {
        Some(Thing::Resource) => written(&names.resources[at].name),
        Some(Thing::Event) => written(&names.lessons[at]),
        Some(Thing::Group) => written(&names.groups[at]),
        Some(Thing::Time) | None => at.to_string(),
    };
    match value {
        Value::One(one) => vec![name(one)],
        Value::Many([]) => vec!["none".to_string()],
        Value::Many(many) => many.iter().map(|&one| name(one)).collect(),
    }
}

/// The longest line, in characters, unless one word is longer.
const WIDTH: usize = 100;
/// Before a line that continues a statement.
const INDENT: &str = "    ";

/// Statements one below the other.
#[derive(Default)]
pub struct Page {
    pub text: String,
}

impl Page {
    pub fn comment(&mut self, comment: &str) {
        self.text += &format!("# {comment}\n");
    }

    /// An empty line, unless there is one.
    pub fn gap(&mut self) {
        if !self.text.ends_with("\n\n") {
            self.text.push('\n');
        }
    }

    /// A statement, continued on further lines where it is long.
    pub fn statement(&mut self, words: &[String]) {
        let mut column = 0;
        for (at, word) in words.iter().enumerate() {
            let width = word.chars().count();
            if at > 0 && column + 1 + width > WIDTH {
                self.text += &format!("\n{INDENT}");
                column = INDENT.len();
            } else if at > 0 {
                self.text.push(' ');
                column += 1;
            }
            self.text += word;
            column += width;
        }
        self.text.push('\n');
    }

    /// The school's name.
    pub fn title(&mut self, names: &Names) {
        if let Some(title) = &names.title {
            self.statement(&["school".to_string(), written(title)]);
        }
    }

    /// Times that are not those of a calendar.
    pub fn days(&mut self, names: &Names) {
        self.gap();
        let mut days = &names.days[..];
        while let Some(first) = days.first() {
            // Days in a row with equal periods share a statement; times of no day do not.
            let alike = |day: &&super::Day| day.name.is_some() && day.periods == first.periods;
            let count = days.iter().take_while(alike).count().max(1);
            let periods = first.periods.iter().map(|period| written(period));
            let mut words = Vec::new();
            match first.name.is_some() {
                true => {
                    words.push("days".to_string());
                    let alike = days[..count].iter().filter_map(|day| day.name.as_ref());
                    words.extend(alike.map(|name| written(name)));
                    words.push("periods".to_string());
                }
                false => words.push("times".to_string()),
            }
            words.extend(periods);
            self.statement(&words);
            days = &days[count..];
        }
    }

    pub fn resources(&mut self, names: &Names) {
        self.gap();
        for run in names.resources.chunk_by(|a, b| a.sort == b.sort) {
            let mut words = vec![run[0].sort.many().to_string()];
            words.extend(run.iter().map(|resource| written(&resource.name)));
            self.statement(&words);
        }
    }
}
