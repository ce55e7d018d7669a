//! A clause of the formula in words.

use super::outline::{Clause, Owner, Place, Purpose};
use crate::instance::{Instance, Kind};

impl Clause {
    /// The clause in words: where it stands, and what is so where it is false.
    pub fn says(&self, instance: &Instance) -> String {
        format!("{}: {}", self.owner(instance), self.broken(instance))
    }

    /// Where the clause stands: its block with the event, resource or
    /// constraint.
    pub fn owner(&self, instance: &Instance) -> String {
        match self.piece.owner {
            Owner::Starts { event } => format!("block 1, event {}", event + 1),
            Owner::Uses { resource } => format!("block 2, resource {}", resource + 1),
            Owner::Duration { event } => format!("block 3, event {}", event + 1),
            Owner::Constraint { index } => {
                let kind = instance.constraints[index].kind.facts().name;
                format!("block 4, constraint {}, kind {kind}", index + 1)
            }
        }
    }

    /// What is so where the clause is false.
    fn broken(&self, instance: &Instance) -> String {
        let wrong = |variable: String| format!("{variable} has a wrong value");
        let time_words = |time| instance.time_words(time);
        let at_time = |time: Option<usize>| {
            time.map_or(String::new(), |time| format!(" at {}", time_words(time)))
        };
        let counted = |time| format!("{}{}", self.counted(instance), at_time(time));
        match self.piece.purpose {
            Purpose::Start { time } => self.broken_start(instance, time),
            Purpose::AnyOf { place, inputs } => self.broken_use(instance, place, inputs),
            Purpose::Idle { time, .. } => {
                wrong(format!("a variable for the idle {}", time_words(time)))
            }
            Purpose::GoesOn { time, .. } => wrong(format!(
                "the variable for a subevent that goes on at {}",
                time_words(time)
            )),
            Purpose::Carried { time } => wrong(format!(
                "the variable for a subevent that starts outside the group and goes on at {}",
                time_words(time)
            )),
            Purpose::Held { time } => wrong(format!(
                "the variable for a subevent that starts outside the group and holds {}",
                time_words(time)
            )),
            Purpose::Counted { time, .. } | Purpose::Outside { time, .. } => wrong(format!(
                "a variable for the length of a subevent that starts at {}",
                time_words(time)
            )),
            Purpose::Begun { time, .. } => wrong(format!(
                "the variable for a second event that has begun by {}",
                time_words(time)
            )),
            Purpose::TooSoon { time } => wrong(format!(
                "the variable for a second event too soon after {} of the first",
                time_words(time)
            )),
            Purpose::Lasting { time, .. } => wrong(format!(
                "the variable for a first event that goes on after {}",
                time_words(time)
            )),
            Purpose::TooLate { time } => wrong(format!(
                "the variable for a second event too late after a first that ends by {}",
                time_words(time)
            )),
            Purpose::GapOutside { .. } => wrong("the variable for a gap outside".to_string()),
            Purpose::Counter { time, columns, .. } => {
                let (row, column) = cell(self.place, columns as u64);
                let time = at_time(time);
                wrong(format!("its counter{time}, in row {row}, column {column},"))
            }
            Purpose::Shortage { j } => {
                wrong(format!("the variable for a count from 1 to {}", j - 1))
            }
            Purpose::AtLeast { time, lo } => format!("{} is below {lo}", counted(time)),
            Purpose::AtMost { time, hi } => format!("{} is above {hi}", counted(time)),
        }
    }

    fn broken_start(&self, instance: &Instance, time: usize) -> String {
        let words = instance.time_words(time);
        match (self.place, time) {
            (0, _) => format!("it starts at {words} and does not take it"),
            (_, 0) => format!("it takes {words} and does not start there"),
            _ => format!(
                "it takes {words}, not time {time}, and does not start at {}",
                time + 1
            ),
        }
    }

    fn broken_use(&self, instance: &Instance, place: Place, inputs: usize) -> String {
        let place = match place {
            Place::Time(time) => format!("at {}", instance.time_words(time)),
            Place::Group(group) => format!("in {}", instance.group_words(group)),
        };
        match self.place < inputs as u64 {
            true => format!("the resource is used {place}, and its variable says it is not"),
            false => format!("the resource is not used {place}, and its variable says it is"),
        }
    }

    /// What the count of the piece counts.
    fn counted(&self, instance: &Instance) -> &'static str {
        let Owner::Constraint { index } = self.piece.owner else {
            return "the number of its times";
        };
        match instance.constraints[index].kind {
            Kind::Clash { .. } => "the number of the resource's events",
            Kind::Unavailable { .. } | Kind::BusyLimit { .. } => {
                "the number of the resource's times in the group"
            }
            Kind::PreferredTimes { .. } => {
                "the number of the event's times in subevents that start outside the group"
            }
            Kind::Split { .. } => "the number of the event's starts",
            Kind::Spread { .. } => "the number of the events' starts in the group",
            Kind::Cluster { .. } => "the number of groups with the resource",
            Kind::Idle { .. } => "the number of the resource's idle times",
            Kind::Distribute { .. } => "the number of the event's subevents of this length",
            Kind::Lengths { .. } => "the number of the event's subevents of a length outside",
            Kind::Precedence { .. } => "the number of gaps outside between the two events",
        }
    }
}

/// The row and column, from 1, of a clause of a counter with weights 1: two
/// clauses to a cell of the first row; in the others three in the first column
/// and four elsewhere.
fn cell(place: u64, columns: u64) -> (u64, u64) {
    if place < 2 * columns {
        return (1, place / 2 + 1);
    }
    let place = place - 2 * columns;
    let row = 4 * columns - 1;
    (2 + place / row, (place % row + 1) / 4 + 1)
}

#[cfg(test)]
mod tests {
    use super::*;

    #[test]
    fn cells_follow_one_another() {
        for (rows, columns) in [(1, 1), (1, 3), (2, 1), (3, 4), (5, 2)] {
            let mut places = 0..;
            for (row, column) in (1..=rows).flat_map(|row| (1..=columns).map(move |c| (row, c))) {
                let clauses = match (row, column) {
                    (1, _) => 2,
                    (_, 1) => 3,
                    _ => 4,
                };
                for place in places.by_ref().take(clauses) {
                    assert_eq!(cell(place, columns), (row, column), "{rows} x {columns}");
                }
            }
            let counter = Purpose::Counter {
                time: None,
                rows: rows as usize,
                columns: columns as usize,
            };
            assert_eq!(places.next(), Some(counter.size().clauses));
        }
    }
}
