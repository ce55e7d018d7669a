//! Where each event may start.

use super::super::draft::Wish;
use super::super::times::TimeSet;
use super::context::{Context, Reading};
use super::item::Item;

pub struct Starts {
    /// For each event the times that lie within a day and that the hard items leave.
    allowed: Vec<TimeSet>,
    /// Of those, the times at which all its people are available.
    possible: Vec<TimeSet>,
    durations: Vec<usize>,
    all: TimeSet,
}

impl Starts {
    pub fn of(context: &Context, readings: &[(&Item, Result<Reading, String>)]) -> Starts {
        let school = context.school;
        let all = TimeSet::below(school.times());
        let lessons = context.lessons.lessons.iter();
        let durations: Vec<usize> = lessons.map(|lesson| lesson.duration).collect();
        let fitting = durations
            .iter()
            .map(|&duration| school.starts_within(duration, all));
        let mut allowed: Vec<TimeSet> = fitting.collect();
        let hard = readings.iter().filter(|(item, _)| item.hard());
        for reading in hard.filter_map(|(_, reading)| reading.as_ref().ok()) {
            for &(event, times) in &reading.starts {
                allowed[event] = allowed[event] & times;
            }
        }
        let mut possible = allowed.clone();
        for person in &context.people {
            for &event in &person.events {
                let available = school.starts_within(durations[event], person.available);
                possible[event] = possible[event] & available;
            }
        }
        Starts {
            allowed,
            possible,
            durations,
            all,
        }
    }

    /// That each event is one block, and starts where it may.
    pub fn wishes(&self, context: &Context) -> Vec<Wish> {
        let mut wishes = Vec::new();
        for event in 0..context.lessons.lessons.len() {
            if self.durations[event] > 1 {
                wishes.push(Wish::Split(event, 1, 1));
            }
            if self.allowed[event] != self.all {
                wishes.push(self.within(event, self.allowed[event]));
            }
        }
        wishes
    }

    /// That an event starts within `times`, charged once if it does not: preferred times
    /// charge one hour as such, and a longer event has one start to count.
    pub fn within(&self, event: usize, times: TimeSet) -> Wish {
        match self.durations[event] {
            1 => Wish::Preferred(event, times),
            _ => Wish::Spread(vec![event], self.all & !times, 0, 0),
        }
    }

    /// A spread without the times at which none of its events can start: a counter grows
    /// with the square of what it counts. None if nothing is left to count.
    pub fn narrowed(&self, wish: Wish) -> Option<Wish> {
        match wish {
            Wish::Spread(events, times, 0, hi) => {
                let possible = events.iter().map(|&event| self.possible[event]);
                let times = times & possible.fold(TimeSet::default(), |all, one| all | one);
                let counts = !times.is_empty();
                counts.then_some(Wish::Spread(events, times, 0, hi))
            }
            wish => Some(wish),
        }
    }
}
