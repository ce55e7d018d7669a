//! Random timetables.

use super::random::Random;
use crate::reference::Instance;

/// A random timetable of `instance`, which may break its constraints.
pub fn timetable(random: &mut Random, instance: &Instance) -> Vec<u8> {
    let times = instance.times;
    let half = instance.events.len() * times;
    let mut table = vec![0; 2 * half];
    for (event, fields) in instance.events.iter().enumerate() {
        for time in taken(random, fields.duration, times) {
            table[event * times + time] = 1;
        }
        for at in event * times..(event + 1) * times {
            let first = at == event * times;
            if table[at] == 1 && (first || table[at - 1] == 0 || random.chance(30)) {
                table[half + at] = 1;
            }
        }
    }
    table
}

/// The times of an event: anywhere, or one after the other, so that long
/// subevents and subevents side by side come up in large instances too.
fn taken(random: &mut Random, duration: usize, times: usize) -> Vec<usize> {
    match random.chance(70) {
        true => random.choose(duration, times),
        false => {
            let first = random.below(times - duration + 1);
            (first..first + duration).collect()
        }
    }
}
