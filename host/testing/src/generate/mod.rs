//! Seeded generators of test inputs: instance files, timetables, models, texts of
//! solvers and proofs, valid and damaged. Equal seeds give equal inputs.

mod calendars;
mod damage;
mod damaged_calendars;
mod damaged_texts;
mod file;
mod instances;
mod largest;
mod models;
mod planned;
mod proofs;
mod random;
mod school;
mod solver_texts;
mod timetables;

pub use calendars::{calendar, window};
pub use damage::{damaged_bytes, damaged_instance, damaged_numbers, damaged_table, number_starts};
pub use damaged_calendars::{damaged_calendar, damaged_calendars, DamagedCalendar};
pub use damaged_texts::{damaged_text, damaged_texts, DamagedText};
pub use file::encode;
pub use instances::{instance, Shape};
pub use largest::{
    idle_limits, idle_limits_in_windows, long_lengths, long_tail, many_ors, many_variables,
};
pub use models::{model, model_with_tail};
pub use planned::{planned_school, Plan};
pub use proofs::{lent, proof};
pub use random::Random;
pub use school::{in_clock_time, school, school_of_every_kind};
pub use solver_texts::{printed, scattered, wrapped, Line, Printed, Word};
pub use timetables::timetable;
