//! A reference implementation of the engine's operations.
//!
//! Each operation is a function over byte slices. It reads the instance file
//! itself and answers its result or the first refusal, in the order of places:
//! instance, sizing, timetable, solver's text or model, proof. Idle times alone have no file:
//! they are counted in a row. The types of the answers are those of
//! `timetable::engine`; nothing else is shared with it.

mod best;
mod calendar;
mod clauses;
mod idle;
mod instance;
mod model;
mod number;
mod proof;
mod refusal;
mod score;
mod sheet;
mod solver_text;
mod text;

pub use best::best;
pub use calendar::{Calendar, Period, Window, DAYS, LAST_MINUTE, MOST_PERIODS, MOST_WINDOWS};
pub use clauses::{
    sizes, walk, walk_with_tail, Literal, Sink, Sizes, LARGEST_BOUND, LARGEST_FORMULA,
};
pub use idle::{idle_step, idle_times, kept};
pub use instance::{
    read, Constraint, Event, Instance, Kind, Range, LARGEST_GAP, LARGEST_HI, LONGEST_LIST,
    MOST_TIMES,
};
pub use model::decode;
pub use number::{read_number, write_number};
pub use proof::{check, check_hard, ADD, DELETE};
pub use score::{deviation, score};
pub use sheet::{same_sheet, Sheet};
pub use solver_text::{print_model, solver_text};
pub use text::{text, text_program, text_size, TEXT_PROGRAM_BYTES};
pub use timetable::engine::{FormulaSize, Infeasibility, Kept, Objective, Refusal, Score, Summary};
