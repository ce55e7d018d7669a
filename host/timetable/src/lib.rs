//! The timetable engine behind safe functions (`engine`), the command over it
//! (`command`), and what the command does around the engine: instances as typed
//! values, schools as text, other formats, outside solvers, timetables to look
//! at, and refusals in words.

// The C functions are called in one file alone.
#![deny(unsafe_code)]

#[cfg(feature = "engine")]
pub mod command;
#[cfg(feature = "engine")]
pub mod diagnosis;
pub mod engine;
pub mod import;
pub mod instance;
pub mod number;
pub mod proof;
pub mod school;
#[cfg(feature = "engine")]
pub mod solver;
#[cfg(feature = "engine")]
pub mod view;
