//! Schools of other programs as instances.
//!
//! An import carries every item of a file exactly, or says that it does not:
//! an item is weakened where something that it implies is carried, and dropped
//! where nothing is. Either can only lower the least cost, so what is refuted
//! for the instance is refuted for the school; a timetable of the instance may
//! break what was lost.

mod draft;
pub mod fet;
mod names;
mod remark;
mod times;
mod writer;
pub mod xhstt;
pub mod xml;

pub use remark::{Fate, Fault, Remark};
pub use writer::Imported;
