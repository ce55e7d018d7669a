//! A school in words: an instance with the names of its things, its text form
//! (docs/FORMAT.md), and the side file that keeps the names.

mod calendar;
#[cfg(test)]
mod calendar_tests;
mod constraints;
mod cursor;
mod declarations;
mod fault;
mod names;
mod names_file;
mod nearest;
mod parse;
mod print;
mod scope;
#[cfg(test)]
mod tests;
mod times;
mod words;

pub use fault::TextFault;
pub use names::{calendar_days, Day, Names, Resource, ResourceSort, WEEK};
pub use names_file::{read_names, write_names};
pub use parse::parse;
pub use print::{constraint_line, print};

use crate::instance::Instance;

#[derive(Clone, Debug, Default, PartialEq, Eq)]
pub struct School {
    pub instance: Instance,
    /// As many names as the instance has things.
    pub names: Names,
}

impl School {
    /// `instance` with invented names.
    pub fn unnamed(instance: Instance) -> School {
        let names = Names::invented(&instance);
        School { instance, names }
    }
}
