//! A timetable as people look at it: a grid for each resource, as text, as an
//! HTML page or as CSV, and what each constraint charges.

mod charges;
mod counts;
mod csv;
mod diff;
mod gap;
mod grid;
mod html;
mod moments;
mod sheet;
mod text;
mod words;

pub use charges::{charges, Charge, Place, Subject, Totals};
pub use csv::{charges_csv, lessons_csv};
pub use diff::{diff, Diff, Moved};
pub use grid::{grids, Cell, Grid, Mark, Placed, Row};
pub use html::{diff_page, page};
pub use sheet::Sheet;
pub use text::{charges_text, diff_text, grids_text};

use crate::school::{constraint_line, School};
use std::collections::HashMap;

/// A school with one of its timetables.
pub struct View<'a> {
    pub school: &'a School,
    pub sheet: Sheet<'a>,
    /// What each constraint charges, in the order of the file.
    pub charges: Vec<Charge>,
    /// The constraints that are broken at each place, from 0.
    broken_at: HashMap<Place, Vec<usize>>,
}

impl<'a> View<'a> {
    /// None unless `table` has the length of a timetable of the school.
    pub fn new(school: &'a School, table: &'a [u8]) -> Option<Self> {
        let sheet = Sheet::over(&school.instance, table)?;
        let charges = charges(&school.instance, &sheet);
        let mut broken_at: HashMap<Place, Vec<usize>> = HashMap::new();
        for (number, charge) in charges.iter().enumerate() {
            for &place in &charge.places {
                broken_at.entry(place).or_default().push(number);
            }
        }
        Some(View {
            school,
            sheet,
            charges,
            broken_at,
        })
    }

    pub fn totals(&self) -> Totals {
        Totals::of(&self.charges)
    }

    /// The charges that are not 0, with the constraint's number from 0.
    pub fn broken(&self) -> impl Iterator<Item = (usize, &Charge)> {
        let all = self.charges.iter().enumerate();
        all.filter(|(_, charge)| charge.deviation > 0)
    }

    /// The constraints that are broken at `place`, from 0.
    pub fn broken_at(&self, place: Place) -> &[usize] {
        self.broken_at.get(&place).map_or(&[], Vec::as_slice)
    }

    /// The constraint `number`, from 0, in the text form.
    fn constraint_line(&self, number: usize) -> String {
        let School { instance, names } = self.school;
        constraint_line(names, &instance.constraints[number])
    }
}
