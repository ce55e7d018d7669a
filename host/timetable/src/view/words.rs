//! What text, HTML and CSV say in the same words.

use super::charges::Charge;
use super::grid::Grid;
use super::View;

/// The names of a lesson's resources beside that of the grid.
pub fn others<'a>(view: &'a View, grid: &Grid, lesson: usize) -> Vec<&'a str> {
    let resources = view.school.instance.events[lesson].resources.iter();
    let others = resources.filter(|&&resource| Some(resource) != grid.resource);
    others
        .map(|&at| view.school.names.resources[at].name.as_str())
        .collect()
}

/// What a charge adds: "+5" to the cost, "hard 2" to the infeasibility.
pub fn amount(charge: &Charge) -> String {
    match charge.is_hard() {
        true => format!("hard {}", charge.amount()),
        false => format!("+{}", charge.amount()),
    }
}

/// The columns of the table of charges.
pub const CHARGE_COLUMNS: [&str; 5] = ["constraint", "deviation", "weight", "charge", "in words"];

/// A charge's weight in words.
pub fn weight(charge: &Charge) -> String {
    match charge.is_hard() {
        true => "hard".to_string(),
        false => charge.weight.to_string(),
    }
}
