//! `timetable show`: a timetable as grids, with what each constraint charges.

use super::frame::answer::{Answer, Fault};
use super::frame::declare::{CommandOption, Subcommand, Value};
use super::frame::given::Given;
use super::frame::operands::{out, INSTANCE, TIMETABLE};
use super::names::{self, NAMES, NO_NAMES};
use crate::engine::{self, is_of_instance, Score};
use crate::school::{ResourceSort, School};
use crate::view::{charges_csv, charges_text, grids, grids_text, lessons_csv, page, Totals, View};

pub const SUBCOMMAND: Subcommand = Subcommand {
    name: "show",
    about: "a timetable as grids, with what each constraint charges",
    operands: &[INSTANCE, TIMETABLE],
    options: &[
        one("class", "the grid of this class"),
        one("teacher", "the grid of this teacher"),
        one("room", "the grid of this room"),
        one("resource", "the grid of this resource, whatever its sort"),
        flag(
            "all",
            "the grids of all resources; so it is if none is named",
        ),
        flag("charges", "only the charges, of every constraint"),
        flag("html", "as an HTML page"),
        flag("csv", "as CSV: lessons, or with '--charges' constraints"),
        NAMES,
        NO_NAMES,
        out("where to write it"),
    ],
    prints: "the grids, each with the constraints that it breaks, then the charges: deviation × \
             weight for each constraint that is broken, and their sums",
    details: "'!12 +5' marks that constraint 12 is broken at a cost of 5, 'hard' that it is a \
              hard one, and '|' that a lesson goes on from above. A precedence is told with its \
              gap. The sums are compared with the \
              engine's score; if they differ, nothing is shown and the exit status is 2. Names \
              come from a side file, which 'compile' writes.",
    refusals: &[1..=6, 10..=12, 19..=19, 22..=22],
    run: |given, _| {
        let school = names::school(given)?;
        let view = view(given, &school, "TIMETABLE")?;
        let chosen = chosen(given, &school)?;
        let grids = grids(&view, &chosen.resources, chosen.all);
        let forms = ["charges", "html", "csv"].map(|name| given.flag(name));
        let shown = match forms {
            [true, false, true] => charges_csv(&view),
            [true, false, false] => charges_text(&view, true),
            [false, true, false] => page(&view, &grids),
            [false, false, true] => lessons_csv(&view, &grids),
            [false, false, false] => {
                format!(
                    "{}\n{}",
                    grids_text(&view, &grids),
                    charges_text(&view, false)
                )
            }
            _ => {
                let message = "'--html' goes neither with '--csv' nor with '--charges'";
                return Err(Fault::Usage(message.to_string()));
            }
        };
        Ok(Answer::product(shown.into_bytes()))
    },
};

/// An option with a name.
const fn one(long: &'static str, about: &'static str) -> CommandOption {
    CommandOption {
        long,
        short: None,
        value: Some(("NAME", Value::Text)),
        about,
    }
}

/// A flag.
pub const fn flag(long: &'static str, about: &'static str) -> CommandOption {
    CommandOption {
        long,
        short: None,
        value: None,
        about,
    }
}

/// The timetable of the operand `name`, its charges compared with the engine's score.
pub fn view<'a>(
    given: &'a Given,
    school: &'a School,
    name: &'static str,
) -> Result<View<'a>, Fault> {
    let table = given.bytes(name);
    let score =
        engine::score(given.bytes("INSTANCE"), table).map_err(|refusal| Fault::Refused {
            refusal,
            operand: (!is_of_instance(refusal.number)).then_some(name),
        })?;
    let view = View::new(school, table).ok_or_else(|| {
        Fault::Failed("the timetable has another length than the engine says".to_string())
    })?;
    agree(view.totals(), score)?;
    Ok(view)
}

/// What is shown must sum up to what the engine says.
fn agree(totals: Totals, score: Score) -> Result<(), Fault> {
    let Totals {
        infeasibility,
        objective,
    } = totals;
    if (infeasibility, objective) == (score.infeasibility.0, score.objective.0) {
        return Ok(());
    }
    Err(Fault::Failed(format!(
        "the charges sum up to infeasibility {infeasibility} and objective {objective}, but the \
         engine's score is {} and {}: nothing is shown",
        score.infeasibility.0, score.objective.0
    )))
}

/// The grids that are asked for.
struct Chosen {
    resources: Vec<usize>,
    /// Whether the lessons without a resource are shown as well.
    all: bool,
}

fn chosen(given: &Given, school: &School) -> Result<Chosen, Fault> {
    let sorts = [
        ("class", Some(ResourceSort::Class)),
        ("teacher", Some(ResourceSort::Teacher)),
        ("room", Some(ResourceSort::Room)),
        ("resource", None),
    ];
    let named = sorts.map(|(option, sort)| Some((option, sort, given.word_if(option)?)));
    let mut resources = Vec::new();
    for (option, sort, name) in named.into_iter().flatten() {
        let mut all = school.names.resources.iter();
        let found =
            all.position(|one| one.name == name && sort.is_none_or(|sort| one.sort == sort));
        match found {
            Some(found) => resources.push(found),
            None => return Err(Fault::Rejected(format!("there is no {option} '{name}'"))),
        }
    }
    let all = resources.is_empty() || given.flag("all");
    if all {
        // Classes first: they are what most look for.
        resources = by_sort(school);
    }
    Ok(Chosen { resources, all })
}

/// Every resource: classes, then teachers, rooms and others.
pub fn by_sort(school: &School) -> Vec<usize> {
    let order = |sort: ResourceSort| match sort {
        ResourceSort::Class => 0,
        ResourceSort::Teacher => 1,
        ResourceSort::Room => 2,
        ResourceSort::Other => 3,
    };
    let mut all: Vec<usize> = (0..school.names.resources.len()).collect();
    all.sort_by_key(|&at| order(school.names.resources[at].sort));
    all
}

#[cfg(test)]
mod tests {
    use super::*;
    use crate::engine::{Infeasibility, Objective};

    #[test]
    fn sums_that_are_not_the_score_are_not_shown() {
        let totals = Totals {
            infeasibility: 1,
            objective: 7,
        };
        let score = |infeasibility, objective| Score {
            infeasibility: Infeasibility(infeasibility),
            objective: Objective(objective),
        };
        assert!(agree(totals, score(1, 7)).is_ok());
        for other in [score(0, 7), score(1, 8), score(7, 1)] {
            assert!(matches!(agree(totals, other), Err(Fault::Failed(_))));
        }
    }
}
