//! The table of charges.

use super::super::charges::{Charge, Totals};
use super::super::words::weight;
use super::super::View;
use super::{escaped, head, Part};

/// The charges that are not 0 with their sums, and the others folded away.
pub fn part(view: &View) -> Part {
    let rows = |broken: bool| -> String {
        let all = view.charges.iter().enumerate();
        let some = all.filter(|(_, charge)| (charge.deviation > 0) == broken);
        some.map(|(number, charge)| row(view, number, charge))
            .collect()
    };
    let Totals {
        infeasibility,
        objective,
    } = view.totals();
    let kept = view.charges.len() - view.broken().count();
    let head = head(&["No.", "Constraint", "Deviation", "Weight", "Charge"]);
    let sum = |name: &str, sum: u64| {
        format!("<tr><th scope=\"row\" colspan=\"4\">{name}</th><td>{sum}</td></tr>\n")
    };
    let body = format!(
        "<table class=\"charges\">\n<caption>A charge is deviation × weight; what a hard \
         constraint deviates is infeasibility.</caption>\n\
         {head}<tbody>\n{}</tbody>\n<tfoot>\n{}{}</tfoot>\n</table>\n\
         <p>Both sums are equal to the score that the engine gives this timetable.</p>\n\
         <details>\n<summary>{kept} of {} constraints are kept and charge nothing</summary>\n\
         <table class=\"charges\">\n{head}<tbody>\n{}</tbody>\n</table>\n</details>\n",
        rows(true),
        sum("Infeasibility: the hard constraints", infeasibility),
        sum("Objective: the others", objective),
        view.charges.len(),
        rows(false),
    );
    Part {
        id: "charges".to_string(),
        class: "sums",
        title: "Charges".to_string(),
        body,
    }
}

fn row(view: &View, number: usize, charge: &Charge) -> String {
    format!(
        "<tr id=\"c{0}\"><th scope=\"row\">{0}</th><td>{1}</td><td>{2}</td><td>{3}</td>\
         <td>{4}</td></tr>\n",
        number + 1,
        escaped(&view.charge_line(number)),
        charge.deviation,
        weight(charge),
        charge.amount(),
    )
}
