//! `timetable import` and `timetable export`, run as a program.
#![cfg(feature = "engine")]

mod support;

use std::fs;
use support::{file, folder, run};

const WEEK_FET: &str = include_str!("import/week.fet");
const WEEK_XML: &str = include_str!("import/week.xml");

/// A rule without a counterpart.
const ORDER: &str = "<ConstraintTwoActivitiesOrderedIfSameDay>\
                     <Weight_Percentage>100</Weight_Percentage>\
                     <First_Activity_Id>1</First_Activity_Id>\
                     <Second_Activity_Id>2</Second_Activity_Id>\
                     </ConstraintTwoActivitiesOrderedIfSameDay>";

#[test]
fn a_fet_school_is_written_with_its_names() {
    let school = file("week.fet", WEEK_FET.as_bytes());
    let imported = run(&["import", "fet", &school, "-o", "week"]);
    let printed = "accepted\ntimes 9\nevents 4\nresources 4\ngroups 1\nconstraints 4\n\
                   exact 2\nweakened 0\ndropped 0\n";
    assert_eq!(
        (imported.printed.as_str(), imported.said.as_str()),
        (printed, "")
    );
    let told = run(&["explain", "week"]);
    assert!(
        told.printed.contains("school \"Four activities\""),
        "{}",
        told.printed
    );
    assert!(
        told.printed.contains("teachers Ada Bob"),
        "{}",
        told.printed
    );
}

/// FET's list of placed activities, as it writes it.
fn result(places: &[(usize, &str, usize)]) -> String {
    let placed = places.iter().map(|(id, day, hour)| {
        format!(
            "<Activity><Id>{id}</Id><Day>{day}</Day><Hour>{hour}</Hour><Room></Room></Activity>"
        )
    });
    let placed: String = placed.collect();
    format!("<Activities_Timetable>{placed}</Activities_Timetable>")
}

#[test]
fn a_timetable_of_fet_is_priced() {
    let school = file("placed.fet", WEEK_FET.as_bytes());
    let places = [(1, "Mo", 1), (2, "Tu", 1), (3, "We", 2), (4, "Mo", 1)];
    let placed = file("placed.xml", result(&places).as_bytes());
    let imported = run(&[
        "import", "fet", &school, "-o", "placed", "--placed", &placed,
    ]);
    assert_eq!(imported.status, 0, "{}", imported.said);
    let score = run(&["score", "placed", "placed.timetable"]);
    assert_eq!(
        score.printed, "infeasibility 1\nobjective 0\n",
        "Ada is at two places"
    );
    let placed = file("missing.xml", result(&places[..3]).as_bytes());
    let refused = run(&[
        "import", "fet", &school, "-o", "placed", "--placed", &placed,
    ]);
    let said = "timetable import: missing.xml:1: activity 4 is not placed\n";
    assert_eq!((refused.status, refused.said.as_str()), (1, said));
}

#[test]
fn what_has_no_counterpart_is_refused_by_default() {
    let text = WEEK_FET.replace("<!-- time rules -->", ORDER);
    let school = file("ordered.fet", text.as_bytes());
    let told = "ordered.fet:44: dropped: ConstraintTwoActivitiesOrderedIfSameDay (1, 2): the \
                engine has no counterpart for it\n";
    let refused = run(&["import", "fet", &school, "-o", "never-written"]);
    assert_eq!((refused.status, refused.printed.as_str()), (1, ""));
    let first = "timetable import: 1 items have no exact counterpart; '--drop' leaves them out\n";
    assert_eq!(refused.said, format!("{first}{told}"));
    assert!(
        !folder().join("never-written").exists(),
        "nothing is written"
    );
    let dropped = run(&["import", "fet", &school, "--drop", "-o", "ordered"]);
    assert_eq!(dropped.status, 0);
    assert!(
        dropped
            .printed
            .ends_with("exact 2\nweakened 0\ndropped 1\n"),
        "{}",
        dropped.printed
    );
    assert!(dropped.said.starts_with(told), "{}", dropped.said);
    assert!(
        dropped.said.contains("a refuted bound holds for both"),
        "{}",
        dropped.said
    );
}

#[test]
fn damage_is_told_with_line_and_column() {
    let school = file("cut.fet", &WEEK_FET.as_bytes()[..200]);
    let refused = run(&["import", "fet", &school]);
    let said = "timetable import: cut.fet:7:17: a name is expected\n";
    assert_eq!((refused.status, refused.said.as_str()), (1, said));
    let school = file("other.xml", b"<html/>");
    let refused = run(&["import", "xhstt", &school]);
    let said = "timetable import: other.xml:1: this is no XHSTT archive but 'html'\n";
    assert_eq!((refused.status, refused.said.as_str()), (1, said));
    let refused = run(&["import", "fet", "cut.fet", "--scale", "0"]);
    assert_eq!(refused.status, 2);
}

#[test]
fn soft_weights_follow_the_scale() {
    let wish = |percentage: &str, id: usize| {
        format!(
            "<ConstraintActivityPreferredStartingTime><Weight_Percentage>{percentage}\
             </Weight_Percentage><Activity_Id>{id}</Activity_Id><Preferred_Day>Mo</Preferred_Day>\
             <Preferred_Hour>1</Preferred_Hour></ConstraintActivityPreferredStartingTime>"
        )
    };
    let wishes = wish("95", 1) + &wish("50", 2) + &wish("0.1", 4);
    let school = file(
        "soft.fet",
        WEEK_FET.replace("<!-- time rules -->", &wishes).as_bytes(),
    );
    let weights = |scale: &str| {
        run(&["import", "fet", &school, "--scale", scale, "-o", "soft"]);
        let told = run(&["explain", "soft"]).printed;
        let lines = told.lines().filter_map(|line| line.split("weight ").nth(1));
        let weights = lines.filter_map(|rest| rest.split_whitespace().next());
        weights.map(str::to_string).collect::<Vec<_>>()
    };
    assert_eq!(weights("10"), ["10", "5", "1"]);
    assert_eq!(weights("100"), ["95", "50", "1"]);
}

#[test]
fn an_xhstt_timetable_goes_there_and_back() {
    let archive = file("week.xml", WEEK_XML.as_bytes());
    let imported = run(&["import", "xhstt", &archive, "-o", "week.instance"]);
    assert_eq!(imported.status, 0, "{}", imported.said);
    // Times 1, 2 and 3, and 6: see the starts of the events.
    let mut table = [0; 36];
    for place in [0, 7, 8, 17, 18, 25, 35] {
        table[place] = 1;
    }
    let table = file("week.timetable", &table);
    let words = [
        "export",
        "xhstt",
        &archive,
        "week.instance",
        &table,
        "-o",
        "solved.xml",
    ];
    let exported = run(&words);
    assert_eq!((exported.status, exported.said.as_str()), (0, ""));
    let solved = fs::read_to_string(folder().join("solved.xml")).expect("the archive");
    let part = "<Event Reference=\"E2\"><Duration>2</Duration><Time Reference=\"Mo2\"/></Event>";
    assert!(solved.contains(part), "{solved}");
    assert!(solved.contains("infeasibility 0, objective 0"), "{solved}");
    // The instance of another file is not this archive's.
    let other = file("other.instance", &[6, 3, 0, 1, 0, 2, 0, 1, 0, 0, 0]);
    let refused = run(&["export", "xhstt", &archive, &other, &table]);
    assert_eq!(refused.status, 1);
    assert!(
        refused.said.contains("is not the import of week.xml"),
        "{}",
        refused.said
    );
}
