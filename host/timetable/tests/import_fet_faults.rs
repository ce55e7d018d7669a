//! What the import of a FET file says of items that it does not carry, and of damage.
#![cfg(feature = "engine")]

mod import;

use import::*;
use timetable::import::{fet, xml};

#[test]
fn what_is_lost_is_named_with_its_line() {
    let order =
        "<First_Activity_Id>1</First_Activity_Id><Second_Activity_Id>2</Second_Activity_Id>";
    let rules = rule("TwoActivitiesOrderedIfSameDay", "100", order)
        + &rule("TwoActivitiesConsecutive", "50", order)
        + &rule(
            "TeacherMaxDaysPerWeek",
            "0",
            "<Teacher_Name>Nobody</Teacher_Name>",
        );
    let imported = import(&school(&rules, "")).unwrap();
    let told: Vec<String> = imported
        .remarks
        .iter()
        .map(|remark| remark.to_string())
        .collect();
    assert_eq!(
        told,
        [
            "44: dropped: ConstraintTwoActivitiesOrderedIfSameDay (1, 2): the engine has no \
             counterpart for it",
            "45: weakened: ConstraintTwoActivitiesConsecutive (1, 2): only a gap of 0 to 0 times \
             is carried",
        ]
    );
}

#[test]
fn faults_are_told_with_their_line() {
    let nobody = "<Teacher_Name>Nobody</Teacher_Name><Max_Gaps>0</Max_Gaps>";
    let cases = [
        (
            rule("TeacherMaxGapsPerWeek", "100", nobody),
            "44: there is no teacher 'Nobody'",
        ),
        (
            rule("MinDaysBetweenActivities", "100", &ids(&[9])),
            "44: 'no number",
        ),
        (
            rule("ActivitiesSameStartingDay", "100", &ids(&[9])),
            "44: there is no activity '9'",
        ),
        (
            rule("ActivitiesSameStartingDay", "101", &ids(&[1])),
            "44: '101' is no weight percentage",
        ),
        (
            rule("BreakTimes", "100", &times("Break_Time", "", &[("Su", 1)])),
            "44: there is no day 'Su'",
        ),
    ];
    for (rules, told) in cases {
        let fault = import(&school(&rules, ""))
            .err()
            .map(|fault| fault.to_string());
        let fault = fault.unwrap_or_default();
        let expected = told.replace("'no number", "'' is no number for MinDays");
        assert!(fault.starts_with(&expected), "{fault}");
    }
    let halves = WEEK.replace("Official", "Mornings_Afternoons");
    assert!(import(&halves)
        .err()
        .is_some_and(|fault| fault.message.contains("official mode")));
    let many = "<Hour><Name>x</Name></Hour>".repeat(60);
    let many = WEEK.replace("<Hour><Name>3</Name></Hour>", &many);
    assert!(import(&many)
        .err()
        .is_some_and(|fault| fault.message == "186 times, 125 are the most"));
}

/// Numbers that no school has end the import or the item, and nothing else.
#[test]
fn large_numbers_do_no_harm() {
    let days = |least: &str| format!("{}<MinDays>{least}</MinDays>", ids(&[1, 2]));
    for weight in ["50", "100"] {
        let large = rule("MinDaysBetweenActivities", weight, &days("4294967295"));
        assert_eq!(import(&school(&large, "")).unwrap().remarks.len(), 1);
        let larger = rule("MinDaysBetweenActivities", weight, &days("4294967296"));
        assert!(import(&school(&larger, "")).is_err());
    }
    for (name, field) in [
        ("TeachersMaxGapsPerWeek", "Max_Gaps"),
        ("TeachersMaxHoursDaily", "Maximum_Hours_Daily"),
        ("TeachersMaxDaysPerWeek", "Max_Days_Per_Week"),
        ("TeachersMaxSpanPerDay", "Max_Span"),
        ("TeachersMaxHoursContinuously", "Maximum_Hours_Continuously"),
    ] {
        let large = rule(name, "100", &format!("<{field}>4294967295</{field}>"));
        assert!(
            import(&school(&large, "")).unwrap().remarks.is_empty(),
            "{name}"
        );
    }
}

#[test]
fn no_damage_panics() {
    let text = school(&rule("ActivitiesSameStartingDay", "95", &ids(&[1, 2])), "");
    let bytes = text.as_bytes();
    for cut in (0..bytes.len()).step_by(7) {
        let _ = xml::read(&bytes[..cut]);
        for byte in [b'<', b'9', b'0', b'&', 0xff] {
            let mut damaged = bytes.to_vec();
            damaged[cut] = byte;
            if let Ok(root) = xml::read(&damaged) {
                let _ = fet::import(&root, 10);
            }
        }
    }
}
