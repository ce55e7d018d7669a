//! The week in clock time: what its statements mean, and how a fault is told.

use super::{parse, print, read_names, write_names, School};
use crate::instance::{read, write, Kind, Window};

/// A school to which a statement can be added; its times are 08:00, 08:50 and 10:00 on
/// Monday and Friday, and 08:00 on Wednesday.
const START: &str = "calendar Mon Fri periods 08:00-08:45 08:50-09:35 10:00-11:30\n\
                     calendar Wed periods 08:00-08:45\n\
                     teachers Ada Ben\n\
                     lesson Maths takes 2 with Ada\nlesson Art takes 1 with Ben\n\
                     window Noon is Fri 08:50 to 11:30\n\
                     groups by day\n\
                     windows Early by day 08:00 to 09:35\n\
                     group Late is *.10:00\n";

fn school(lines: &str) -> School {
    parse(&format!("{START}{lines}\n")).expect(lines)
}

fn kinds(lines: &str) -> Vec<Kind> {
    let constraints = school(lines).instance.constraints.into_iter();
    constraints.map(|constraint| constraint.kind).collect()
}

/// Printed and read again it is the same school, and so are the names by the side file.
fn comes_back(school: &School) {
    let text = print(school);
    assert_eq!(parse(&text).as_ref(), Ok(school), "{text}");
    let file = write(&school.instance);
    assert_eq!(read(&file).as_ref(), Ok(&school.instance), "{text}");
    let side = write_names(&school.names, &file);
    let names = read_names(&side, &file, school.instance.counts());
    assert_eq!(names.as_ref(), Ok(&school.names), "{side}");
    let unnamed = School::unnamed(school.instance.clone());
    assert_eq!(parse(&print(&unnamed)).as_ref(), Ok(&unnamed), "{text}");
}

#[test]
fn days_are_numbered_through_the_week_and_windows_after_the_groups() {
    let school = school("");
    let instance = &school.instance;
    let calendar = instance.calendar.as_ref().expect("a calendar");
    let periods: Vec<usize> = calendar.days.iter().map(Vec::len).collect();
    assert_eq!(periods, [3, 0, 1, 0, 3, 0, 0]);
    assert_eq!(
        school.names.times(),
        [
            "Mon.08:00",
            "Mon.08:50",
            "Mon.10:00",
            "Wed.08:00",
            "Fri.08:00",
            "Fri.08:50",
            "Fri.10:00"
        ]
    );
    let groups: Vec<(&str, &[usize])> = school
        .names
        .groups
        .iter()
        .map(String::as_str)
        .zip(instance.groups.iter().map(Vec::as_slice))
        .collect();
    assert_eq!(
        groups,
        [
            ("Mon", &[0, 1, 2][..]),
            ("Wed", &[3]),
            ("Fri", &[4, 5, 6]),
            ("Late", &[2, 6]),
            ("Noon", &[5, 6]),
            ("Mon.Early", &[0, 1]),
            ("Wed.Early", &[3]),
            ("Fri.Early", &[4, 5]),
        ]
    );
    assert_eq!(
        instance.windows()[0],
        Window {
            day: 4,
            from: 530,
            to: 690
        }
    );
    assert_eq!(write(instance)[..4], [0, 3, 0xe0, 3]);
    comes_back(&school);
}

#[test]
fn the_calendar_is_printed_again() {
    let text = print(&school("unavailable hard Ada in Noon"));
    assert_eq!(
        text,
        "# 7 times, 2 lessons, 2 resources, 4 groups, 4 windows, 1 constraints\n\n\
         calendar Mon Fri periods 08:00-08:45 08:50-09:35 10:00-11:30\n\
         calendar Wed periods 08:00-08:45\n\n\
         teachers Ada Ben\n\n\
         lesson Maths takes 2 with Ada\n\
         lesson Art takes 1 with Ben\n\n\
         group Mon is Mon\ngroup Wed is Wed\ngroup Fri is Fri\ngroup Late is *.10:00\n\
         window Noon is Fri 08:50 to 11:30\n\
         window Mon.Early is Mon 08:00 to 09:35\n\
         window Wed.Early is Wed 08:00 to 09:35\n\
         window Fri.Early is Fri 08:00 to 09:35\n\n\
         unavailable hard Ada in Noon\n"
    );
}

#[test]
fn windows_count_as_groups() {
    let unavailable = |group| Kind::Unavailable { resource: 0, group };
    assert_eq!(kinds("unavailable hard Ada in Noon"), [unavailable(4)]);
    assert_eq!(
        kinds("unavailable hard Ada in each *.Early"),
        [5, 6, 7].map(unavailable)
    );
    assert_eq!(
        kinds("unavailable hard Ada in each window"),
        [4, 5, 6, 7].map(unavailable)
    );
    assert_eq!(
        kinds("unavailable hard Ada in each day"),
        [0, 1, 2].map(unavailable)
    );
    let idle = |groups: &[usize]| {
        vec![Kind::Idle {
            resource: 0,
            groups: groups.to_vec(),
            lo: 0,
            hi: 0,
        }]
    };
    for (list, groups) in [
        ("*.Early", &[5, 6, 7][..]),
        ("*.Early Noon Mon", &[0, 4, 5, 6, 7]),
        ("all windows", &[4, 5, 6, 7]),
        ("all groups", &[0, 1, 2, 3, 4, 5, 6, 7]),
        ("all days *.Early", &[0, 1, 2, 5, 6, 7]),
        ("Wed.Early", &[6]),
    ] {
        let line = format!("idle hard Ada in {list} at most 0");
        assert_eq!(kinds(&line), idle(groups), "{line}");
    }
}

#[test]
fn days_can_have_other_names() {
    let text = "week Mo Di Mi Do Fr \"Sa \\\"halb\\\"\" So\n\
                calendar So Mo periods 00:00-12:00 12:00\u{2013}24:00\n\
                lesson a takes 1\nwindow w is Mi 24:00 to 00:00\nwindow v is So 00:00 to 24:00\n";
    let school = parse(text).expect("a school");
    assert_eq!(
        school.names.times(),
        ["Mo.00:00", "Mo.12:00", "So.00:00", "So.12:00"]
    );
    assert_eq!(school.instance.groups, [vec![], vec![2, 3]]);
    comes_back(&school);
    let side = write_names(&school.names, &write(&school.instance));
    assert!(
        side.contains("\nweek Mo Di Mi Do Fr \"Sa \\\"halb\\\"\" So\n"),
        "{side}"
    );
    assert!(side.contains("\nwindow-names w v\n"), "{side}");
}

#[test]
fn a_fault_says_what_was_expected_and_where() {
    let fault = |text: &str| {
        let fault = parse(text).expect_err(text);
        (fault.line, fault.column, fault.message)
    };
    for (line, column, message) in [
        (
            "calendar Mon 08:00-08:45",
            25,
            "expected 'periods', found the end of the statement",
        ),
        (
            "calendar Mon periods",
            21,
            "expected a period such as 08:00-08:45, found the end of the statement",
        ),
        (
            "calendar Mon periods 8:00-8:45",
            22,
            "expected a period such as 08:00-08:45, found '8:00-8:45'",
        ),
        (
            "calendar Mon periods 08:00-08:45 09:00",
            34,
            "expected a period such as 08:00-08:45, found '09:00'",
        ),
        (
            "calendar Mon periods 08:00-24:01",
            22,
            "expected a period such as 08:00-08:45, found '08:00-24:01'",
        ),
        (
            "calendar Mon periods 08:45-08:45",
            22,
            "the period 08:45-08:45: it ends at 08:45, not after its start at 08:45",
        ),
        (
            "calendar Mon periods 08:00-08:45 08:40-09:25",
            34,
            "the period 08:40-09:25: it starts at 08:40, before the one before it ends at 08:45",
        ),
        (
            "calendar Mon Monday periods 08:00-08:45",
            14,
            "there is no day 'Monday' in the week Mon Tue Wed Thu Fri Sat Sun",
        ),
        (
            "calendar Mon Mon periods 08:00-08:45",
            14,
            "'Mon' has its periods already",
        ),
        ("week Mon Tue", 1, "expected 7 days, found 2"),
        (
            "week a b c d e f a",
            1,
            "the name 'a' is used for a time or day already",
        ),
        (
            "window Noon is Mon 08:00 to 12:00",
            1,
            "'window' wants a calendar before it",
        ),
        (
            "windows Noon by day 08:00 to 12:00",
            1,
            "'windows' wants a calendar before it",
        ),
    ] {
        assert_eq!(fault(line), (1, column, message.to_string()), "{line}");
    }
    let last = START.lines().count() + 1;
    for (line, column, message) in [
        (
            "window Noon is Mon 08:00 to 12:00",
            8,
            "there is a window 'Noon' already",
        ),
        (
            "window Late is Mon 08:00 to 12:00",
            8,
            "there is a group 'Late' already",
        ),
        ("group Noon is all", 7, "there is a window 'Noon' already"),
        (
            "windows Early by day 08:00 to 09:00",
            9,
            "there is a window 'Mon.Early' already",
        ),
        (
            "window x is Mo 08:00 to 12:00",
            13,
            "there is no day 'Mo' in the week Mon Tue Wed Thu Fri Sat Sun",
        ),
        (
            "window x is Mon 8:00 to 12:00",
            17,
            "expected a clock time from 00:00 to 24:00, such as 08:45, found '8:00'",
        ),
        (
            "window x is Mon 08:00 12:00",
            23,
            "expected 'to', found '12:00'",
        ),
        (
            "window x is Mon 08:00 to 24:01",
            26,
            "expected a clock time from 00:00 to 24:00, such as 08:45, found '24:01'",
        ),
        (
            "windows x Mon 08:00 to 12:00",
            11,
            "expected 'by', found 'Mon'",
        ),
        (
            "windows x by day 12:00 to 14:00",
            18,
            "no day has a period from 12:00 to 14:00",
        ),
        (
            "calendar Tue periods 08:00-08:45",
            1,
            "'calendar' must stand before lessons and groups",
        ),
        (
            "unavailable hard Ada in *.Early",
            25,
            "'*.Early' stands for several groups; 'each *.Early' makes a constraint for each",
        ),
        (
            "unavailable hard Ada in each hour",
            30,
            "expected 'day', 'group' or 'window', found 'hour'",
        ),
    ] {
        let found = fault(&format!("{START}{line}\n"));
        assert_eq!(found, (last, column, message.to_string()), "{line}");
    }
    for (text, line, message) in [
        (
            "calendar Mon periods 08:00-08:45\nweek a b c d e f g\n",
            2,
            "'week' must stand before the calendar, once",
        ),
        (
            "calendar Mon periods 08:00-08:45\ntimes a\n",
            2,
            "the times are those of a calendar",
        ),
        (
            "times a\ncalendar Mon periods 08:00-08:45\n",
            2,
            "the times are given without a calendar already",
        ),
        (
            "week a b c d e f g\n",
            1,
            "expected 'days', 'times' or 'calendar', found the end of the text",
        ),
        (
            "week a a.08:00 c d e f g\ncalendar a periods 08:00-08:45\n",
            2,
            "the name 'a.08:00' is used for a time or day already",
        ),
    ] {
        let found = fault(text);
        assert_eq!((found.0, found.2), (line, message.to_string()), "{text}");
    }
}

#[test]
fn limits_are_told() {
    let periods = |count: usize| -> String {
        let periods = (0..count).map(|at| {
            format!(
                "{0:02}:{1:02}-{0:02}:{2:02}",
                at / 2,
                at % 2 * 30,
                at % 2 * 30 + 20
            )
        });
        periods.collect::<Vec<_>>().join(" ")
    };
    let fault = |text: &str| parse(text).expect_err(text).message;
    assert_eq!(
        fault(&format!("calendar Mon periods {}", periods(25))),
        "there are more than 24 periods of a day"
    );
    assert_eq!(
        fault(&format!(
            "calendar Mon Tue Wed Thu Fri Sat periods {}",
            periods(21)
        )),
        "there are more than 125 times"
    );
    let full = format!(
        "calendar Mon Tue Wed Thu Fri periods {}\ncalendar Sun periods 23:00-24:00 \nlesson a takes 1\n",
        periods(24)
    );
    let windows: String = (1..=1_024)
        .map(|number| format!("window w{number} is Sun 00:00 to 24:00\n"))
        .collect();
    let groups: String = (1..=1_024)
        .map(|number| format!("group g{number} is Sun\n"))
        .collect();
    let school = parse(&format!("{full}{windows}{groups}")).expect("as much as there may be");
    assert_eq!(school.instance.groups.len(), 2_048);
    assert_eq!(school.instance.groups[2_047], [120]);
    comes_back(&school);
    let more = format!("{full}{windows}window more is Sun 00:00 to 24:00\n");
    assert_eq!(fault(&more), "there are more than 1024 windows");
}

/// Names of days that are words of the language, times, or in need of quotes.
#[test]
fn any_names_come_back() {
    let week = ["in", "08:00", "*.08:00", "a b", "periods", "#1", "to"].map(super::words::written);
    let text = format!(
        "week {}\ncalendar {} {} {} {} periods 08:00-09:00 09:00-24:00\n\
         lesson a takes 1\ngroup g is *.08:00\ngroup h is \"*.08:00\"\nwindow \"*.x\" is {} 08:00 to 24:00\n\
         window \"is\" is {} 08:00 to 24:00\nwindow in.x is \"in\" 08:00 to 24:00\n\
         spread hard a in \"*.x\" at most 1\n",
        week.join(" "),
        week[0],
        week[1],
        week[2],
        week[6],
        week[3],
        week[4],
    );
    let school = parse(&text).expect(&text);
    // A day of that very name comes before the period of every day.
    assert_eq!(school.instance.groups[0], [4, 5]);
    comes_back(&school);
}
