//! Schools in clock time through the command: files with a calendar, read, explained,
//! shown and refused.
#![cfg(feature = "engine")]

mod support;

use std::fs;
use support::{command, file, folder, hex, run};

/// Two periods of day 1 and one of day 3; two events of one resource; a group of time 3;
/// windows of day 1 and of day 3.
const WEEK: &str = "00 02 E0 03 8D 04 92 04 BF 04 00 01 E0 03 8D 04 00 00 00 00 \
                    02 01 01 01 01 02 01 01 01 01 03 02 01 E0 03 BF 04 03 00 A0 0B";

/// The file above with these constraints.
fn week(constraints: &str) -> Vec<u8> {
    hex(&format!("{WEEK} {constraints}"))
}

/// The lines of a message after its first: the reasons, and the bytes.
fn below(said: &str) -> Vec<&str> {
    said.lines().skip(1).map(str::trim_start).collect()
}

#[test]
fn a_calendar_is_read() {
    let name = file("week", &week("00"));
    let found = run(&["read", &name]);
    assert_eq!(
        found.printed,
        "accepted\ntimes 3\nevents 2\nresources 1\ngroups 3\nconstraints 0\n"
    );
    let json = run(&["read", &name, "--json"]).printed;
    assert!(
        json.contains("\"times\":3") && json.contains("\"groups\":3"),
        "{json}"
    );
}

#[test]
fn what_breaks_a_calendar_is_told_in_words() {
    let start = "00 01 00 05 00 00 00 00 00 00 01 00 01 00 00";
    let crowded = {
        let day: String = (0..36).map(|minute| format!(" {minute:02x}")).collect();
        format!("00 {}", format!("12{day} ").repeat(7))
    };
    for (place, (bytes, printed, reason)) in [
        (
            "00 19",
            "refused 22 1\n",
            "day 1, number of periods: 25 is not from 0 to 24",
        ),
        (
            "00 00 01 A1 0B",
            "refused 22 3\n",
            "day 2, period 1: its start is 1441, not from 0 to 1440",
        ),
        (
            "00 01 00 A1 0B",
            "refused 22 2\n",
            "day 1, period 1: its end is 1441, not from 0 to 1440",
        ),
        (
            "00 01 E0 03 E0 03",
            "refused 22 2\n",
            "day 1, period 1: it ends at 08:00, not after its start at 08:00",
        ),
        (
            "00 02 E0 03 8D 04 8C 04 BF 04",
            "refused 22 6\n",
            "day 1, period 2: it starts at 08:44, before the one before it ends at 08:45",
        ),
        (
            &crowded,
            "refused 22 0\n",
            "calendar: it has 126 periods, 125 are the most",
        ),
        (
            "00 00 00 00 00 00 00 00 01",
            "refused 22 0\n",
            "calendar: it has no period",
        ),
        (
            &format!("{start} 81 08"),
            "refused 22 15\n",
            "number of windows: 1025 is not from 0 to 1024",
        ),
        (
            &format!("{start} 01 08 00 05 00"),
            "refused 22 16\n",
            "window 1: its day is 8, not from 1 to 7",
        ),
        (
            &format!("{start} 02 01 00 05 02 00 A1 0B 00"),
            "refused 22 19\n",
            "window 2: its to is 1441, not from 0 to 1440",
        ),
        (
            "00 01 05 80",
            "refused 1 3\n",
            "day 1, period 1, end: the number is cut short, overlong or too large",
        ),
        (
            "00 01 00 05 00 00 00 00 00 00 01 00 02",
            "refused 2 12\n",
            "event 1, duration: 2 is not from 1 to 1",
        ),
        (
            &format!("{start} 01 01 00 05 01 03 00 01 02"),
            "refused 3 23\n",
            "constraint 1, kind preferred-times, group: 2 names nothing, 1 to 1 are there",
        ),
        (
            &format!("{start} 01 01 00 05 01 03 00 01 01 09"),
            "refused 6 24\n",
            "after the last constraint: 1 bytes are left over",
        ),
    ]
    .into_iter()
    .enumerate()
    {
        let name = file(&format!("calendar-{place}"), &hex(bytes));
        let found = run(&["read", &name]);
        assert_eq!((found.printed.as_str(), found.status), (printed, 1));
        assert_eq!(below(&found.said)[0], reason, "{printed}");
    }
}

/// Refusal 22 is the instance's, whatever else the call is given.
#[test]
fn a_bad_calendar_is_told_of_the_instance() {
    let bad = file("bad", &hex("00 01 05 05"));
    let other = file("other", &[1, 1, 1, 1]);
    for words in [
        vec!["read", &bad],
        vec!["sizes", &bad, "3"],
        vec!["text", &bad],
        vec!["dimacs", &bad],
        vec!["score", &bad, &other],
        vec!["same", &bad, &other, &other],
        vec!["decode", &bad, &other],
        vec!["model", &bad, &other],
        vec!["steps", &bad, "3", &other],
        vec!["check", &bad, "3", &other],
        vec!["check", &bad, "none", &other],
        vec!["best", &bad, &other, &other],
        vec!["solve", &bad],
        vec!["explain", &bad],
        vec!["show", &bad, &other],
        vec!["diff", &bad, &other, &other],
    ] {
        let found = run(&words);
        assert_eq!(
            (found.printed.as_str(), found.status),
            ("refused 22 2\n", 1),
            "{words:?}"
        );
        let said = format!(
            "timetable {}: bad: refusal 22 2: a count, period or window of a calendar breaks its \
             rules, or there are more than 125 periods or none; its first byte is at offset 2\n  \
             day 1, period 1: it ends at 00:05, not after its start at 00:05\n  \
             bytes from offset 0: 00 01 [05] 05\n",
            words[0]
        );
        assert_eq!(found.said, said);
    }
}

#[test]
fn timetables_and_models_are_told_by_the_clock() {
    // Hard: the resource in at most one of the windows, event 1 not in the first.
    let name = file(
        "told",
        &week("02 07 00 01 02 02 03 00 01 05 00 01 01 02 00 00"),
    );
    let said = |words: &[&str]| run(words).said;
    for (place, (table, reason)) in [
        (
            [1, 0, 0, 0, 1, 1, 1, 1, 0, 0, 1, 0],
            "it starts at time 2 (day 1, 08:50 to 09:35), which it does not take",
        ),
        (
            [0, 0, 1, 1, 1, 0, 0, 0, 0, 1, 0, 0],
            "it takes time 3 (day 3, 08:00 to 08:45) and not the one before, and does not start \
             there",
        ),
    ]
    .into_iter()
    .enumerate()
    {
        let table = file(&format!("told-{place}"), &table);
        let said = said(&["score", &name, &table]);
        assert_eq!(below(&said)[0], reason, "{said}");
    }
    // Event 1 at time 1, event 2 at times 2 and 3, and every further variable 0.
    let mut model = vec![1, 0, 0, 0, 1, 1, 1, 0, 0, 0, 1, 0];
    let wanted = run(&["decode", &name, &file("no-model", &[])]).printed;
    let wanted = wanted.trim_end().rsplit(' ').next().expect("a length");
    model.resize(wanted.parse().expect("a number"), 0);
    let no_uses = said(&["decode", &name, &file("no-uses", &model)]);
    assert_eq!(
        below(&no_uses)[0],
        "block 2, resource 1: the resource is used at time 1 (day 1, 08:00 to 08:45), and its \
         variable says it is not"
    );
}

#[test]
fn a_clause_of_a_window_is_told_by_the_clock() {
    // Hard: the resource in at most one of the windows. Event 1 at time 1, event 2 at times
    // 2 and 3; then X, and the counters of durations 1 and 2.
    let name = file("windows", &week("01 07 00 01 02 02 03 00 01"));
    let mut model = vec![1, 0, 0, 0, 1, 1, 1, 0, 0, 0, 1, 0, 1, 1, 1];
    model.extend([1, 0, 1, 0, 1, 0]); // 1 of three, up to 2
    model.extend([0, 0, 0, 1, 0, 0, 1, 1, 0]); // 2 of three, up to 3
    let wanted = run(&["decode", &name, &file("windows-none", &[])]).printed;
    let wanted = wanted.trim_end().rsplit(' ').next().expect("a length");
    model.resize(wanted.parse().expect("a number"), 0);
    let said = run(&["decode", &name, &file("windows-model", &model)]).said;
    assert_eq!(
        below(&said)[0],
        "block 4, constraint 1, kind cluster: the resource is used in group 2 (window 1: day 1, \
         08:00 to 09:35), and its variable says it is not"
    );
}

/// Days under other names, a window up to the end of a day, and one that shows no period.
const WOCHE: &str = "week Mo Di Mi Do Fr Sa So
calendar Mo Mi periods 08:00-08:45 08:50-09:35
calendar So periods 23:00-24:00
lesson Rechnen takes 1
window Spät is So 23:00 to 24:00
window Nie is Sa 12:00 to 08:00
group Früh is *.08:00
unavailable hard R1 in each window
";

#[test]
fn what_explain_prints_compiles_to_the_same_bytes_and_names() {
    let text = WOCHE.replace("lesson", "teachers R1\nlesson");
    let school = file("woche.school", text.as_bytes());
    let report = run(&["compile", &school, "-o", "woche.instance"]);
    assert_eq!(
        report.printed, "accepted\ntimes 5\nevents 1\nresources 1\ngroups 3\nconstraints 2\n",
        "{}",
        report.said
    );
    let bytes = |name: &str| fs::read(folder().join(name)).expect("a file");
    assert_eq!(bytes("woche.instance")[..4], [0, 2, 0xe0, 3]);
    let explained = run(&["explain", "woche.instance", "-o", "woche-2.school"]);
    assert_eq!(explained.status, 0, "{}", explained.said);
    run(&["compile", "woche-2.school", "-o", "woche-2.instance"]);
    assert_eq!(bytes("woche.instance"), bytes("woche-2.instance"));
    assert_eq!(
        bytes("woche.instance.names"),
        bytes("woche-2.instance.names")
    );
    let plain = run(&["explain", "woche.instance", "--no-names"]).printed;
    assert!(
        plain.contains("\ncalendar Mon Wed periods 08:00-08:45 08:50-09:35\n")
            && plain.contains("\ngroup G1 is *.08:00\nwindow W1 is Sun 23:00 to 24:00\n")
            && plain.contains("\nwindow W2 is Sat 12:00 to 08:00\n"),
        "{plain}"
    );
    let again = command(&["compile", &file("plain.school", plain.as_bytes())]).output();
    let again = again.expect("the command runs").stdout;
    assert_eq!(again, bytes("woche.instance"));
}

#[test]
fn a_side_file_names_the_week() {
    let text = WOCHE.replace("lesson", "teachers R1\nlesson");
    let school = file("seite.school", text.as_bytes());
    run(&["compile", &school, "-o", "seite.instance"]);
    let side = folder().join("seite.instance.names");
    let names = fs::read_to_string(&side).expect("the side file");
    assert!(
        names.contains("\nweek Mo Di Mi Do Fr Sa So\n")
            && names.contains("\ngroup-names Früh\nwindow-names Spät Nie\n"),
        "{names}"
    );
    for (wrong, message) in [
        (
            names.replace("week Mo Di Mi Do Fr Sa So", "days Mo periods 1 2 3 4 5"),
            "the times are those of a calendar",
        ),
        (
            names.replace("week Mo ", "week "),
            "expected 7 days, found 6",
        ),
        (
            names.replace(
                "group-names Früh\nwindow-names Spät",
                "group-names Früh Spät\nwindow-names",
            ),
            "2 groups are named, the instance has 1",
        ),
        (
            names.replace("window-names Spät ", "window-names "),
            "1 windows are named, the instance has 2",
        ),
    ] {
        fs::write(&side, wrong).expect("a file");
        let found = run(&["explain", "seite.instance"]);
        assert_eq!(found.status, 1);
        assert!(found.said.contains(message), "{}", found.said);
    }
}

/// A class, its theory and its laboratory on a Monday and a Tuesday of different hours.
const SCHOOL: &str = "calendar Mon periods 08:00-08:45 08:50-09:35 10:00-10:45
calendar Tue periods 08:00-08:40 08:45-09:25 10:00-10:45
classes 1A
lesson Theory takes 2 with 1A
lesson Laboratory takes 1 with 1A
window Early is Mon 08:00 to 09:35
precedence hard Theory before Laboratory
unavailable weight 2 1A in Early
";

#[test]
fn timetables_are_shown_and_compared_by_the_clock() {
    let school = file("clock.school", SCHOOL.as_bytes());
    run(&["compile", &school, "-o", "clock.instance"]);
    let table = |name: &str, rows: [&str; 4]| {
        let digits = rows.concat();
        let bytes: Vec<u8> = digits.bytes().map(|digit| digit - b'0').collect();
        file(name, &bytes)
    };
    let first = table("clock-1", ["110000", "000001", "100000", "000001"]);
    let second = table("clock-2", ["001100", "100000", "001000", "100000"]);
    let shown = run(&["show", "clock.instance", &second]).printed;
    assert!(
        shown.starts_with("Class 1A\n\n             Mon         Tue\n")
            && shown.contains("\n08:50–09:35              -\n")
            && shown.contains(
                "(gap −4, allowed 0 or more: Theory ends at Tue 08:40, Laboratory begins at Mon \
                 08:00)\n"
            ),
        "{shown}"
    );
    let csv = run(&["show", "clock.instance", &second, "--csv"]).printed;
    assert!(
        csv.contains("Class 1A,Mon,10:00–10:45,Theory,yes,"),
        "{csv}"
    );
    let moved = run(&["diff", "clock.instance", &first, &second]).printed;
    assert!(
        moved.starts_with(
            "moved 2\n  Theory: Mon 08:00–09:35 -> Mon 10:00 to Tue 08:40\n  \
             Laboratory: Tue 10:00–10:45 -> Mon 08:00–08:45\n"
        ),
        "{moved}"
    );
    let page = run(&["diff", "clock.instance", &first, &second, "--html"]).printed;
    assert!(page.contains("<td>Mon 08:00–09:35</td>"), "{page}");
    let unnamed = run(&["show", "clock.instance", &second, "--no-names"]).printed;
    assert!(
        unnamed.starts_with("R1\n\n             Mon        Tue\n"),
        "{unnamed}"
    );
}
