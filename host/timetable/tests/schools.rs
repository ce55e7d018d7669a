//! The example schools, from their text to the page: the command run as a program.
#![cfg(feature = "engine")]

mod support;

use std::collections::BTreeSet;
use std::fs;
use std::path::{Path, PathBuf};
use support::{command, folder, hex, host, repository, stand_ins, Run};
use timetable::instance::KINDS;
use timetable::school::{parse, School};

/// Each example with the cost of its timetable.
const EXAMPLES: [(&str, u64); 5] = [
    ("village", 4),
    ("town", 3),
    ("evening", 4),
    ("college", 0),
    ("lakeside", 3),
];

fn run(folder: &Path, words: &[&str]) -> Run {
    let output = command(words).current_dir(folder).output();
    let output = output.expect("the command runs");
    Run {
        printed: String::from_utf8(output.stdout).expect("text"),
        said: String::from_utf8(output.stderr).expect("text"),
        status: output.status.code().expect("an exit status"),
    }
}

/// What a call printed that must be accepted.
fn accepted(folder: &Path, words: &[&str]) -> String {
    let run = run(folder, words);
    assert_eq!(run.status, 0, "{words:?}: {}", run.said);
    run.printed
}

fn examples() -> PathBuf {
    repository().join("examples")
}

/// A folder of the test's own with an example compiled and its timetable.
fn compiled(test: &str, name: &str) -> PathBuf {
    let folder = folder().join(test).join(name);
    // What an earlier run left would be read by this one.
    let _ = fs::remove_dir_all(&folder);
    fs::create_dir_all(&folder).expect("a folder");
    for (from, to) in [("school", "a.school"), ("timetable", "a.timetable")] {
        let from = examples().join(format!("{name}.{from}"));
        fs::copy(&from, folder.join(to)).unwrap_or_else(|_| panic!("{}", from.display()));
    }
    accepted(&folder, &["compile", "a.school", "-o", "a.instance"]);
    folder
}

/// A text is line by line the one in `pages/`.
fn is_as_expected(text: &str, name: &str) {
    let path = host().join("timetable/tests/pages").join(name);
    let expected = fs::read_to_string(&path).unwrap_or_else(|_| panic!("{}", path.display()));
    for (number, (line, expected)) in text.lines().zip(expected.lines()).enumerate() {
        assert_eq!(line, expected, "{name}, line {}", number + 1);
    }
    assert_eq!(text.lines().count(), expected.lines().count(), "{name}");
}

#[test]
fn what_explain_prints_compiles_to_the_same_bytes_and_names() {
    for (name, _) in EXAMPLES {
        let folder = compiled("explain", name);
        accepted(&folder, &["explain", "a.instance", "-o", "b.school"]);
        accepted(&folder, &["compile", "b.school", "-o", "b.instance"]);
        let bytes = |file: &str| fs::read(folder.join(file)).expect("a file");
        assert_eq!(bytes("a.instance"), bytes("b.instance"), "{name}");
        assert_eq!(
            bytes("a.instance.names"),
            bytes("b.instance.names"),
            "{name}"
        );
        accepted(
            &folder,
            &["explain", "a.instance", "--no-names", "-o", "c.school"],
        );
        accepted(&folder, &["compile", "c.school", "-o", "c.instance"]);
        assert_eq!(bytes("a.instance"), bytes("c.instance"), "{name}");
        assert_ne!(
            bytes("a.instance.names"),
            bytes("c.instance.names"),
            "{name}"
        );
    }
}

#[test]
fn the_schools_of_the_tests_compile_again() {
    let schools = host().join("schools");
    let folder = compiled("again", "village");
    for name in ["toy.instance", "small.instance"] {
        let file = schools.join(name);
        let text = accepted(&folder, &["explain", &file.to_string_lossy()]);
        fs::write(folder.join("text"), text).expect("a file");
        let output = command(&["compile", "text"]).current_dir(&folder).output();
        let bytes = output.expect("the command runs").stdout;
        assert_eq!(bytes, fs::read(&file).expect("a file"), "{name}");
    }
}

#[test]
fn the_village_is_shown_as_expected() {
    let folder = compiled("shown", "village");
    let show = |words: &[&str]| {
        accepted(
            &folder,
            &[&["show", "a.instance", "a.timetable"], words].concat(),
        )
    };
    is_as_expected(&show(&[]), "village.txt");
    is_as_expected(&visible(&show(&["--html"])), "village.html.txt");
    is_as_expected(&show(&["--csv", "--class", "Lower"]), "village.csv");
}

#[test]
fn the_lakeside_is_shown_by_the_clock() {
    let folder = compiled("clock", "lakeside");
    let show = |words: &[&str]| {
        accepted(
            &folder,
            &[&["show", "a.instance", "a.timetable"], words].concat(),
        )
    };
    is_as_expected(&show(&[]), "lakeside.txt");
    is_as_expected(&visible(&show(&["--html"])), "lakeside.html.txt");
    is_as_expected(&show(&["--csv", "--teacher", "Okoye"]), "lakeside.csv");
}

#[test]
fn a_school_is_compiled_solved_and_shown() {
    let folder = compiled("solved", "evening");
    // What clasp and cadical printed and wrote for this school.
    let solvers = stand_ins(
        "solved",
        &[
            ("clasp", "cat \"$R/evening-clasp.out\""),
            (
                "cadical",
                "cp \"$R/evening-cadical-3.drat\" \"$5\"; cat \"$R/evening-cadical-3.out\"",
            ),
        ],
    );
    let solve = ["solve", "a.instance", "--solver", &solvers, "-o", "week"];
    let report = accepted(&folder, &solve);
    assert!(
        report.starts_with("costs 4; none at 3 or less, checked\n"),
        "{report}"
    );
    let solved = ["show", "a.instance", "week/best.timetable"];
    assert!(accepted(&folder, &solved).ends_with("infeasibility 0\nobjective 4\n"));
    // The example's timetable is another of that cost.
    let show = ["show", "a.instance", "a.timetable"];
    is_as_expected(&accepted(&folder, &show), "evening.txt");
    let page = accepted(&folder, &[&show[..], &["--html"]].concat());
    is_as_expected(&visible(&page), "evening.html.txt");
}

#[test]
fn the_charges_sum_up_to_the_cost() {
    for (name, cost) in EXAMPLES {
        let folder = compiled("charges", name);
        let show = ["show", "a.instance", "a.timetable", "--charges"];
        let table = accepted(&folder, &show);
        assert!(
            table.ends_with(&format!("infeasibility 0\nobjective {cost}\n")),
            "{table}"
        );
        let csv = accepted(&folder, &[&show[..], &["--csv"]].concat());
        let charges = csv.lines().skip(1).map(|line| {
            let field = line.split(',').nth(3).expect("a charge");
            field.parse::<u64>().expect("a number")
        });
        assert_eq!(charges.sum::<u64>(), cost, "{name}");
    }
}

/// Days of a teacher, one of them without a lesson, and a group without a time.
const FREE_AND_IDLE: &str = "
days Mon Tue Wed Thu periods 1 2 3 4 5 6
teachers Ada
lesson Art takes 7 with Ada
groups by day
group Evening is none
idle weight 1 Ada in all groups at most 0
";

/// Marked are the free times between two lessons of a day.
const FREE_AND_IDLE_SHOWN: &str = "\
Teacher Ada

   Mon    Tue    Wed  Thu
-  -----  -----  ---  ---
1                Art
2  Art           !1
3  !1 +4  Art    Art
4  !1     | Art  !1
5  Art           Art
6
  !1 +4  idle weight 1 Ada in Mon Tue Wed Thu Evening at most 0
";

#[test]
fn free_times_before_the_first_and_after_the_last_use_are_not_idle() {
    let folder = compiled("idle", "village");
    fs::write(folder.join("b.school"), FREE_AND_IDLE).expect("a file");
    accepted(&folder, &["compile", "b.school", "-o", "b.instance"]);
    let day = |text: &str| text.bytes().map(|digit| digit - b'0').collect::<Vec<u8>>();
    let taken = ["010010", "001100", "101010", "000000"].map(day).concat();
    let starts = ["010010", "001000", "101010", "000000"].map(day).concat();
    fs::write(folder.join("b.timetable"), [taken, starts].concat()).expect("a file");
    let shown = accepted(&folder, &["show", "b.instance", "b.timetable"]);
    assert!(shown.starts_with(FREE_AND_IDLE_SHOWN), "{shown}");
    assert!(shown.ends_with("infeasibility 0\nobjective 4\n"), "{shown}");
}

/// A theory lesson and its laboratory, of a class and a teacher.
const THEORY_AND_LABORATORY: &str = "
days Mon Tue periods 1 2 3
teachers Ada
classes 1A
lesson Theory takes 2 with 1A Ada
lesson Laboratory takes 1 with 1A
precedence hard Theory before Laboratory
precedence weight 5 Theory before Laboratory at most 1
";

/// Marked are the last time of the first and the first of the second.
const GAP_SHOWN: &str = "\
Class 1A

   Mon         Tue
-  ----------  ------
1  Theory
     Ada
2  Laboratory
   !1 hard 1
   !2 +5
3              Theory
                 Ada
               !1
               !2
  !1 hard 1  precedence hard Theory before Laboratory (gap −5, allowed 0 or more: Theory ends at \
Tue.3, Laboratory begins at Mon.2)
  !2 +5  precedence weight 5 Theory before Laboratory at most 1 (gap −5, allowed 0 to 1: Theory \
ends at Tue.3, Laboratory begins at Mon.2)
";

#[test]
fn the_gap_of_a_precedence_is_told() {
    let folder = compiled("gap", "village");
    fs::write(folder.join("b.school"), THEORY_AND_LABORATORY).expect("a file");
    accepted(&folder, &["compile", "b.school", "-o", "b.instance"]);
    let table = |name: &str, theory: &str, laboratory: &str| {
        let digits = [theory, laboratory].concat();
        let row = digits
            .bytes()
            .map(|digit| digit - b'0')
            .collect::<Vec<u8>>();
        fs::write(folder.join(name), row.repeat(2)).expect("a file");
    };
    table("broken.timetable", "100001", "010000");
    table("kept.timetable", "100100", "000001");
    let show = ["show", "b.instance", "broken.timetable"];
    let shown = accepted(&folder, &show);
    assert!(shown.starts_with(GAP_SHOWN), "{shown}");
    assert!(shown.ends_with("infeasibility 1\nobjective 5\n"), "{shown}");
    let page = visible(&accepted(&folder, &[&show[..], &["--html"]].concat()));
    let told = "at most 1 (gap −5, allowed 0 to 1: Theory ends at Tue.3, Laboratory begins at \
                Mon.2) | 1 | 5 | 5 |\n";
    assert!(page.contains(told), "{page}");
    let csv = accepted(&folder, &[&show[..], &["--charges", "--csv"]].concat());
    assert!(csv.contains("1,1,hard,1,\"precedence hard Theory before Laboratory (gap −5, "));
    let kept = accepted(
        &folder,
        &["show", "b.instance", "kept.timetable", "--charges"],
    );
    assert!(
        kept.contains(" before Laboratory at most 1 (gap 1)\n"),
        "{kept}"
    );
    let diff = ["diff", "b.instance", "kept.timetable", "broken.timetable"];
    let moved = run(&folder, &diff);
    assert_eq!(moved.status, 1);
    assert!(
        moved.printed.contains(
            "charged otherwise 2\n  1: hard 0 -> hard 1  precedence hard Theory before Laboratory \
             (gap 1 before, −5 after, allowed 0 or more)\n  2: +0 -> +5  precedence weight 5 Theory \
             before Laboratory at most 1 (gap 1 before, −5 after, allowed 0 to 1)\n"
        ),
        "{}",
        moved.printed
    );
    let page = run(&folder, &[&diff[..], &["--html"]].concat()).printed;
    assert!(
        visible(&page)
            .contains("(gap 1 before, −5 after, allowed 0 or more) | hard 0 | hard 1 |\n"),
        "{page}"
    );
}

#[test]
fn pages_are_whole_and_accessible() {
    for (name, _) in EXAMPLES {
        let folder = compiled("page", name);
        let show = ["show", "a.instance", "a.timetable", "--html"];
        is_whole_and_accessible(&accepted(&folder, &show));
    }
    let folder = compiled("page", "village");
    let moved = examples().join("village-moved.timetable");
    let moved = moved.to_str().expect("a path");
    let diff = ["diff", "a.instance", "a.timetable", moved, "--html"];
    let page = run(&folder, &diff).printed;
    is_whole_and_accessible(&page);
    // Once for its class and once for its teacher.
    assert_eq!(page.matches("<em>moved</em>").count(), 2);
    assert!(visible(&page).contains("Nature-Upper | Mon.4 | Thu.3 |\n"));
}

/// The page needs no other file, its tags are balanced, its links lead
/// somewhere, and its tables say what their heads are the heads of.
fn is_whole_and_accessible(page: &str) {
    assert!(page.starts_with("<!DOCTYPE html>\n<html lang=\"en\">\n"));
    assert!(page.contains("<title>") && page.contains("@media print"));
    for outside in [
        "<script", "<link", "<img", "http:", "https:", "url(", "@import",
    ] {
        assert!(!page.contains(outside), "{outside}");
    }
    let tags = tags(page);
    let heads = tags.iter().filter(|tag| tag.starts_with("th "));
    assert!(heads.clone().all(|tag| tag.contains("scope=\"")));
    assert!(heads.count() > 0 && !tags.iter().any(|tag| tag == "th"));
    let values = |attribute: &str| -> Vec<String> {
        let values = tags.iter().filter_map(|tag| tag.split_once(attribute));
        let values = values.map(|(_, rest)| rest.split('"').next().unwrap_or_default());
        values.map(str::to_string).collect()
    };
    let ids = values(" id=\"");
    let all: BTreeSet<&String> = ids.iter().collect();
    assert_eq!(ids.len(), all.len(), "an id stands twice");
    let targets = [values(" href=\"#"), values(" aria-labelledby=\"")].concat();
    for target in targets {
        assert!(all.contains(&target), "{target} is not there");
    }
}

#[test]
fn names_with_a_meaning_in_html_are_escaped() {
    let folder = compiled("escaped", "village");
    let text = fs::read_to_string(folder.join("a.school")).expect("a text");
    let text = text
        .replace("Music", "\"<b>&amp;\\\"Music\"")
        .replace("Village School", "A < B");
    fs::write(folder.join("a.school"), text).expect("a file");
    accepted(&folder, &["compile", "a.school", "-o", "a.instance"]);
    let page = accepted(&folder, &["show", "a.instance", "a.timetable", "--html"]);
    assert!(page.contains("<title>A &lt; B</title>"));
    assert!(page.contains("&lt;b&gt;&amp;amp;&quot;Music"));
    assert!(!page.contains("<b>&amp;\"Music"));
}

#[test]
fn one_grid_can_be_asked_for() {
    let folder = compiled("one", "town");
    let show = |words: &[&str]| {
        run(
            &folder,
            &[&["show", "a.instance", "a.timetable"], words].concat(),
        )
    };
    for (option, name, title) in [
        ("--class", "1A", "Class 1A"),
        ("--teacher", "Abel", "Teacher Abel"),
        ("--room", "Gym", "Room Gym"),
        ("--resource", "Lab", "Room Lab"),
    ] {
        let text = show(&[option, name]).printed;
        assert!(text.starts_with(&format!("{title}\n\n")), "{text}");
        assert_eq!(text.matches("\n\nCharges\n").count(), 1);
    }
    let wrong = show(&["--class", "Abel"]);
    assert_eq!(
        (wrong.status, wrong.said.as_str()),
        (1, "timetable show: there is no class 'Abel'\n")
    );
    assert_eq!(show(&["--html", "--csv"]).status, 2);
}

#[test]
fn a_text_that_is_no_school_is_told_with_its_place() {
    let folder = compiled("fault", "village");
    let text = fs::read_to_string(folder.join("a.school")).expect("a text");
    fs::write(
        folder.join("b.school"),
        text.replace("in Mornings", "in Noon"),
    )
    .expect("a file");
    let wrong = run(&folder, &["compile", "b.school", "-o", "b.instance"]);
    assert_eq!(wrong.status, 1);
    assert_eq!(
        wrong.said,
        "timetable compile: b.school: line 35, column 43: there is no group 'Noon'\n  \
         preferred-times weight 3 Numbers-Lower in Noon\n  \
         \u{20}                                         ^\n"
    );
    assert!(!folder.join("b.instance").exists() && !folder.join("b.instance.names").exists());
    fs::write(folder.join("c.school"), b"times a\n\nlesson \xff").expect("a file");
    let wrong = run(&folder, &["compile", "c.school"]);
    assert!(
        wrong.said.contains("line 3, column 8: this is not UTF-8"),
        "{}",
        wrong.said
    );
}

#[test]
fn names_of_another_file_are_rejected() {
    let folder = compiled("other", "village");
    let town = compiled("other", "town");
    fs::copy(town.join("a.instance"), folder.join("a.instance")).expect("a file");
    let run = run(&folder, &["explain", "a.instance"]);
    assert_eq!(run.status, 1);
    assert!(
        run.said
            .contains("were written for an instance file with other bytes"),
        "{}",
        run.said
    );
    accepted(&folder, &["explain", "a.instance", "--no-names"]);
    let side = town.join("a.instance.names");
    accepted(
        &folder,
        &["explain", "a.instance", "--names", &side.to_string_lossy()],
    );
}

#[test]
fn diff_says_what_moved() {
    let folder = compiled("diff", "village");
    let diff = |second: &str| run(&folder, &["diff", "a.instance", "a.timetable", second]);
    let same = diff("a.timetable");
    assert_eq!((same.printed.as_str(), same.status), ("nothing moved\n", 0));
    let second = examples().join("village-moved.timetable");
    let moved = diff(&second.to_string_lossy());
    is_as_expected(&moved.printed, "moved.txt");
    assert_eq!(moved.status, 1);
    fs::write(folder.join("c.timetable"), [1; 3]).expect("a file");
    let refused = diff("c.timetable");
    assert_eq!(
        (refused.printed.as_str(), refused.status),
        ("refused 10 360\n", 1)
    );
    assert!(refused.said.contains("c.timetable"), "{}", refused.said);
}

#[test]
fn the_format_is_as_it_is_described() {
    let format = fs::read_to_string(repository().join("docs/FORMAT.md")).expect("a text");
    let section = format
        .split_once("## A worked school")
        .expect("a section")
        .1;
    let worked = section.split("```").nth(1).expect("a school");
    let folder = compiled("format", "village");
    fs::write(folder.join("b.school"), worked).expect("a file");
    let report = accepted(&folder, &["compile", "b.school", "-o", "b.instance"]);
    assert!(
        report.starts_with("accepted\ntimes 20\nevents 3\n"),
        "{report}"
    );
    doubles_are_as_described(&folder, &format);
    preferred_times_are_as_described(&folder, &format);
    gaps_are_as_described(&folder, &format);
    calendars_are_as_described(&folder, &format);
    for facts in KINDS {
        let row = format!("| {} | `{} hard ", facts.number, facts.name);
        assert!(format.contains(&row), "{row}");
    }
}

/// Two doubles and a single keep all that the text of that name asks; a triple
/// and a double miss one double and the single, and the triple is too long.
fn doubles_are_as_described(folder: &Path, format: &str) {
    let section = format
        .split_once("## Two doubles and a single")
        .expect("a section");
    let text = section.1.split("```").nth(1).expect("a school");
    fs::write(folder.join("c.school"), text).expect("a file");
    let report = accepted(folder, &["compile", "c.school", "-o", "c.instance"]);
    assert!(
        report.starts_with("accepted\ntimes 9\nevents 1\n"),
        "{report}"
    );
    let scored = |taken: [u8; 9], starts: [u8; 9]| {
        fs::write(folder.join("c.timetable"), [taken, starts].concat()).expect("a file");
        accepted(folder, &["score", "c.instance", "c.timetable"])
    };
    assert_eq!(
        scored([1, 1, 0, 1, 1, 0, 1, 0, 0], [1, 0, 0, 1, 0, 0, 1, 0, 0]),
        "infeasibility 0\nobjective 0\n"
    );
    assert_eq!(
        scored([1, 1, 1, 1, 1, 0, 0, 0, 0], [1, 0, 0, 1, 0, 0, 0, 0, 0]),
        "infeasibility 2\nobjective 1\n"
    );
}

/// Each row of that section's table: its times, what it says of the gap, and that `show`
/// tells the same.
fn gaps_are_as_described(folder: &Path, format: &str) {
    let section = format
        .split_once("## One lesson before another")
        .expect("a section");
    let text = section.1.split("```").nth(1).expect("a school");
    fs::write(folder.join("e.school"), text).expect("a file");
    accepted(folder, &["compile", "e.school", "-o", "e.instance"]);
    let rows = section.1.lines().filter(|line| line.starts_with("| `"));
    let rows: Vec<&str> = rows.take_while(|line| line.contains("costs")).collect();
    assert_eq!(rows.len(), 4);
    let mut told = 0;
    for row in rows {
        let cells: Vec<&str> = row.trim_matches(['|', ' ']).split(" | ").collect();
        let mut table = [0; 32];
        for (lesson, cell) in cells[..2].iter().enumerate() {
            for name in cell.split('`').skip(1).step_by(2) {
                let day = if name.starts_with("Mon") { 0 } else { 4 };
                let period: usize = name[4..].parse().expect("a period");
                let at = 8 * lesson + day + period - 1;
                (table[at], table[16 + at]) = (1, 1);
            }
        }
        fs::write(folder.join("e.timetable"), table).expect("a file");
        let broken = u64::from(cells[3] == "broken");
        let cost: u64 = cells[4]["costs ".len()..].parse().expect("a cost");
        assert_eq!(
            accepted(folder, &["score", "e.instance", "e.timetable"]),
            format!("infeasibility {broken}\nobjective {cost}\n"),
            "{row}"
        );
        let show = ["show", "e.instance", "e.timetable", "--charges"];
        let shown = accepted(folder, &show);
        for (line, kept) in [
            (" before Laboratory", broken == 0),
            (" at most 2", cost == 0),
        ] {
            let end = if kept { ")\n" } else { ", allowed 0 " };
            let gap = format!("{line} (gap {}{end}", cells[2]);
            assert!(shown.contains(&gap), "{shown}");
        }
        let words = section
            .1
            .split('`')
            .find(|words| words.starts_with("(gap "));
        told += usize::from(shown.contains(words.expect("what show tells")));
    }
    assert_eq!(told, 1, "what is said of show is of one of the rows");
}

/// Each row of that section's table: a group or window, its number and its times; and the
/// bytes that the section shows.
fn calendars_are_as_described(folder: &Path, format: &str) {
    let section = format.split_once("## A week in clock time");
    let section = section.expect("a section").1;
    let text = section.split("```").nth(1).expect("a school");
    let School { instance, names } = parse(text).expect("a school");
    let times = names.times();
    let rows = section.lines().filter(|line| line.starts_with("| `"));
    let groups = names.groups.iter().zip(&instance.groups);
    for (number, ((name, members), row)) in (1..).zip(groups.zip(rows)) {
        let members = members.iter().map(|&time| format!("`{}`", times[time]));
        let members = match members.collect::<Vec<_>>().join(", ") {
            none if none.is_empty() => "none".to_string(),
            some => some,
        };
        assert_eq!(row, format!("| `{name}` | {number} | {members} |"));
    }
    assert!(section.contains(&format!("| {} | none |\n\n", names.groups.len())));
    fs::write(folder.join("f.school"), text).expect("a file");
    accepted(folder, &["compile", "f.school", "-o", "f.instance"]);
    let shown = section.split("```").nth(3).expect("the bytes").lines();
    // What a line means stands after two spaces.
    let shown = shown.filter_map(|line| line.split("  ").next());
    let shown: Vec<u8> = shown.flat_map(hex).collect();
    assert_eq!(fs::read(folder.join("f.instance")).expect("a file"), shown);
}

/// Each row of that section's table: its parts placed, and what it says they cost.
fn preferred_times_are_as_described(folder: &Path, format: &str) {
    let section = format.split_once("## Preferred times").expect("a section");
    let text = section.1.split("```").nth(1).expect("a school");
    fs::write(folder.join("d.school"), text).expect("a file");
    accepted(folder, &["compile", "d.school", "-o", "d.instance"]);
    let rows = section.1.lines().filter(|line| line.contains(" part"));
    let rows: Vec<&str> = rows.filter(|line| line.starts_with("| ")).collect();
    assert_eq!(rows.len(), 4);
    for row in rows {
        let (taken, cost) = row.split_once(" | ").expect("two columns");
        let cost = cost.split(':').next().expect("a cost");
        let mut table = [0; 16];
        for (place, name) in taken.split('`').skip(1).step_by(2).enumerate() {
            let (day, period) = name.split_once('.').expect("a day and a period");
            let time = if day == "Mon" { 0 } else { 4 } + period.parse::<usize>().unwrap() - 1;
            table[time] = 1;
            table[8 + time] = u8::from(place == 0 || taken.contains("two parts"));
        }
        fs::write(folder.join("d.timetable"), table).expect("a file");
        assert_eq!(
            accepted(folder, &["score", "d.instance", "d.timetable"]),
            format!("infeasibility 0\nobjective {cost}\n"),
            "{row}"
        );
        // Marked is every time that counts, one in the group too; once more below the grid.
        let shown = accepted(folder, &["show", "d.instance", "d.timetable"]);
        let marks = shown.matches("!1").count().saturating_sub(1);
        assert_eq!((3 * marks).to_string(), cost, "{shown}");
    }
}

/// The tags of a page, without their angle brackets; they must be balanced.
fn tags(page: &str) -> Vec<String> {
    let body = page.split_once("</style>").expect("a style").1;
    let mut open = vec!["html", "head"];
    let mut tags = Vec::new();
    for part in body.split('<').skip(1) {
        let tag = part.split('>').next().expect("a tag's end");
        let name = tag.split(' ').next().expect("a tag's name");
        match name.strip_prefix('/') {
            Some(name) => assert_eq!(open.pop(), Some(name)),
            None => open.push(name),
        }
        tags.push(tag.to_string());
    }
    assert!(open.is_empty(), "{open:?} are not closed");
    tags
}

/// What a reader sees of a page: the text between the tags, a row of a table on
/// a line.
fn visible(page: &str) -> String {
    let body = page.split_once("<body>").expect("a body").1;
    let mut text = String::new();
    for (tag, after) in body.split('<').filter_map(|part| part.split_once('>')) {
        let name = tag.split(' ').next().expect("a tag's name");
        text += match name {
            "/td" | "/th" => " | ",
            "/tr" | "/p" | "/li" | "/h1" | "/h2" | "/caption" | "/summary" => "\n",
            "span" | "/b" | "/a" | "/em" => " ",
            _ => "",
        };
        text += after.trim_matches('\n');
    }
    let lines = text
        .lines()
        .map(|line| line.split_whitespace().collect::<Vec<_>>().join(" "));
    lines.map(|line| line + "\n").collect()
}
