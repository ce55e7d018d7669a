//! The text form: what its statements mean, and how a fault is told.

use super::{parse, print};
use crate::instance::Kind;

/// A school to which a statement can be added.
const START: &str = "days Mon Tue periods 1 2\nteachers Ada Ben\nclasses 1A\n\
                     lesson Maths takes 2 with Ada 1A\nlesson Art takes 1 with Ben\n\
                     groups by day\ngroup Early is *.1\n";

/// The fault of the line added to the school: its column and its message.
fn fault(line: &str) -> (usize, String) {
    let fault = parse(&format!("{START}{line}\n")).expect_err(line);
    assert_eq!(fault.line, START.lines().count() + 1, "{line}");
    (fault.column, fault.message)
}

fn kinds(lines: &str) -> Vec<Kind> {
    let school = parse(&format!("{START}{lines}\n")).expect(lines);
    let constraints = school.instance.constraints.into_iter();
    constraints.map(|constraint| constraint.kind).collect()
}

#[test]
fn a_fault_says_what_was_expected_and_where() {
    let cases = [
        ("clash Ada", 7, "expected 'hard' or 'weight', found 'Ada'"),
        (
            "clash weight 0 Ada",
            14,
            "expected a weight from 1 to 1000, found '0'",
        ),
        (
            "clash hard",
            11,
            "expected the name of a resource, found the end of the statement",
        ),
        ("clash hard Eve", 12, "there is no resource 'Eve'"),
        (
            "clash hard Ada Ben",
            16,
            "expected the end of the statement, found 'Ben'",
        ),
        ("unavailable hard Ada Mon", 22, "expected 'in', found 'Mon'"),
        ("unavailable hard Ada in Wed", 25, "there is no group 'Wed'"),
        (
            "split hard Maths 1 to 2",
            18,
            "expected 'between', 'at most', 'at least' or 'exactly', found '1'",
        ),
        (
            "split hard Maths at best 1",
            21,
            "expected 'most' or 'least', found 'best'",
        ),
        (
            "split hard Maths at most 256",
            26,
            "expected a number from 0 to 255, found '256'",
        ),
        (
            "split hard Maths between 3 and 2",
            1,
            "lo is 3, above hi, which is 2: split hard Maths between 3 and 2",
        ),
        (
            "split hard Maths at least 5",
            1,
            "lo is 5, above the 4 entries of its counted list: split hard Maths at least 5",
        ),
        (
            "distribute hard Maths 2 exactly 1",
            23,
            "expected 'length', found '2'",
        ),
        (
            "distribute hard Maths length 5 exactly 1",
            30,
            "expected a number from 1 to 4, found '5'",
        ),
        (
            "lengths hard Maths exactly 0",
            28,
            "expected a number from 1 to 4, found '0'",
        ),
        (
            "lengths hard Maths between 3 and 2",
            1,
            "shortest is 3, above longest, which is 2: lengths hard Maths between 3 and 2",
        ),
        (
            "precedence hard Maths Art",
            23,
            "expected 'before', found 'Art'",
        ),
        (
            "precedence hard Maths before",
            29,
            "expected the name of a lesson, found the end of the statement",
        ),
        (
            "precedence hard Maths before Arts",
            30,
            "there is no lesson 'Arts'; is 'Art' meant?",
        ),
        (
            "precedence hard Maths before Art 1 to 2",
            34,
            "expected 'between', 'at most', 'at least' or 'exactly', found '1'",
        ),
        (
            "precedence hard Maths before Art at most 125",
            42,
            "expected a number from 0 to 124, found '125'",
        ),
        (
            "precedence hard Maths before Art between 3 and 2",
            1,
            "the least gap is 3, above the largest, which is 2: precedence hard Maths before Art \
             between 3 and 2",
        ),
        (
            "precedence hard each lesson before Art",
            1,
            "its first and its second event are one, event 2: precedence hard Art before Art",
        ),
        (
            "spread hard Art Art in Mon at most 1",
            17,
            "'Art' stands twice in a list",
        ),
        (
            "spread hard in Mon at most 1",
            13,
            "expected the name of a lesson, found 'in'",
        ),
        (
            "clash hard each pupil",
            17,
            "expected one of teacher, class, room, resource, found 'pupil'",
        ),
        ("clash hard each room", 17, "there is no room"),
        (
            "lesson Maths takes 2",
            8,
            "there is a lesson 'Maths' already",
        ),
        (
            "lesson Sport takes 5",
            20,
            "expected a number of times from 1 to 4, found '5'",
        ),
        (
            "group Late is Mon.3",
            15,
            "there is no time, day or period 'Mon.3'",
        ),
        (
            "group Late is Tue.1 to Mon.2",
            24,
            "expected a time after the span's first, found 'Mon.2'",
        ),
        ("group Early is all", 7, "there is a group 'Early' already"),
        (
            "days Wed periods 1",
            1,
            "'days' must stand before lessons and groups",
        ),
        ("teachers Ada", 10, "there is a resource 'Ada' already"),
        (
            "lesson \"Sport takes 5",
            8,
            "expected a closing quote on this line",
        ),
    ];
    for (line, column, message) in cases {
        assert_eq!(fault(line), (column, message.to_string()), "{line}");
    }
    assert!(fault("klash hard Ada")
        .1
        .starts_with("expected a statement (school,"));
    let late = parse(&format!("{START}clash hard Ada\nlesson Sport takes 1\n"));
    assert_eq!(
        late.expect_err("a late lesson").to_string(),
        "line 9, column 1: 'lesson' must stand before the first constraint"
    );
}

#[test]
fn a_text_without_lessons_is_no_school() {
    let fault = parse("").expect_err("nothing");
    assert_eq!(
        fault.to_string(),
        "line 1, column 1: expected 'days', 'times' or 'calendar', found the end of the text"
    );
    let fault = parse("times a b\n").expect_err("no lesson");
    assert_eq!(
        fault.to_string(),
        "line 1, column 10: expected 'lesson', found the end of the text"
    );
}

#[test]
fn limits_are_told() {
    let names: Vec<String> = (0..126).map(|number| format!("t{number}")).collect();
    let fault = parse(&format!("times {}", names.join(" "))).expect_err("126 times");
    assert_eq!(fault.message, "there are more than 125 times");
    let resources = format!("times a\nteachers {}", names[..100].join(" "));
    let fault = parse(&resources).expect_err("100 resources");
    assert_eq!(fault.message, "there are more than 99 resources");
}

#[test]
fn each_makes_constraints_and_all_makes_a_list() {
    assert_eq!(
        kinds("clash hard each teacher"),
        [Kind::Clash { resource: 0 }, Kind::Clash { resource: 1 }]
    );
    let spread = |events: &[usize], group| Kind::Spread {
        events: events.to_vec(),
        group,
        lo: 0,
        hi: 1,
    };
    assert_eq!(
        kinds("spread hard each lesson in each day at most 1"),
        [
            spread(&[0], 0),
            spread(&[0], 1),
            spread(&[1], 0),
            spread(&[1], 1)
        ]
    );
    assert_eq!(
        kinds("spread hard all lessons in Mon at most 1"),
        [spread(&[0, 1], 0)]
    );
    assert_eq!(
        kinds("spread hard Art Maths in Mon at most 1"),
        [spread(&[0, 1], 0)]
    );
    assert_eq!(
        kinds("spread hard all lessons with Ben in Mon at most 1"),
        [spread(&[1], 0)]
    );
    assert_eq!(
        kinds("spread hard none in Mon between 0 and 1"),
        [spread(&[], 0)]
    );
    let idle = |resource, groups: &[usize]| Kind::Idle {
        resource,
        groups: groups.to_vec(),
        lo: 0,
        hi: 0,
    };
    assert_eq!(
        kinds("idle weight 2 1A in all days at most 0"),
        [idle(2, &[0, 1])]
    );
    assert_eq!(
        kinds("idle weight 2 1A in all groups at most 0"),
        [idle(2, &[0, 1, 2])]
    );
}

#[test]
fn bounds_can_be_said_shortly() {
    let split = |lo, hi| vec![Kind::Split { event: 0, lo, hi }];
    assert_eq!(kinds("split hard Maths at most 2"), split(0, 2));
    assert_eq!(kinds("split hard Maths at least 2"), split(2, 255));
    assert_eq!(kinds("split hard Maths exactly 2"), split(2, 2));
    assert_eq!(kinds("split hard Maths between 1 and 2"), split(1, 2));
}

#[test]
fn lengths_of_parts_are_said() {
    let distribute = |event, length, lo, hi| Kind::Distribute {
        event,
        length,
        lo,
        hi,
    };
    assert_eq!(
        kinds("distribute hard Maths length 2 exactly 1"),
        [distribute(0, 2, 1, 1)]
    );
    assert_eq!(
        kinds("distribute weight 2 each lesson length 1 at most 3"),
        [distribute(0, 1, 0, 3), distribute(1, 1, 0, 3)]
    );
    let lengths = |shortest, longest| {
        vec![Kind::Lengths {
            event: 0,
            shortest,
            longest,
        }]
    };
    assert_eq!(kinds("lengths hard Maths between 2 and 3"), lengths(2, 3));
    assert_eq!(kinds("lengths hard Maths at most 2"), lengths(1, 2));
    assert_eq!(kinds("lengths hard Maths at least 2"), lengths(2, 4));
    assert_eq!(kinds("lengths hard Maths exactly 2"), lengths(2, 2));
}

#[test]
fn one_lesson_before_another_is_said() {
    let precedence = |first, second, lo, hi| {
        vec![Kind::Precedence {
            first,
            second,
            lo,
            hi,
        }]
    };
    for (gap, lo, hi) in [
        ("", 0, 124),
        (" at least 0", 0, 124),
        (" at most 3", 0, 3),
        (" at least 2", 2, 124),
        (" exactly 0", 0, 0),
        (" between 1 and 2", 1, 2),
    ] {
        let line = format!("precedence weight 2 Maths before Art{gap}");
        assert_eq!(kinds(&line), precedence(0, 1, lo, hi), "{line}");
    }
    assert_eq!(
        kinds("precedence hard Art before Maths"),
        precedence(1, 0, 0, 124)
    );
    assert_eq!(
        kinds("precedence hard each lesson with Ben before Maths at most 1"),
        precedence(1, 0, 0, 1)
    );
}

/// Every gap is printed in a way that is read as the same.
#[test]
fn printed_gaps_are_read_again() {
    let mut school = parse(&format!("{START}precedence hard Maths before Art\n")).expect("one");
    let limits = [0, 1, 2, 123, 124];
    for (lo, hi) in limits.iter().flat_map(|&lo| limits.map(|hi| (lo, hi))) {
        if lo > hi {
            continue;
        }
        school.instance.constraints[0].kind = Kind::Precedence {
            first: 1,
            second: 0,
            lo,
            hi,
        };
        let text = print(&school);
        assert_eq!(parse(&text).as_ref(), Ok(&school), "{text}");
        let whole = text.ends_with("\nprecedence hard Art before Maths\n");
        assert_eq!(whole, (lo, hi) == (0, 124), "{text}");
    }
}

/// A word that ends no list may be a lesson's name.
#[test]
fn a_lesson_may_be_named_length_or_before() {
    let text = "times a b\nlesson length takes 1\nlesson before takes 1\n\
                distribute hard length length 2 at most 0\n\
                precedence hard before before length\n";
    let school = parse(text).expect("a school");
    assert_eq!(school.names.lessons, ["length", "before"]);
    assert_eq!(parse(&print(&school)), Ok(school));
}

#[test]
fn groups_are_sets_of_times() {
    let text = format!(
        "{START}group A is all except Tue.2\ngroup B is Mon.2 to Tue.1\n\
         group C is *.2 Mon\ngroup D is none\n"
    );
    let groups = parse(&text).expect("a school").instance.groups;
    assert_eq!(groups[..3], [vec![0, 1], vec![2, 3], vec![0, 2]]);
    assert_eq!(
        groups[3..],
        [vec![0, 1, 2], vec![1, 2], vec![0, 1, 3], vec![]]
    );
}
