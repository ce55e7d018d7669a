//! Refusals as the command tells them.
#![cfg(feature = "engine")]

mod support;

use support::{file, folder, hex, oversized, run, Run, FILE_A, PROOF_A};
use timetable::command::frame::refusals;
use timetable::command::SUBCOMMANDS;
use timetable::engine::Refusal;

/// The lines of a message after its first: the reasons, and the bytes.
fn below(said: &str) -> Vec<&str> {
    said.lines().skip(1).map(str::trim_start).collect()
}

#[test]
fn a_refusal_is_told_with_its_place_its_reason_and_the_bytes() {
    let name = file("lo-above-hi", &hex("01 01 00 01 00 00 02 04 00 01 01 00"));
    assert_eq!(
        run(&["read", &name]),
        Run {
            printed: "refused 5 7\n".to_string(),
            said: "timetable read: lo-above-hi: refusal 5 7: lo is above hi or above the \
                   length of the counted list, or shortest above longest; the constraint's kind is at offset 7\n  \
                   constraint 1, kind split: lo is 1, above hi, which is 0 (lo 1, hi 0, \
                   length 1)\n  \
                   bytes from offset 0: 01 01 00 01 00 00 02 [04] 00 01 01 00\n"
                .to_string(),
            status: 1,
        }
    );
}

#[test]
fn a_long_file_is_shown_around_the_offset() {
    let mut bytes = hex(FILE_A);
    bytes.extend([9; 40]);
    let found = run(&["read", &file("left-over", &bytes)]);
    assert_eq!(found.printed, "refused 6 12\n");
    assert_eq!(
        below(&found.said),
        [
            "after the last constraint: 40 bytes are left over",
            "bytes from offset 4: .. 00 01 00 01 03 04 01 01 [09] 09 09 09 09 09 09 09 09 ..",
        ]
    );
}

#[test]
fn refused_instances_are_told_by_field_value_and_limit() {
    let long_list = {
        let events = "01 00 ".repeat(4);
        let times: String = (1..=64).map(|time| format!("{time:02x} ")).collect();
        format!("7D 04 00 {events} 01 40 {times} 01 05 01 04 01 02 03 04 01 00 09")
    };
    for (place, (bytes, printed, reason)) in [
        (
            "",
            "refused 1 0\n",
            "number of times: the number is cut short, overlong or too large",
        ),
        (
            "01 01 00 01 00 01 00 01 03 04 01",
            "refused 1 11\n",
            "constraint 1, kind preferred-times, group: the number is cut short, overlong or \
             too large",
        ),
        (
            "7E",
            "refused 2 0\n",
            "number of times: 126 is not from 0 to 125",
        ),
        (
            "02 01 00 03 00",
            "refused 2 3\n",
            "event 1, duration: 3 is not from 1 to 2",
        ),
        (
            "01 01 00 01 00 00 01 0C",
            "refused 2 7\n",
            "constraint 1, kind: 12 is not from 1 to 11",
        ),
        (
            "02 01 00 01 00 00 01 09 00 01 03",
            "refused 2 10\n",
            "constraint 1, kind distribute, length: 3 is not from 1 to 2",
        ),
        (
            "02 01 00 01 00 00 01 0A 00 01 00",
            "refused 2 10\n",
            "constraint 1, kind lengths, shortest: 0 is not from 1 to 2",
        ),
        (
            "01 02 00 01 00 01 00 00 01 0B 00 01 01 7D 00",
            "refused 2 13\n",
            "constraint 1, kind precedence, lo: 125 is not from 0 to 124",
        ),
        (
            "01 02 00 01 00 01 00 00 01 0B 00 01 03",
            "refused 3 12\n",
            "constraint 1, kind precedence, second: 3 names nothing, 1 to 2 are there",
        ),
        (
            "01 01 00 01 00 00 01 04 E9 07",
            "refused 2 8\n",
            "constraint 1, kind split, weight: 1001 is not from 0 to 1000",
        ),
        (
            "01 01 01 01 00 00 01 01 00 02",
            "refused 3 9\n",
            "constraint 1, kind clash, resource: 2 names nothing, 1 to 1 are there",
        ),
        (
            "01 01 00 01 00 00 01 01 00 01",
            "refused 3 9\n",
            "constraint 1, kind clash, resource: 1 names nothing, there is none to name",
        ),
        (
            "02 01 00 01 00 01 02 01 01",
            "refused 3 8\n",
            "group 1, times, entry 2: 1 is not above the entry before it",
        ),
        (
            &long_list,
            "refused 4 78\n",
            "constraint 1, kind spread: its counted list has 256 entries, 255 are the most \
             (lo 0, hi 9, length 256)",
        ),
        (
            "02 01 00 01 00 00 01 04 00 01 03 05",
            "refused 5 7\n",
            "constraint 1, kind split: lo is 3, above the 2 entries of its counted list (lo 3, hi \
             5, length 2)",
        ),
        (
            "02 01 00 01 00 00 01 0A 00 01 02 01",
            "refused 5 7\n",
            "constraint 1, kind lengths: shortest is 2, above longest, which is 1",
        ),
        (
            "01 02 00 01 00 01 00 00 01 0B 00 01 02 01 00",
            "refused 5 9\n",
            "constraint 1, kind precedence: the least gap is 1, above the largest, which is 0",
        ),
        (
            "01 02 00 01 00 01 00 00 01 0B 00 02 02 01 00",
            "refused 19 9\n",
            "constraint 1, kind precedence: its first and its second event are one, event 2",
        ),
    ]
    .into_iter()
    .enumerate()
    {
        let name = file(&format!("instance-{place}"), &hex(bytes));
        let found = run(&["read", &name]);
        assert_eq!((found.printed.as_str(), found.status), (printed, 1));
        assert_eq!(below(&found.said)[0], reason, "{printed}");
    }
}

/// Refusal 19 is the instance's, whatever else the call is given.
#[test]
fn events_that_are_one_are_told_of_the_instance() {
    let one = file("one", &hex("01 02 00 01 00 01 00 00 01 0B 00 02 02 00 00"));
    let other = file("other", &[1, 1, 1, 1]);
    for words in [
        vec!["read", &one],
        vec!["sizes", &one, "3"],
        vec!["text", &one],
        vec!["score", &one, &other],
        vec!["same", &one, &other, &other],
        vec!["decode", &one, &other],
        vec!["model", &one, &other],
        vec!["check", &one, "3", &other],
        vec!["best", &one, &other, &other],
        vec!["explain", &one],
        vec!["show", &one, &other],
        vec!["diff", &one, &other, &other],
    ] {
        let found = run(&words);
        assert_eq!(
            (found.printed.as_str(), found.status),
            ("refused 19 9\n", 1),
            "{words:?}"
        );
        let said = format!(
            "timetable {}: one: refusal 19 9: both events of a precedence are one; the \
             constraint's kind is at offset 9\n  constraint 1, kind precedence: its first and its \
             second event are one, event 2\n  bytes from offset 1: .. 02 00 01 00 01 00 00 01 [0b] \
             00 02 02 00 00\n",
            words[0]
        );
        assert_eq!(found.said, said);
    }
}

#[test]
fn a_formula_that_is_too_large_is_counted() {
    let large = file("oversized", &oversized());
    let found = run(&["text", &large]);
    assert_eq!(found.printed, "refused 8 0\n");
    assert_eq!(below(&found.said), ["it has 8016875"]);
    // 2,000 soft units.
    let soft = "01 01 00 01 00 01 00 D0 0F ".to_string() + &"03 01 01 01 ".repeat(2_000);
    let soft = file("soft-units", &hex(&soft));
    let found = run(&["sizes", &soft, "4095"]);
    assert_eq!(found.printed, "refused 8 0\n");
    assert_eq!(
        below(&found.said),
        ["it has 8194003: 2003 without the tail, and 8192000 of the tail for the bound 4095"]
    );
}

#[test]
fn refused_timetables_and_models_are_told_with_the_file_and_the_reason() {
    let two = file("two-times", &hex("02 01 00 01 00 00 00"));
    let a = file("a", &hex(FILE_A));
    let cut = file("cut", &hex(FILE_A)[..11]);
    for (place, (words, bytes, first, reasons)) in [
        (
            ["score", &cut],
            &[1, 2][..],
            "cut: refusal 1 11: ",
            &[
                "constraint 1, kind preferred-times, group: the number is cut short, overlong or \
               too large",
            ][..],
        ),
        (
            ["score", &a],
            &[1],
            "table-1: refusal 10 2: the length is wrong; 2 bytes are wanted",
            &["it has 1"],
        ),
        (
            ["score", &a],
            &[1, 1, 1, 1],
            "table-2: refusal 10 2: the length is wrong; 2 bytes are wanted",
            &["it has 4, the length of a model: 'timetable decode' takes the timetable out of it"],
        ),
        (
            ["decode", &a],
            &[1, 1],
            "table-3: refusal 10 4: the length is wrong; 4 bytes are wanted",
            &["it has 2, the length of a timetable"],
        ),
        (
            ["score", &a],
            &[1, 2],
            "table-4: refusal 11 1: a byte is above 1; the first is at offset 1",
            &["bytes from offset 0: 01 [02]"],
        ),
        (
            ["score", &a],
            &[0, 0],
            "table-5: refusal 12 1: this is not a timetable; event 1 is the first to break it",
            &["it takes 0 times, its duration is 1"],
        ),
        (
            ["score", &two],
            &[1, 0, 1, 1],
            "table-6: refusal 12 1: ",
            &["it starts at time 2, which it does not take"],
        ),
        (
            ["score", &two],
            &[0, 1, 0, 0],
            "table-7: refusal 12 1: ",
            &["it takes time 2 and not the one before, and does not start there"],
        ),
        (
            ["decode", &a],
            &[1, 0, 1, 1],
            "table-8: refusal 13 2: a hard clause is false; 2 is the lowest such id",
            &["block 1, event 1: it takes time 1 and does not start there"],
        ),
        (
            ["decode", &a],
            &[0, 0, 0, 0],
            "table-9: refusal 13 5: a hard clause is false; 5 is the lowest such id",
            &["block 3, event 1: the number of its times is below 1"],
        ),
    ]
    .into_iter()
    .enumerate()
    {
        let table = file(&format!("table-{place}"), bytes);
        let found = run(&[words[0], words[1], &table]);
        let said = format!("timetable {}: {first}", words[0]);
        assert!(found.said.starts_with(&said), "{}", found.said);
        assert!(below(&found.said).starts_with(reasons), "{}", found.said);
        assert_eq!(found.status, 1);
        let number: String = first.split(' ').skip(2).take(1).collect();
        let printed = format!("refused {number} ");
        assert!(found.printed.starts_with(&printed), "{}", found.printed);
    }
}

/// A model of a school that breaks a hard constraint is told which.
#[test]
fn a_false_clause_is_told_by_its_constraint() {
    // Two events of one resource at one time: a clash that cannot be kept.
    let clash = file("clash", &hex("01 02 01 01 01 01 01 01 01 00 01 01 00 01"));
    // Y, S, X, the two durations' counters, then the clash's counter of two rows and columns.
    let model = file("clashing", &[1, 1, 1, 1, 1, 1, 1, 1, 0, 1, 1]);
    let found = run(&["decode", &clash, &model]);
    assert!(
        found.printed.starts_with("refused 13 "),
        "{}",
        found.printed
    );
    assert_eq!(
        below(&found.said),
        [
            "block 4, constraint 1, kind clash: the number of the resource's events at time 1 is \
          above 1"
        ]
    );
}

/// Each sort of variable of a precedence, and the count, told in words where it is wrong.
#[test]
fn a_false_clause_of_a_precedence_is_told() {
    // Hard, in four times, two events of duration 1 with nothing between them.
    let file_of = hex("04 02 00 01 00 01 00 00 01 0B 00 01 02 00 00");
    let school = file("precedence", &file_of);
    // The events at times 1 and 4: Y, S, and the durations' counters of four rows and two
    // columns; F(1..3), P(2..3), G(2), G(1), Q(1..2), O; then the counter.
    let apart = [1, 0, 0, 0, 0, 0, 0, 1];
    let counters = [1, 0, 1, 0, 1, 0, 1, 0, 0, 0, 0, 0, 0, 0, 1, 0];
    let gap = [0, 0, 0, 0, 0, 0, 0, 1, 1, 1, 1];
    let right = [&apart[..], &apart, &counters, &gap].concat();
    for (variable, reason) in [
        (
            35,
            "the variable for a second event that has begun by time 3 has a wrong value",
        ),
        (
            36,
            "the variable for a second event too soon after time 2 of the first has a wrong value",
        ),
        (
            38,
            "the variable for a first event that goes on after time 2 has a wrong value",
        ),
        (
            39,
            "the variable for a first event that goes on after time 1 has a wrong value",
        ),
        (
            40,
            "the variable for a second event too late after a first that ends by time 1 has a \
             wrong value",
        ),
        (42, "the variable for a gap outside has a wrong value"),
        (43, "its counter, in row 1, column 1, has a wrong value"),
        (
            0,
            "the number of gaps outside between the two events is above 0",
        ),
    ] {
        let mut model = right.clone();
        if variable > 0 {
            model[variable - 1] ^= 1;
        }
        let name = file(&format!("precedence-{variable}"), &model);
        let found = run(&["decode", &school, &name]);
        let said = format!("block 4, constraint 1, kind precedence: {reason}");
        assert_eq!(below(&found.said), [said]);
        assert!(found.printed.starts_with("refused 13 "));
    }
}

/// Each variable of a preferred time, and the count, told in words where it is wrong.
#[test]
fn a_false_clause_of_preferred_times_is_told() {
    // Hard, in three times, an event of duration 2, with the group of time 1.
    let file_of = hex("03 01 00 02 00 01 01 01 01 03 00 01 01");
    let school = file("preferred", &file_of);
    // A double at times 2 and 3: Y, S and the duration's counter of three rows and columns;
    // M(3), C(3), D(3); then the counter of two rows over S(2), D(3).
    let right = [0, 1, 1, 0, 1, 0, 0, 0, 0, 1, 0, 0, 1, 1, 0, 1, 1, 1, 1, 1];
    for (variable, reason) in [
        (
            16,
            "the variable for a subevent that goes on at time 3 has a wrong value",
        ),
        (
            17,
            "the variable for a subevent that starts outside the group and goes on at time 3 \
             has a wrong value",
        ),
        (
            18,
            "the variable for a subevent that starts outside the group and holds time 3 has a \
             wrong value",
        ),
        (20, "its counter, in row 2, column 1, has a wrong value"),
        (
            0,
            "the number of the event's times in subevents that start outside the group is above 0",
        ),
    ] {
        let mut model = right;
        if variable > 0 {
            model[variable - 1] ^= 1;
        }
        let name = file(&format!("preferred-{variable}"), &model);
        let found = run(&["decode", &school, &name]);
        let said = format!("block 4, constraint 1, kind preferred-times: {reason}");
        assert_eq!(below(&found.said), [said]);
        assert!(found.printed.starts_with("refused 13 "));
    }
}

#[test]
fn a_refused_model_writes_no_timetable() {
    let a = file("a-to-decode", &hex(FILE_A));
    let model = file("falsifying", &[1, 1, 1, 0]);
    let found = run(&["decode", &a, &model, "--out", "not-written"]);
    assert_eq!(
        (found.printed.as_str(), found.status),
        ("refused 13 6\n", 1)
    );
    assert!(!folder().join("not-written").exists());
}

#[test]
fn refused_steps_are_told_with_what_is_wrong() {
    let a = file("a-to-check", &hex(FILE_A));
    let longer = format!("{PROOF_A} 00");
    for (place, (bound, proof, printed, reason)) in [
        (
            "4",
            PROOF_A,
            "refused 14 1\n",
            "it adds the id 17, which is not above 18, the highest so far; the formula has 18 \
             clauses: was the proof made for another bound?",
        ),
        (
            "3",
            "61 11 06 00 05 00 61 11 00 05 00",
            "refused 14 2\n",
            "it adds the id 17, which is not above 17, the highest so far",
        ),
        (
            "3",
            "62 11 00 05 00",
            "refused 14 1\n",
            "it begins with the byte 62; a step begins with 61 (a) or 64 (d)",
        ),
        (
            "3",
            "61 11 00 05",
            "refused 14 1\n",
            "the proof ends in the midst of it",
        ),
        (
            "3",
            "61 11 80 00 00 05 00",
            "refused 14 1\n",
            "its number at offset 2 is cut short, overlong or too large",
        ),
        (
            "3",
            "61 11 01 00 05 00",
            "refused 14 1\n",
            "its literal 1 is of no variable",
        ),
        (
            "3",
            "61 11 12 00 05 00",
            "refused 14 1\n",
            "it names variable 9; the formula has 8: was the proof made for another bound?",
        ),
        (
            "3",
            "61 11 06 07 00 05 00",
            "refused 14 1\n",
            "it names variable 3 twice",
        ),
        (
            "3",
            "61 11 06 00 05 00 64 05 05 00",
            "refused 15 2\n",
            "id 2 of 2 is 5, which it names twice",
        ),
        (
            "3",
            "64 05 00 61 11 06 00 05 00",
            "refused 15 2\n",
            "hint 1 of 1 is 5, which step 1 has deleted",
        ),
        (
            "3",
            "61 11 00 05 04 20 00",
            "refused 15 1\n",
            "hint 3 of 3 is 32, which has not been added",
        ),
        (
            "4",
            "61 13 00 05 04 02 06 0E 10 00",
            "refused 16 1\n",
            "hint 6 of 6, clause 16 (the tail), is true already, by 4",
        ),
        (
            "3",
            "61 11 00 05 04 02 06 00",
            "refused 16 1\n",
            "hint 4 of 4, clause 6 (block 4, constraint 1, kind preferred-times), has 1 open \
             literal; the last must be false",
        ),
        (
            "3",
            "61 11 00 05 04 06 0E 10 00",
            "refused 16 1\n",
            "hint 3 of 5, clause 6 (block 4, constraint 1, kind preferred-times), has 2 open \
             literals; 1 is wanted",
        ),
        (
            "3",
            "61 11 00 01 05 00",
            "refused 16 1\n",
            "hint 1 of 2, clause 1 (block 1, event 1), has 2 open literals; 1 is wanted",
        ),
        (
            "3",
            "61 11 07 00 05 04 00",
            "refused 16 1\n",
            "hint 1 of 2, clause 5 (block 3, event 1), is true already, by 3",
        ),
        (
            "3",
            "61 11 06 00 05 04 00",
            "refused 16 1\n",
            "hint 1 of 2, clause 5 (block 3, event 1), is false before the last hint",
        ),
        ("3", "61 11 06 00 00", "refused 16 1\n", "it has no hint"),
        (
            "3",
            "61 11 06 00 05 00 61 12 02 00 11 00",
            "refused 16 2\n",
            "hint 1 of 1, clause 17 (step 1), has 1 open literal; the last must be false",
        ),
        (
            "3",
            &longer,
            "refused 18 1\n",
            "step 1 adds the empty clause; bytes after it: 1",
        ),
        (
            "3",
            "61 11 06 00 05 00",
            "refused 18 1\n",
            "the proof ends, and no step has added the empty clause: is it cut short?",
        ),
        (
            "3",
            "",
            "refused 18 0\n",
            "the proof ends, and no step has added the empty clause: is it cut short?",
        ),
    ]
    .into_iter()
    .enumerate()
    {
        let name = file(&format!("proof-{place}"), &hex(proof));
        let found = run(&["check", &a, bound, &name]);
        assert_eq!(
            (found.printed.as_str(), found.status),
            (printed, 1),
            "{proof}"
        );
        assert_eq!(below(&found.said)[0], reason, "{proof}");
    }
}

#[test]
fn a_step_is_told_with_its_place() {
    let a = file("a-with-a-proof", &hex(FILE_A));
    let proof = file("deleting-twice", &hex("61 11 06 00 05 00 64 05 05 00"));
    assert_eq!(
        run(&["check", &a, "3", &proof]).said,
        "timetable check: deleting-twice: refusal 15 2: a hint or deletion names a clause that \
         is not live; step 2, which starts at offset 6\n  \
         id 2 of 2 is 5, which it names twice\n  \
         bytes from offset 0: 61 11 06 00 05 00 [64] 05 05 00\n"
    );
    let found = run(&["check", &a, "4096", "-"]);
    assert_eq!(found.printed, "refused 7 4096\n");
    assert!(found.said.starts_with("timetable check: bound 4096: "));
}

/// What `model` says of a text for file A, which has four variables: the line for
/// scripts, and the reason.
#[test]
fn refused_texts_of_solvers_are_told_by_line_and_column() {
    let a = file("a-of-texts", &hex(FILE_A));
    for (place, (text, printed, reason)) in [
        (
            "v1 2 3 4\n",
            "refused 20 1\n",
            "line 1, column 2: after v comes '1', not a space",
        ),
        (
            "c x\nv\t1\n",
            "refused 20 5\n",
            "line 2, column 2: after v comes '\\t', not a space",
        ),
        (
            "$ solver\nv 1 2 3 0\n",
            "refused 20 0\n",
            "line 1, column 1: the line begins with '$', not with c, s, o or v",
        ),
        (
            "s SATISFIABLE\n\nv 1 2 3 0\n",
            "refused 20 14\n",
            "line 2, column 1: the line is empty; each begins with c, s, o or v",
        ),
        (
            "v 1\nv 2 3x 4\n",
            "refused 20 8\n",
            "line 2, column 5: '3x' is no literal: a minus or no sign, and a number without \
             leading zeros",
        ),
        (
            "v 1 2 3 4 -0\n",
            "refused 20 10\n",
            "line 1, column 11: '-0' is no literal: a minus or no sign, and a number without \
             leading zeros",
        ),
        (
            "v 1 2 3 4\r\n",
            "refused 20 8\n",
            "line 1, column 9: '4\\r' is no literal: a minus or no sign, and a number without \
             leading zeros",
        ),
        (
            "v 1 2 3 5 0\n",
            "refused 20 8\n",
            "line 1, column 9: '5' is out of range: the variables are 1 to 4",
        ),
        (
            "v 1 2 3 -1234567890123456789012345 0\n",
            "refused 20 8\n",
            "line 1, column 9: '-12345678901234567890123..' is out of range: the variables are 1 \
             to 4",
        ),
        (
            "v 1 2 3 0\nv 4 0\n",
            "refused 20 12\n",
            "line 2, column 3: '4' comes after the closing 0 of line 1, column 9",
        ),
        (
            "v 1 2 3 4 0 0\n",
            "refused 20 12\n",
            "line 1, column 13: '0' comes after the closing 0 of line 1, column 11",
        ),
        (
            "v 1 4 3 0\n",
            "refused 21 2\n",
            "variable 2 is missing in the lines v",
        ),
        (
            "c x\nv 1 2 3",
            "refused 21 4\n",
            "variable 4 is missing in the lines v, and so is a closing 0: is the text cut short?",
        ),
        (
            "v 4 2 3 4\nv 1 -4\n",
            "refused 21 4\n",
            "variable 4 is given 3 times, the second time in line 1, column 9",
        ),
        (
            "v 1 2 3 -4\n",
            "refused 13 6\n",
            "block 4, constraint 1, kind preferred-times: its counter, in row 1, column 1, has a \
             wrong value",
        ),
    ]
    .into_iter()
    .enumerate()
    {
        let name = file(&format!("text-{place}"), text.as_bytes());
        let found = run(&["model", &a, &name, "-o", "no-model"]);
        assert_eq!(
            (found.printed.as_str(), found.status),
            (printed, 1),
            "{text}"
        );
        let said = format!("timetable model: {name}: refusal ");
        assert!(found.said.starts_with(&said), "{}", found.said);
        assert_eq!(below(&found.said)[0], reason, "{text}");
        assert!(!folder().join("no-model").exists(), "{text}");
    }
}

/// Of several models the last is read, and its faults are told by their places in
/// the whole text.
#[test]
fn the_last_of_several_models_is_told_by_its_place_in_the_text() {
    let a = file("a-of-models", &hex(FILE_A));
    for (place, (last, printed, reason)) in [
        (
            "v 1 2\nv 03 4 0\n",
            "refused 20 28\n",
            "line 5, column 3: '03' is no literal: a minus or no sign, and a number without \
             leading zeros",
        ),
        (
            "v 1 2\nv 3 2 4 0\n",
            "refused 21 2\n",
            "variable 2 is given 2 times, the second time in line 5, column 5",
        ),
        (
            "v 1 2 4 0\n",
            "refused 21 3\n",
            "variable 3 is missing in the lines v",
        ),
        (
            "v -1 2 3 4 0\n",
            "refused 13 1\n",
            "block 1, event 1: it starts at time 1 and does not take it",
        ),
    ]
    .into_iter()
    .enumerate()
    {
        let text = format!("c x\nv 1 2 3 4 0\no 4\n{last}s OPTIMUM FOUND\n");
        let name = file(&format!("models-{place}"), text.as_bytes());
        let found = run(&["model", &a, &name]);
        assert_eq!(
            (found.printed.as_str(), found.status),
            (printed, 1),
            "{text}"
        );
        assert_eq!(below(&found.said)[0], reason, "{text}");
    }
}

#[test]
fn a_place_in_a_text_is_told_with_its_bytes() {
    let a = file("a-with-a-text", &hex(FILE_A));
    let text = file("malformed-text", b"s OPTIMUM FOUND\nv 1 +2 3 4 0\n");
    assert_eq!(
        run(&["model", &a, &text]).said,
        "timetable model: malformed-text: refusal 20 20: a solver's text has a line of another \
         kind, a literal out of range or malformed, or a number after the 0; it is at offset 20\n  \
         line 2, column 5: '+2' is no literal: a minus or no sign, and a number without leading \
         zeros\n  \
         bytes from offset 12: .. 55 4e 44 0a 76 20 31 20 [2b] 32 20 33 20 34 20 30 0a\n"
    );
}

#[test]
fn a_file_of_another_sort_is_recognised() {
    let a = file("a-of-bytes", &hex(FILE_A));
    let text = file("some-text", b"s OPTIMUM FOUND\nv 1 2 3 4 0\n");
    let xml = file(
        "some-xml",
        b"<?xml version=\"1.0\"?>\n<fet version=\"6.8\">\n",
    );
    let drat = file("binary-drat", &[b'a', 6, 0, b'd', 2, 5, 0, b'a', 0]);
    for (words, said) in [
        (
            vec!["read", &text],
            "this is text: 'timetable compile' makes an instance of a school's text",
        ),
        (
            vec!["read", &xml],
            "this is XML: 'timetable import' makes an instance of it",
        ),
        (
            vec!["decode", &a, &text],
            "this is text: 'timetable model' makes a model of what a solver prints",
        ),
        (
            vec!["score", &a, &text],
            "this is text: a timetable is what 'timetable decode' writes",
        ),
        (
            vec!["check", &a, "3", &text],
            "this is text: 'timetable steps' makes steps of a solver's proof",
        ),
        (
            vec!["check", &a, "3", &drat],
            "this can be read as a solver's binary DRAT proof: 'timetable steps' makes steps of it",
        ),
    ] {
        let found = run(&words);
        assert_eq!(found.status, 1);
        assert!(below(&found.said).contains(&said), "{}", found.said);
        let (_, name) = said.split_once("'timetable ").expect("a call");
        let (name, _) = name.split_once('\'').expect("its end");
        assert!(SUBCOMMANDS.iter().any(|known| known.name == name), "{name}");
    }
}

#[test]
fn every_refusal_is_told_in_words_with_its_numbers() {
    let mut told = Vec::new();
    for number in 1..=22 {
        let value = 1_000 + u64::from(number);
        let message = refusals::in_words(Refusal { number, value }, &[], &[]);
        assert!(message.starts_with(&format!("refusal {number} {value}: ")));
        assert!(message.contains(refusals::words(number)), "{message}");
        assert!(!message.contains("{}"), "{message}");
        // A value that says something is told a second time, in words.
        let says_nothing = [8, 9].contains(&number);
        assert_eq!(
            message.matches(&value.to_string()).count(),
            if says_nothing { 1 } else { 2 },
            "{message}"
        );
        assert_eq!(
            message.contains("[end]"),
            [1, 2, 3, 4, 5, 6, 11, 19, 20, 22].contains(&number),
            "{message}"
        );
        told.push(refusals::words(number));
    }
    told.sort_unstable();
    told.dedup();
    assert_eq!(told.len(), 22);
}
