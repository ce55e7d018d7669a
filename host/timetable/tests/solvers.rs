//! What solvers print and write, recorded (`recorded/`), through the command.
#![cfg(feature = "engine")]

mod support;

use std::fs;
use support::{file, folder, hex, recorded, run, run_with, school, FILE_A, PROOF_A};
use timetable::number::write_number;

#[test]
fn dimacs_writes_the_clauses_with_the_tail() {
    let a = file("a", &hex(FILE_A));
    let hard = "1 -2 0\n-1 2 0\n-1 3 0\n1 -3 0\n3 0\n-2 4 0\n2 -4 0\n";
    let found = run(&["dimacs", &a]);
    assert_eq!(found.printed, format!("p cnf 4 7\n{hard}"));
    let tail = "-4 5 0\n4 -5 0\n-4 6 0\n4 -6 0\n-4 7 0\n4 -7 0\n-4 8 0\n4 -8 0\n-8 0\n";
    let found = run(&["dimacs", &a, "3"]);
    assert_eq!(found.printed, format!("p cnf 8 16\n{hard}{tail}"));
    assert_eq!((found.said.as_str(), found.status), ("", 0));
    assert_eq!(run(&["dimacs", &a, "4096"]).printed, "refused 7 4096\n");
}

#[test]
fn dimacs_has_the_sizes_that_the_engine_gives() {
    for name in ["toy.instance", "small.instance"] {
        for bound in ["0", "3", "40"] {
            let text = run(&["dimacs", &school(name), bound]).printed;
            let words: usize = text
                .lines()
                .skip(1)
                .map(|line| line.split(' ').count() - 1)
                .sum();
            let header: Vec<&str> = text.lines().next().unwrap_or("").split(' ').collect();
            let sizes = run(&["sizes", &school(name), bound]).printed;
            let expected = format!(
                "variables {}\nclauses {}\nwords {words}\n",
                header[2], header[3]
            );
            assert_eq!(sizes, expected, "{name} {bound}");
            assert_eq!(text.lines().count() - 1, header[3].parse().unwrap());
        }
    }
}

#[test]
fn every_recorded_model_is_decoded() {
    for name in [
        "clasp.out",
        "cadical-3.out",
        "picosat-3.out",
        "minisat-3.out",
        "z3-3.out",
        "z3.out",
        "cryptominisat-3.out",
    ] {
        let model = format!("{name}.model");
        let toy = school("toy.instance");
        let found = run(&["model", &toy, &recorded(name), "--out", &model]);
        assert_eq!((found.printed.as_str(), found.status), ("", 0), "{name}");
        let found = run(&["decode", &toy, &model]);
        assert_eq!(found.printed, "objective 3\nbytes 108\n", "{name}");
    }
}

/// clasp prints a model for each better cost; the engine reads the lines of the last.
#[test]
fn the_last_of_clasps_models_is_read_by_the_engine() {
    let toy = school("toy.instance");
    let output = fs::read_to_string(recorded("clasp.out")).expect("a recording");
    let (earlier, last) = output.split_once("c Answer: 4\n").expect("four models");
    let model = |name: &str, output: String| {
        run(&[
            "model",
            &toy,
            &file(name, output.as_bytes()),
            "-o",
            "of-clasp",
        ])
    };
    // What stands before the last model does not matter.
    let damaged = earlier.replace("v -1 ", "v 1 ");
    assert_ne!(damaged, earlier);
    let found = model("damaged-earlier", format!("{damaged}c Answer: 4\n{last}"));
    assert_eq!((found.printed.as_str(), found.status), ("", 0));
    let found = run(&["decode", &toy, "of-clasp"]);
    assert_eq!(found.printed, "objective 3\nbytes 108\n");
    for (name, before, after, printed) in [
        (
            "one-twice",
            "-1289 0\n",
            "-1289 -1289 0\n",
            "refused 21 1289\n",
        ),
        ("one-missing", " -1289 0\n", " 0\n", "refused 21 1289\n"),
        ("one-wrong", "-1289 0\n", "1289 0\n", "refused 13 "),
    ] {
        let damaged = last.replace(before, after);
        let found = model(name, format!("{earlier}c Answer: 4\n{damaged}"));
        assert!(
            found.printed.starts_with(printed),
            "{name}: {}",
            found.printed
        );
        assert_eq!(found.status, 1, "{name}");
    }
}

/// Variables of a tail are passed over where every variable of the model is named.
#[test]
fn the_variables_of_a_tail_are_passed_over() {
    let a = file("a-with-a-tail", &hex(FILE_A));
    let found = run_with(&["model", &a, "-"], b"s SATISFIABLE\nv 1 2 3 4 5\nv -6 0\n");
    assert_eq!(found.printed.as_bytes(), [1, 1, 1, 1]);
    let found = run_with(&["model", &a, "-"], b"s SATISFIABLE\nv 1 2 3 5\nv -6 0\n");
    assert_eq!(
        (found.printed.as_str(), found.status),
        ("refused 20 22\n", 1)
    );
}

#[test]
fn an_output_without_a_model_is_told() {
    for name in [
        "clasp-2.out",
        "cadical-2.out",
        "picosat-2.out",
        "minisat-2.out",
    ] {
        let found = run(&["model", &school("toy.instance"), &recorded(name)]);
        assert_eq!((found.printed.as_str(), found.status), ("", 1), "{name}");
        let said = "timetable model: the solver says that the clauses have no model\n";
        assert_eq!(found.said, said, "{name}");
    }
    let found = run_with(&["model", &school("toy.instance"), "-"], b"c nothing\n");
    assert_eq!(found.status, 1);
    assert!(found.said.contains("there is no model"), "{}", found.said);
}

#[test]
fn every_recorded_proof_is_turned_and_accepted() {
    for name in ["cadical-2.drat", "cadical-2.text.drat", "picosat-2.rup"] {
        let toy = school("toy.instance");
        let steps = format!("{name}.proof");
        let found = run(&["steps", &toy, "2", &recorded(name), "-o", &steps]);
        assert_eq!((found.printed.as_str(), found.status), ("", 0), "{name}");
        let found = run(&["check", &toy, "2", &steps]);
        assert!(
            found.printed.starts_with("no timetable\nbound 2\n"),
            "{name}"
        );
        let bytes = fs::read(folder().join(&steps)).expect("the steps");
        assert!(bytes.contains(&b'd'), "{name} has no deletion");
    }
}

#[test]
fn a_recorded_proof_against_the_hard_clauses_shows_none_at_all() {
    let [instance, steps] = ["crowded.instance", "crowded.proof"];
    let found = run(&["compile", &recorded("crowded.school"), "-o", instance]);
    assert_eq!(found.status, 0, "{}", found.said);
    let proof = recorded("crowded-cadical.drat");
    let found = run(&["steps", instance, "none", &proof, "-o", steps]);
    assert_eq!((found.printed.as_str(), found.status), ("", 0));
    let found = run(&["check", instance, "none", steps]);
    assert_eq!(found.printed, "no timetable at all\nsteps 119\n");
    // The first id is the next after the hard clauses' ids, so with a tail it is a tail's.
    let clauses = run(&["dimacs", instance]).printed.lines().count() - 1;
    let mut first = vec![b'a'];
    write_number(clauses as u32 + 1, &mut first);
    let bytes = fs::read(folder().join(steps)).expect("the steps");
    assert!(bytes.starts_with(&first), "{bytes:?}");
    for bound in ["0", "4095"] {
        let found = run(&["check", instance, bound, steps]);
        assert_eq!(found.printed, "refused 14 1\n", "{bound}");
    }
    // It says nothing of a school that has a timetable.
    let toy = school("toy.instance");
    let found = run(&["steps", &toy, "none", &proof]);
    assert_eq!((found.printed.as_str(), found.status), ("", 1));
    let found = run(&["check", &toy, "none", steps]);
    assert_eq!(found.status, 1, "{}", found.printed);
}

#[test]
fn a_proof_at_another_bound_is_rejected() {
    for name in ["cadical-2.drat", "picosat-2.rup"] {
        let found = run(&["steps", &school("toy.instance"), "3", &recorded(name)]);
        assert_eq!((found.printed.as_str(), found.status), ("", 1), "{name}");
        assert!(
            found.said.contains("another file or bound"),
            "{}",
            found.said
        );
    }
}

#[test]
fn a_proof_that_is_no_solvers_is_rejected() {
    let a = file("a.instance", &hex(FILE_A));
    let proof = file("a.proof", &hex(PROOF_A));
    let words = file("words", b"this is no proof\n");
    // The engine's own steps are spelt as binary LRAT is, so they are accepted.
    let found = run(&["steps", &a, "3", &proof, "-o", "again.proof"]);
    assert_eq!(found.status, 0, "{}", found.said);
    assert!(run(&["check", &a, "3", "again.proof"])
        .printed
        .starts_with("no timetable"));
    let found = run(&["steps", &a, "3", &words]);
    assert_eq!(found.status, 1);
    assert!(found.said.contains("'this'"), "{}", found.said);
    let found = run(&["steps", &school("toy.instance"), "2", &file("empty", b"")]);
    assert_eq!(found.status, 1);
    assert!(found.said.contains("no conflict"), "{}", found.said);
}
