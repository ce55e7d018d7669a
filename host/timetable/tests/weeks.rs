//! `timetable solve` with stand-ins for solvers: shell scripts that print and
//! write what solvers did (`recorded/`), or what no honest solver does.
#![cfg(feature = "engine")]

mod support;

use std::fs;
use std::io::Read;
use std::process::Stdio;
use std::thread;
use std::time::{Duration, Instant};
use support::{command, file, folder, hex, recorded, run, school, stand_ins, Run, FILE_A};

/// clasp with its models of the toy school.
const CLASP: (&str, &str) = ("clasp", "cat \"$R/clasp.out\"");
/// cadical with its answers at the bounds 3, 2 and 1; it is called with -t, a
/// limit, -q, the clauses and the proof.
const CADICAL: (&str, &str) = (
    "cadical",
    "case $4 in
     *bound-1.cnf) cp \"$R/cadical-1.drat\" \"$5\"; cat \"$R/cadical-1.out\" ;;
     *bound-2.cnf) cp \"$R/cadical-2.drat\" \"$5\"; cat \"$R/cadical-2.out\" ;;
     *) cat \"$R/cadical-3.out\" ;;
     esac",
);

/// cadical with its proof against the hard clauses of the crowded school.
const CROWDED: (&str, &str) = (
    "cadical",
    "cp \"$R/crowded-cadical.drat\" \"$5\"; cat \"$R/crowded-cadical.out\"",
);

/// Solves the toy school.
fn solve(solvers: &str, out: &str, more: &[&str]) -> Run {
    solve_file(&school("toy.instance"), solvers, out, more)
}

fn solve_file(instance: &str, solvers: &str, out: &str, more: &[&str]) -> Run {
    let words = ["solve", instance, "--solver", solvers, "--out", out];
    run(&[&words[..], more].concat())
}

#[test]
fn a_week_ends_with_the_engines_answers() {
    let solvers = stand_ins("both", &[CLASP, CADICAL]);
    let found = solve(&solvers, "both-out", &["--time", "18446744073709551615"]);
    assert_eq!(
        found.printed,
        "costs 3; none at 2 or less, checked\n\
         model both-out/best.model\n\
         timetable both-out/best.timetable\n\
         proof both-out/bound-2.proof\n"
    );
    assert_eq!(found.status, 0);
    assert!(found.said.contains("best cost"), "{}", found.said);
    let toy = school("toy.instance");
    let decoded = run(&["decode", &toy, "both-out/best.model"]);
    assert_eq!(decoded.printed, "objective 3\nbytes 108\n");
    let scored = run(&["score", &toy, "both-out/best.timetable"]);
    assert_eq!(scored.printed, "infeasibility 0\nobjective 3\n");
    let checked = run(&["check", &toy, "2", "both-out/bound-2.proof"]);
    assert!(checked.printed.starts_with("no timetable\n"));
}

#[test]
fn a_week_without_an_optimiser_asks_for_less_and_less() {
    let solvers = stand_ins("alone", &[CADICAL]);
    // First the middle of what is open, 1, and then 2.
    let found = solve(&solvers, "alone-out", &["--json"]);
    assert!(
        found.printed.contains("\"cost\":3,\"refuted\":2,"),
        "{}",
        found.printed
    );
    assert_eq!(found.status, 0, "{}", found.said);
}

#[test]
fn none_at_all_is_told_whatever_the_wishes_weigh() {
    let crowded = "crowded.instance";
    let found = run(&["compile", &recorded("crowded.school"), "-o", crowded]);
    assert_eq!(found.status, 0, "{}", found.said);
    let solvers = stand_ins("crowded", &[CROWDED]);
    let found = solve_file(crowded, &solvers, "crowded-out", &[]);
    assert_eq!(
        found.printed,
        "no timetable keeps the hard constraints, whatever it costs, checked\n\
         proof crowded-out/hard.proof\n"
    );
    assert_eq!(found.status, 0, "{}", found.said);
    let checked = run(&["check", crowded, "none", "crowded-out/hard.proof"]);
    assert!(checked.printed.starts_with("no timetable at all\n"));
    let found = solve_file(crowded, &solvers, "crowded-out", &["--json"]);
    let none = "\"settled\":true,\"interrupted\":false,\"none_at_all\":true,\"steps\":119,";
    assert!(found.printed.contains(none), "{}", found.printed);
    assert!(!found.printed.contains("refuted"), "{}", found.printed);
}

#[test]
fn none_at_all_is_not_told_on_a_solvers_word() {
    let silent = ("cadical", "echo 's UNSATISFIABLE'");
    for (name, solver) in [("other-proof", CROWDED), ("silent", silent)] {
        let solvers = stand_ins(name, &[solver]);
        let found = solve(&solvers, &format!("{name}-out"), &[]);
        let nothing = "no timetable found; nothing refuted\n";
        assert_eq!((found.printed.as_str(), found.status), (nothing, 3));
        assert!(found.said.lines().count() > 1, "{name}: {}", found.said);
    }
}

#[test]
fn a_cost_that_no_bound_reaches_is_left_open() {
    // File A with five wishes that weigh 1,000 each, and that its one timetable breaks.
    let wishes = "03 E8 07 01 01 ".repeat(5);
    let dear = file("dear", &hex(&format!("01 01 00 01 00 01 00 05 {wishes}")));
    let clasp = (
        "clasp",
        "echo 's OPTIMUM FOUND'; echo 'v 1 2 3 4 5 6 7 8 0'",
    );
    let cadical = ("cadical", "echo 0 >\"$5\"; echo 's UNSATISFIABLE'");
    let solvers = stand_ins("dear-solvers", &[clasp, cadical]);
    let found = solve_file(&dear, &solvers, "dear-out", &[]);
    let open = "costs 5000; none at 4095 or less, checked; open from 4096 to 4999\n";
    assert!(found.printed.starts_with(open), "{}", found.printed);
    assert_eq!(found.status, 3);
    let note = "no bound above 4095 can be asked\n";
    assert!(found.said.contains(note), "{}", found.said);
}

#[test]
fn without_proofs_the_gap_is_told() {
    let solvers = stand_ins("clasp-only", &[CLASP]);
    let found = solve(&solvers, "clasp-only-out", &[]);
    assert!(
        found
            .printed
            .starts_with("costs 3; nothing refuted; open from 0 to 2\n"),
        "{}",
        found.printed
    );
    assert_eq!(found.status, 3);
    assert!(
        found.said.contains("no solver that writes proofs"),
        "{}",
        found.said
    );
}

#[test]
fn a_solvers_word_is_not_taken() {
    let liars = [
        ("no-proof", "echo 's UNSATISFIABLE'"),
        (
            "no-conflict",
            "printf 'a\\002\\000' >\"$5\"; echo 's UNSATISFIABLE'",
        ),
        ("words", "echo 'trust me' >\"$5\"; echo 's UNSATISFIABLE'"),
        (
            "other-bound",
            "cp \"$R/picosat-2.rup\" \"$5\"; sed -i 1,900d \"$5\"; echo 's UNSATISFIABLE'",
        ),
        ("wrong-model", "echo 's SATISFIABLE'; echo 'v 1 2 3 0'"),
        ("nothing", "exit 1"),
    ];
    for (name, script) in liars {
        let solvers = stand_ins(name, &[CLASP, ("cadical", script)]);
        let found = solve(&solvers, &format!("{name}-out"), &[]);
        // What propagation alone refutes, it refutes whatever the solver writes.
        assert!(
            found.printed.starts_with("costs 3; "),
            "{name}: {}",
            found.printed
        );
        assert!(
            found.printed.contains("; open from "),
            "{name}: {}",
            found.printed
        );
        assert_eq!(found.status, 3, "{name}");
        assert!(
            found.said.lines().count() > 1,
            "{name} is passed over in silence"
        );
    }
}

/// A solver's model is read by the engine, and what it refuses is told in words.
#[test]
fn a_refused_model_is_told_with_the_reason() {
    let a = file("a.instance", &hex(FILE_A));
    for (name, line, note) in [
        ("costs", "v 1 2 3 4 0", ""),
        (
            "twice",
            "v 1 2 3 3 4 0",
            "refused 21 3: variable 3 is given 2 times, the second time in line 1, column 9\n",
        ),
        (
            "missing",
            "v 1 2 4 0",
            "refused 21 3: variable 3 is missing in the lines v\n",
        ),
        (
            "zeros",
            "v 01 2 3 4 0",
            "refused 20 2: line 1, column 3: '01' is no literal: a minus or no sign, and a number \
             without leading zeros\n",
        ),
        (
            "false",
            "v 1 -2 3 4 0",
            "refused 13 2: block 1, event 1: it takes time 1 and does not start there\n",
        ),
    ] {
        let script = format!("echo 's OPTIMUM FOUND'; echo '{line}'");
        let solvers = stand_ins(name, &[("clasp", &script)]);
        let found = solve_file(&a, &solvers, &format!("{name}-out"), &[]);
        let known = match note {
            "" => "costs 4; nothing refuted; open from 0 to 3\n",
            _ => "no timetable found; nothing refuted\n",
        };
        assert!(found.printed.starts_with(known), "{}", found.printed);
        let refused = "the engine refuses a solver's model: ";
        assert_eq!(found.said.contains(refused), !note.is_empty());
        assert!(found.said.contains(note), "{}", found.said);
    }
}

#[test]
fn the_time_is_kept() {
    let slow = ("cadical", "exec sleep 600");
    let solvers = stand_ins("slow", &[CLASP, slow]);
    let started = Instant::now();
    let found = solve(&solvers, "slow-out", &["--time", "6"]);
    assert!(started.elapsed() < Duration::from_secs(60));
    assert!(
        found.printed.starts_with("costs 3; nothing refuted;"),
        "{}",
        found.printed
    );
    assert_eq!(found.status, 3);
}

#[test]
fn interrupted_it_keeps_what_it_has_and_says_so() {
    let slow = ("cadical", "exec sleep 600");
    let solvers = stand_ins("interrupted", &[CLASP, slow]);
    let out = "interrupted-out";
    let _ = fs::remove_dir_all(folder().join(out));
    let toy = school("toy.instance");
    let words = ["solve", &toy, "--solver", &solvers, "--out", out];
    let mut child = command(&words)
        .stdin(Stdio::null())
        .stdout(Stdio::piped())
        .stderr(Stdio::null())
        .spawn()
        .expect("the command starts");
    let model = folder().join(out).join("best.timetable");
    let started = Instant::now();
    while !model.is_file() && started.elapsed() < Duration::from_secs(60) {
        thread::sleep(Duration::from_millis(20));
    }
    // What ends the first process for good ends it as a key press would.
    child.kill().expect("the command runs");
    child.wait().expect("the command ends");
    let mut printed = String::new();
    let mut stdout = child.stdout.take().expect("its standard output");
    stdout.read_to_string(&mut printed).expect("text");
    assert!(printed.starts_with("interrupted\ncosts "), "{printed}");
    assert!(
        printed.contains("timetable interrupted-out/best.timetable\n"),
        "{printed}"
    );
}

#[test]
fn a_file_that_is_refused_starts_no_solver() {
    let solvers = stand_ins("refused", &[CLASP, CADICAL]);
    let cut = support::file("cut.instance", &[1, 1]);
    let found = run(&["solve", &cut, "--solver", &solvers, "--out", "refused-out"]);
    assert_eq!((found.printed.as_str(), found.status), ("refused 1 2\n", 1));
    assert!(!folder().join("refused-out").exists());
}

#[test]
fn wrong_solvers_are_told() {
    let found = solve("gurobi", "wrong-out", &[]);
    assert_eq!(found.status, 2);
    assert!(found.said.contains("'gurobi' is none of"), "{}", found.said);
    let found = solve("clasp", "-", &[]);
    assert_eq!(found.status, 2);
    assert!(found.said.contains("wants a folder"), "{}", found.said);
    let found = solve("./no-such-folder/cadical", "missing-out", &[]);
    assert_eq!(found.status, 2);
    assert!(
        found.said.contains("./no-such-folder/cadical: "),
        "{}",
        found.said
    );
}
