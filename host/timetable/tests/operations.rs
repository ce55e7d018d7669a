//! The subcommands over the engine's operations, run as a program.
#![cfg(feature = "engine")]

mod support;

use std::fs;
use std::process::Command;
use support::{
    file, folder, hex, oversized, program, repository, run, school, schools, Run, FILE_A,
};

/// The text of file A.
const TEXT_A: &str = "\
p wcnf 4 8 5
5 1 -2 0
5 -1 2 0
5 -1 3 0
5 1 -3 0
5 3 0
5 -2 4 0
5 2 -4 0
4 -4 0
";

#[test]
fn read_prints_the_counts_of_an_accepted_file() {
    let found = run(&["read", &school("toy.instance")]);
    assert_eq!(
        found.printed,
        "accepted\ntimes 9\nevents 6\nresources 5\ngroups 7\nconstraints 43\n"
    );
    assert_eq!((found.said.as_str(), found.status), ("", 0));
}

#[test]
fn sizes_prints_what_to_lend() {
    let found = run(&["sizes", &school("toy.instance"), "2"]);
    assert_eq!(found.printed, "variables 1466\nclauses 4759\nwords 11943\n");
    assert_eq!((found.said.as_str(), found.status), ("", 0));
    let found = run(&["sizes", &school("toy.instance"), "4096"]);
    assert_eq!(
        found,
        Run {
            printed: "refused 7 4096\n".to_string(),
            said: "timetable sizes: bound 4096: refusal 7 4096: the bound is above 4,095; \
                   it is 4096\n"
                .to_string(),
            status: 1,
        }
    );
    let large = file("oversized", &oversized());
    let found = run(&["sizes", &large, "0"]);
    assert_eq!(found.printed, "refused 8 0\n");
    let said = "timetable sizes: oversized: refusal 8 0: the formula has more than 8,000,000 \
                variables\n  it has 8016875: 8016875 without the tail, and 0 of the tail for \
                the bound 0\n";
    assert_eq!((found.said.as_str(), found.status), (said, 1));
}

#[test]
fn score_prints_both_amounts() {
    let toy = [school("toy.instance"), school("toy.timetable")];
    let found = run(&["score", &toy[0], &toy[1]]);
    assert_eq!(found.printed, "infeasibility 0\nobjective 3\n");
    assert_eq!((found.said.as_str(), found.status), ("", 0));
}

#[test]
fn same_compares_the_taken_bytes() {
    let instance = file("two-times", &hex("02 01 00 01 00 00 00"));
    let early = file("early", &[1, 0, 1, 0]);
    let late = file("late", &[0, 1, 0, 1]);
    for (words, printed, status) in [
        ([&early, &early], "same\n", 0),
        ([&early, &late], "different\n", 1),
    ] {
        let found = run(&["same", &instance, words[0], words[1]]);
        assert_eq!(found.printed, printed);
        assert_eq!((found.said.as_str(), found.status), ("", status));
    }
    let bad = file("bad", &[0, 1, 0, 7]);
    for (words, name) in [([&bad, &early], "bad"), ([&early, &bad], "bad")] {
        let found = run(&["same", &instance, words[0], words[1]]);
        assert_eq!(
            (found.printed.as_str(), found.status),
            ("refused 11 3\n", 1)
        );
        let said = format!("timetable same: {name}: refusal 11 3: ");
        assert!(found.said.starts_with(&said), "{}", found.said);
    }
}

#[test]
fn text_prints_the_clauses() {
    let a = file("a-to-write", &hex(FILE_A));
    let found = run(&["text", &a]);
    assert_eq!(found.printed, TEXT_A);
    assert_eq!((found.said.as_str(), found.status), ("", 0));
    // A text of more than 65,536 bytes.
    let found = run(&["text", &school("small.instance")]);
    assert_eq!(found.printed.len(), 1_561_878);
    assert!(found.printed.starts_with("p wcnf 20583 74417 "));
    let found = run(&["text", &file("oversized-text", &oversized())]);
    assert_eq!((found.printed.as_str(), found.status), ("refused 8 0\n", 1));
}

#[test]
fn decode_prints_the_cost_and_writes_the_timetable() {
    let toy = [school("toy.instance"), school("toy.model")];
    let found = run(&["decode", &toy[0], &toy[1]]);
    assert_eq!(found.printed, "objective 3\nbytes 108\n");
    assert_eq!((found.said.as_str(), found.status), ("", 0));
    let written = folder().join("decoded");
    let with_file = run(&["decode", &toy[0], "--out", "decoded", &toy[1]]);
    assert_eq!(with_file, found);
    let table = fs::read(schools().join("toy.timetable")).expect("a timetable");
    assert_eq!(fs::read(&written).expect("the decoded timetable"), table);
}

/// A model as a solver prints it, with so many literals to a line.
fn printed_model(model: &[u8], width: usize) -> String {
    let literals = model.iter().zip(1..).map(|(&value, variable)| match value {
        1 => format!(" {variable}"),
        _ => format!(" -{variable}"),
    });
    let literals: Vec<String> = literals.collect();
    let lines = literals
        .chunks(width)
        .map(|line| format!("v{}\n", line.concat()));
    format!(
        "c a solver\ns OPTIMUM FOUND\n{}v 0\n",
        lines.collect::<String>()
    )
}

#[test]
fn model_writes_the_model_that_a_solver_printed() {
    for name in ["toy", "small"] {
        let [instance, model] = ["instance", "model"].map(|kind| school(&format!("{name}.{kind}")));
        let model = fs::read(model).expect("a model");
        for width in [1, 20, model.len()] {
            let text = printed_model(&model, width);
            let text = file(&format!("{name}-{width}.out"), text.as_bytes());
            let found = run(&["model", &instance, &text, "--out", "model-read"]);
            assert_eq!((found.printed.as_str(), found.said.as_str()), ("", ""));
            assert_eq!(found.status, 0);
            let read = fs::read(folder().join("model-read")).expect("the model");
            assert_eq!(read, model, "{name} {width}");
        }
    }
}

#[test]
fn model_refuses_a_text_that_gives_a_variable_twice_or_breaks_a_clause() {
    let toy = school("toy.instance");
    let model = fs::read(school("toy.model")).expect("a model");
    let mut broken = model.clone();
    broken[0] ^= 1;
    let decoded = run(&["decode", &toy, &file("broken.model", &broken)]);
    assert!(decoded.printed.starts_with("refused 13 "));
    let found = run(&[
        "model",
        &toy,
        &file("broken.out", printed_model(&broken, 9).as_bytes()),
    ]);
    assert_eq!((found.printed, found.status), (decoded.printed, 1));
    let twice = printed_model(&model, 9).replace(" 10 ", " 10 10 ");
    let twice = twice.replace(" -10 ", " -10 -10 ");
    let found = run(&["model", &toy, &file("twice.out", twice.as_bytes())]);
    assert_eq!(
        (found.printed.as_str(), found.status),
        ("refused 21 10\n", 1)
    );
}

#[test]
fn check_says_no_timetable_for_a_refutation() {
    for (name, bound, printed) in [
        ("toy", "2", "no timetable\nbound 2\nsteps 81\n"),
        ("small", "7", "no timetable\nbound 7\nsteps 530\n"),
    ] {
        let [instance, proof] = ["instance", "proof"].map(|kind| school(&format!("{name}.{kind}")));
        let found = run(&["check", &instance, bound, &proof]);
        assert_eq!(found.printed, printed);
        assert_eq!((found.said.as_str(), found.status), ("", 0));
    }
}

/// The script that README.md names.
#[test]
fn the_five_days_end_with_a_price_that_no_timetable_undercuts() {
    let script = repository().join("week");
    let output = Command::new(script)
        .env("TIMETABLE", program())
        .output()
        .expect("the script runs");
    let printed = String::from_utf8(output.stdout).expect("text");
    assert!(output.status.success(), "{printed}");
    for line in [
        "    objective 8\n",
        "    no timetable\n    bound 7\n    steps 530\n",
        "    refused 14 530\n",
        "costs 8, and every other that keeps the hard constraints costs 8 or more.\n",
    ] {
        assert!(printed.contains(line), "{printed}");
    }
}

/// A with its constraint hard: no timetable keeps it.
const HARD_A: &str = "01 01 00 01 00 01 00 01 03 00 01 01";

#[test]
fn check_at_none_says_that_there_is_no_timetable_at_all() {
    let hard = file("hard", &hex(HARD_A));
    let proof = file("proof-without-tail", &hex("61 09 00 05 04 02 06 08 00"));
    let found = run(&["check", &hard, "none", &proof]);
    assert_eq!(found.printed, "no timetable at all\nsteps 1\n");
    assert_eq!((found.said.as_str(), found.status), ("", 0));
    // The proof at a bound names clauses of the tail.
    let found = run(&[
        "check",
        &school("toy.instance"),
        "none",
        &school("toy.proof"),
    ]);
    assert!(found.printed.starts_with("refused 1"), "{}", found.printed);
    assert_eq!(found.status, 1);
    let found = run(&["check", &hard, "nothing", &proof]);
    assert_eq!(found.status, 2);
}

#[test]
fn best_says_that_nothing_costs_less_than_a_model() {
    for (name, printed) in [
        ("toy", "best\nobjective 3\nsteps 81\n"),
        ("small", "best\nobjective 8\nsteps 530\n"),
    ] {
        let [instance, model, proof] =
            ["instance", "model", "proof"].map(|kind| school(&format!("{name}.{kind}")));
        let found = run(&["best", &instance, &model, &proof]);
        assert_eq!(found.printed, printed);
        assert_eq!((found.said.as_str(), found.status), ("", 0));
        // Without the proof nothing is shown; a timetable is no model.
        let nothing = file("no-proof", &[]);
        let found = run(&["best", &instance, &model, &nothing]);
        assert_eq!(
            (found.printed.as_str(), found.status),
            ("refused 18 0\n", 1)
        );
        let found = run(&["best", &instance, &proof, &proof]);
        assert!(
            found.printed.starts_with("refused 10 "),
            "{}",
            found.printed
        );
    }
}

#[test]
fn a_model_that_costs_nothing_needs_no_proof() {
    let free = file("free", &hex("01 01 00 01 00 00 00"));
    let model = file("free-model", &hex("01 01 01"));
    let nothing = file("free-proof", &[]);
    let found = run(&["best", &free, &model, &nothing]);
    assert_eq!(found.printed, "best\nobjective 0\nsteps 0\n");
    assert_eq!((found.said.as_str(), found.status), ("", 0));
}
