//! The words of a call, and the help, page and completion that are made from
//! the table of subcommands.
#![cfg(feature = "engine")]

mod support;

use std::process::Command;
use support::{file, hex, run, school, FILE_A};
use timetable::command::frame::declare::Count;
use timetable::command::frame::refusals;
use timetable::command::SUBCOMMANDS;
use timetable::engine::REFUSALS;

#[test]
fn wrong_usage_is_told_and_prints_nothing() {
    let twice = "timetable same: standard input can be read once only\n";
    let toy = school("toy.instance");
    for (words, said) in [
        (vec![], "timetable: a subcommand is missing\n"),
        (
            vec!["solved"],
            "timetable: there is no subcommand 'solved'\n",
        ),
        (
            vec!["read"],
            "timetable read: 1 operand is wanted, 0 given\n",
        ),
        (
            vec!["read", &toy, &toy],
            "timetable read: 1 operand is wanted, 2 given\n",
        ),
        (
            vec!["read", "--fast", &toy],
            "timetable read: there is no option '--fast'\n",
        ),
        (vec!["same", &toy, "-", "-"], twice),
        (
            vec!["decode", &toy, &toy, "--out"],
            "timetable decode: the option '--out' wants a FILE\n",
        ),
        (
            vec!["decode", &toy, &toy, "-o"],
            "timetable decode: the option '-o' wants a FILE\n",
        ),
        (
            vec!["decode", "-o", "a", &toy, "--out=b", &toy],
            "timetable decode: the option '--out' is given twice\n",
        ),
        (
            vec!["read", "--json", "--json", &toy],
            "timetable read: the option '--json' is given twice\n",
        ),
        (
            vec!["read", "--json=yes", &toy],
            "timetable read: the option '--json' has no value\n",
        ),
        (
            vec!["read", &toy, "--out", "text"],
            "timetable read: there is no option '--out'\n",
        ),
        (
            vec!["completion", "csh"],
            "timetable completion: 'csh' is none of: ",
        ),
        (
            vec!["help", "solved"],
            "timetable help: there is no subcommand 'solved'\n",
        ),
        (
            vec!["sizes", &toy, "-1"],
            "timetable sizes: there is no option '-1'\n",
        ),
        (
            vec!["sizes", &toy, "3x"],
            "timetable sizes: '3x' is no number\n",
        ),
        (
            vec!["sizes", &toy, "18446744073709551616"],
            "timetable sizes: 18446744073709551616 is above 18446744073709551615\n",
        ),
    ] {
        let found = run(&words);
        assert_eq!((found.printed.as_str(), found.status), ("", 2), "{words:?}");
        assert!(found.said.starts_with(said), "{}", found.said);
        assert!(found.said.contains("Usage: timetable "), "{}", found.said);
    }
}

#[test]
fn after_two_dashes_a_name_may_begin_with_one() {
    let name = file("-dashed", &hex(FILE_A));
    assert_eq!(run(&["read", &name]).status, 2);
    assert_eq!(run(&["read", "--", &name]).status, 0);
}

#[test]
fn help_names_every_subcommand_and_each_has_its_own() {
    let overview = run(&["--help"]);
    assert_eq!((overview.said.as_str(), overview.status), ("", 0));
    assert_eq!(overview, run(&["-h"]));
    assert_eq!(overview, run(&["help"]));
    for name in ["read", "sizes", "score", "same", "text", "decode", "check"] {
        assert!(overview.printed.contains(&format!("\n  {name} ")));
        let help = run(&[name, "--help"]);
        assert_eq!((help.said.as_str(), help.status), ("", 0));
        assert!(help
            .printed
            .starts_with(&format!("Usage: timetable {name} ")));
        assert_eq!(help, run(&[name, "some", "-h", "words"]));
    }
}

#[test]
fn help_lists_the_refusals_of_an_operation() {
    for (name, numbers) in [
        ("read", vec![1, 2, 3, 4, 5, 6, 19, 22]),
        ("model", vec![1, 2, 3, 4, 5, 6, 8, 13, 19, 20, 21, 22]),
    ] {
        let help = run(&[name, "--help"]).printed;
        for facts in REFUSALS {
            let line = format!("\n{:>4}  {}\n", facts.number, refusals::words(facts.number));
            let listed = numbers.contains(&facts.number);
            assert_eq!(help.contains(&line), listed, "{name} {}", facts.number);
        }
    }
}

#[test]
fn help_of_a_subcommand_has_two_spellings() {
    assert_eq!(run(&["help", "check"]), run(&["check", "--help"]));
}

#[test]
fn the_version_is_that_of_the_package() {
    let found = run(&["--version"]);
    let version = format!("timetable {}\n", env!("CARGO_PKG_VERSION"));
    assert_eq!((found.printed, found.status), (version, 0));
}

#[test]
fn declarations_can_be_told_apart() {
    for subcommand in SUBCOMMANDS {
        let operands = subcommand.operands.iter().map(|one| one.name.to_string());
        let long = subcommand.options.iter().map(|one| one.long.to_string());
        let short = subcommand.options.iter();
        let short = short.filter_map(|one| one.short.map(|short| short.to_string()));
        let mut names: Vec<String> = operands.chain(long).chain(short).collect();
        let count = names.len();
        names.sort();
        names.dedup();
        assert_eq!(names.len(), count, "{}", subcommand.name);
        let early = subcommand.operands.iter().rev().skip(1);
        for operand in early {
            assert!(operand.count == Count::One, "{}", subcommand.name);
        }
    }
    let mut names: Vec<&str> = SUBCOMMANDS.iter().map(|one| one.name).collect();
    names.sort_unstable();
    names.dedup();
    assert_eq!(names.len(), SUBCOMMANDS.len());
}

#[test]
fn the_man_page_shows_every_subcommand_operand_option_and_refusal() {
    let page = run(&["man"]);
    assert_eq!((page.said.as_str(), page.status), ("", 0));
    // As a reader of the page sees it, without the marks of the form.
    let seen = page.printed.replace("\\-", "-");
    for subcommand in SUBCOMMANDS {
        let head = format!("\n.SS timetable {}\n", subcommand.call());
        let (_, section) = seen.split_once(&head).expect(subcommand.name);
        let section = section.split(".S").next().expect("a section");
        for operand in subcommand.operands {
            assert!(section.contains(&format!(".B {}\n{}\n", operand.name, operand.about)));
        }
        for option in subcommand.options {
            assert!(section.contains(&format!(".B {}\n{}\n", option.spelling(), option.about)));
        }
    }
    for refusal in REFUSALS {
        let entry = format!(".B {}\n{}\n", refusal.number, refusal.when);
        assert!(seen.contains(&entry));
    }
    // No line is read as a request that is none.
    for line in page.printed.lines().filter(|line| line.starts_with('.')) {
        let request = line.split(' ').next().expect("a word");
        assert!(
            [".TH", ".SH", ".SS", ".PP", ".TP", ".B", ".I"].contains(&request),
            "{line}"
        );
    }
    assert!(!page.printed.lines().any(|line| line.starts_with('\'')));
}

/// What bash offers for the last of `words`.
fn offered(words: &[&str]) -> Vec<String> {
    let script = format!(
        "{}\nCOMP_WORDS=(\"$@\"); COMP_CWORD=$(($# - 1)); _timetable; printf '%s\\n' \"${{COMPREPLY[@]}}\"",
        run(&["completion", "bash"]).printed
    );
    let output = Command::new("bash")
        .args(["-c", &script, "bash", "timetable"])
        .args(words)
        .output()
        .expect("bash runs");
    assert_eq!(String::from_utf8_lossy(&output.stderr), "");
    let offered = String::from_utf8(output.stdout).expect("text");
    offered
        .lines()
        .filter(|line| !line.is_empty())
        .map(str::to_string)
        .collect()
}

#[test]
fn bash_completes_subcommands_options_and_words() {
    let mut names: Vec<&str> = SUBCOMMANDS.iter().map(|one| one.name).collect();
    assert_eq!(offered(&["help", ""]), names);
    names.extend(["--help", "--version"]);
    assert_eq!(offered(&[""]), names);
    assert_eq!(offered(&["che"]), ["check"]);
    assert_eq!(offered(&["decode", "--"]), ["--help", "--out", "--json"]);
    assert_eq!(offered(&["decode", "a", "b", "--o"]), ["--out"]);
    assert_eq!(offered(&["completion", ""]), ["bash"]);
    // Files are the shell's to offer.
    assert!(offered(&["read", ""]).is_empty());
    assert!(offered(&["decode", "--out", ""]).is_empty());
}

#[test]
fn answers_and_refusals_can_be_had_as_json() {
    let toy = ["toy.instance", "toy.model", "toy.timetable", "toy.proof"].map(school);
    let [instance, model, table, proof] = toy.each_ref().map(String::as_str);
    for (words, printed, status) in [
        (
            vec!["read", instance],
            "{\"answer\":\"accepted\",\"times\":9,\"events\":6,\"resources\":5,\"groups\":7,\
             \"constraints\":43}\n",
            0,
        ),
        (
            vec!["sizes", instance, "2"],
            "{\"variables\":1466,\"clauses\":4759,\"words\":11943}\n",
            0,
        ),
        (
            vec!["decode", instance, model],
            "{\"objective\":3,\"bytes\":108}\n",
            0,
        ),
        (
            vec!["score", instance, table],
            "{\"infeasibility\":0,\"objective\":3}\n",
            0,
        ),
        (
            vec!["same", instance, table, table],
            "{\"answer\":\"same\"}\n",
            0,
        ),
        (
            vec!["check", instance, "2", proof],
            "{\"answer\":\"no timetable\",\"bound\":2,\"steps\":81}\n",
            0,
        ),
    ] {
        let found = run(&[&words[..], &["--json"]].concat());
        assert_eq!((found.printed.as_str(), found.status), (printed, status));
    }
    let found = run(&["check", "--json", instance, "5000", proof]);
    assert!(found
        .printed
        .starts_with("{\"refused\":7,\"value\":5000,\"message\":\"bound 5000: "));
    assert_eq!(found.status, 1);
}
