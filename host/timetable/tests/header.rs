//! The C header and the C++ wrapper: programs over them, and what the header
//! declares.
#![cfg(feature = "engine")]

mod support;

use std::fs;
use std::process::Command;
use support::{folder, repository};
use timetable::engine::{LARGEST_BOUND, MOST_VARIABLES, REFUSALS};
use timetable::instance;

fn header() -> String {
    fs::read_to_string(repository().join("include/timetable.h")).expect("the header")
}

/// Compiles a program of tests/c without a warning, and runs it.
fn compiled_and_run(compiler: &str, options: &[&str], source: &str) {
    let program = folder().join(format!("{source}-{}", options.concat()));
    let compiled = Command::new(compiler)
        .args(options)
        .args(["-O1", "-Wall", "-Wextra", "-Wpedantic", "-Werror", "-I"])
        .arg(repository().join("include"))
        .arg(repository().join("tests/c").join(source))
        .args(["-x", "none", env!("TIMETABLE_ARCHIVE"), "-o"])
        .arg(&program)
        .output()
        .expect("the compiler runs");
    let errors = String::from_utf8_lossy(&compiled.stderr);
    assert!(compiled.status.success(), "{source} {options:?}: {errors}");
    let run = Command::new(&program).output().expect("the program runs");
    let printed = String::from_utf8_lossy(&run.stdout);
    let said = String::from_utf8_lossy(&run.stderr);
    assert_eq!((&*printed, &*said), ("ok\n", ""), "{source} {options:?}");
    assert!(run.status.success(), "{source} {options:?}");
}

/// What makes a program end where it reaches outside its memory.
const SANITIZERS: &str = "-fsanitize=address,undefined";

#[test]
fn the_c_program_compiles_without_a_warning_and_gets_the_answers() {
    for options in [
        &["-x", "c", "-std=c99"][..],
        &["-x", "c", "-std=c11", SANITIZERS],
        &["-x", "c++", "-std=c++11"],
    ] {
        compiled_and_run("cc", options, "calls.c");
    }
}

#[test]
fn the_cpp_program_compiles_without_a_warning_and_gets_the_answers() {
    for options in [&["-std=c++11"][..], &["-std=c++20", SANITIZERS]] {
        compiled_and_run("c++", options, "wrapper.cpp");
    }
}

#[test]
fn the_version_is_that_of_the_package() {
    let version = format!(
        "#define TIMETABLE_VERSION \"{}\"\n",
        env!("CARGO_PKG_VERSION")
    );
    assert!(header().contains(&version));
}

#[test]
fn the_enum_has_the_refusals_by_their_names() {
    let header = header();
    let (_, members) = header
        .split_once("enum timetable_refusal {")
        .expect("the enum");
    let (members, _) = members.split_once("};").expect("its end");
    let found: Vec<&str> = members.split(',').map(str::trim).collect();
    let refusals = REFUSALS.iter();
    let refusals = refusals.map(|facts| format!("TIMETABLE_{} = {}", facts.name, facts.number));
    let accepted = "TIMETABLE_ACCEPTED = 0".to_string();
    let wanted: Vec<String> = [accepted].into_iter().chain(refusals).collect();
    assert_eq!(found, wanted);
    // And each stands in the table of the header's first comment.
    for facts in REFUSALS {
        let line = header
            .lines()
            .find(|line| line.starts_with(&format!(" * {:>4}   ", facts.number)));
        assert!(line.is_some(), "{}", facts.name);
    }
}

#[test]
fn the_macros_are_the_limits() {
    let wanted = [
        ("MOST_TIMES", u64::from(instance::MOST_TIMES)),
        ("MOST_EVENTS", u64::from(instance::MOST_EVENTS)),
        ("MOST_RESOURCES", u64::from(instance::MOST_RESOURCES)),
        ("MOST_GROUPS", u64::from(instance::MOST_GROUPS)),
        ("DAYS", u64::from(instance::DAYS)),
        ("MOST_PERIODS", u64::from(instance::MOST_PERIODS)),
        ("LAST_MINUTE", u64::from(instance::LAST_MINUTE)),
        ("MOST_WINDOWS", u64::from(instance::MOST_WINDOWS)),
        ("MOST_CONSTRAINTS", u64::from(instance::MOST_CONSTRAINTS)),
        ("LARGEST_WEIGHT", u64::from(instance::LARGEST_WEIGHT)),
        (
            "LARGEST_BOUND_OF_COUNT",
            u64::from(instance::LARGEST_BOUND_OF_COUNT),
        ),
        ("LARGEST_GAP", u64::from(instance::LARGEST_GAP)),
        ("LONGEST_LIST", instance::LONGEST_LIST as u64),
        ("LARGEST_BOUND", LARGEST_BOUND),
        ("MOST_VARIABLES", MOST_VARIABLES),
    ];
    let header = header();
    for (name, limit) in wanted {
        let line = format!("\n#define TIMETABLE_{name} {limit}\n");
        assert!(header.contains(&line), "{name}");
    }
    let limits = header.lines().filter(|line| {
        line.starts_with("#define TIMETABLE_") && line.ends_with(|last: char| last.is_ascii_digit())
    });
    assert_eq!(limits.count(), wanted.len());
}

#[test]
fn the_header_declares_what_the_engine_exports() {
    let mut exported = Vec::new();
    for file in fs::read_dir(repository().join("crates/engine/src")).expect("the crate") {
        let source = fs::read_to_string(file.expect("a file").path()).expect("a source file");
        exported.extend(parameters_after(&source, "pub extern \"C\" fn timetable_"));
    }
    exported.sort();
    // A slice is two parameters in C: its pointer and its length.
    let mut declared = parameters_after(&header(), "\nuint32_t timetable_");
    declared.extend(parameters_after(&header(), "\nvoid timetable_"));
    for (_, parameters) in &mut declared {
        let lengths: Vec<String> = parameters
            .iter()
            .filter_map(|name| name.strip_suffix("_length").map(str::to_string))
            .collect();
        parameters.retain(|name| !name.ends_with("_length"));
        for slice in lengths {
            assert!(parameters.contains(&slice), "{slice}_length has no slice");
        }
    }
    declared.sort();
    assert!(!exported.is_empty());
    assert_eq!(declared, exported);
}

/// The functions whose names follow `prefix`, each with its parameters' names,
/// in C's way of writing them or in Rust's.
fn parameters_after(source: &str, prefix: &str) -> Vec<(String, Vec<String>)> {
    let mut found = Vec::new();
    for rest in source.split(prefix).skip(1) {
        let (name, rest) = rest.split_once('(').expect("a parameter list");
        let (list, _) = rest.split_once(')').expect("its end");
        let names = list
            .split(',')
            .map(str::trim)
            .filter(|word| !word.is_empty());
        let names = names.map(|parameter| {
            let parameter = match parameter.split_once(':') {
                Some((name, _)) => name,
                None => parameter.rsplit([' ', '*']).next().unwrap_or(parameter),
            };
            parameter.trim().to_string()
        });
        found.push((name.to_string(), names.collect()));
    }
    found
}
