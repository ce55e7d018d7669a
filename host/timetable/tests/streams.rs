//! Standard streams and files: what is read, and how answers are written.
#![cfg(feature = "engine")]

mod support;

use std::fs;
use std::os::unix::fs::{symlink, FileTypeExt, PermissionsExt};
use std::path::Path;
use std::process::Command;
use support::{command, file, folder, hex, program, run, run_with, school, FILE_A};

#[test]
fn a_file_can_come_from_standard_input() {
    let bytes = hex(FILE_A);
    let name = file("from-a-file", &bytes);
    let found = run_with(&["read", "-"], &bytes);
    assert_eq!(found, run(&["read", &name]));
    assert_eq!(found.status, 0);
    let found = run_with(&["read", "-"], &bytes[..11]);
    assert_eq!(found.printed, "refused 1 11\n");
    assert!(found.said.starts_with("timetable read: standard input: "));
}

#[test]
fn what_a_solver_prints_can_be_piped() {
    let a = file("piped-to", &hex(FILE_A));
    let found = run_with(&["model", &a, "-"], b"c x\no 4\nv 1 2 3 4 0\n");
    assert_eq!(found.printed.as_bytes(), [1, 1, 1, 1]);
    assert_eq!((found.said.as_str(), found.status), ("", 0));
    let found = run_with(&["model", &a, "-"], b"v 1 2 3 5 0\n");
    assert_eq!(
        (found.printed.as_str(), found.status),
        ("refused 20 8\n", 1)
    );
    assert!(found.said.starts_with("timetable model: standard input: "));
}

#[test]
fn a_file_that_cannot_be_read_is_told_without_the_usage() {
    let missing = school("no.instance");
    let found = run(&["read", &missing]);
    assert_eq!((found.printed.as_str(), found.status), ("", 2));
    let said = format!("timetable read: {missing}: ");
    assert!(found.said.starts_with(&said), "{}", found.said);
    assert_eq!(found.said.lines().count(), 1);
}

#[test]
fn no_more_is_read_than_can_be_meant() {
    for (words, said) in [
        (
            vec!["read", "/dev/zero"],
            "timetable read: /dev/zero: longer than 16777216 bytes",
        ),
        (
            vec!["decode", &school("toy.instance"), "/dev/zero"],
            "timetable decode: /dev/zero: longer than 268435456 bytes",
        ),
    ] {
        let found = run(&words);
        assert_eq!((found.printed.as_str(), found.status), ("", 2));
        assert!(found.said.starts_with(said), "{}", found.said);
    }
}

#[test]
fn a_timetable_that_cannot_be_written_is_told() {
    let toy = [school("toy.instance"), school("toy.model")];
    let found = run(&["decode", &toy[0], &toy[1], "--out", "no-folder/decoded"]);
    assert_eq!((found.printed.as_str(), found.status), ("", 2));
    assert!(found
        .said
        .starts_with("timetable decode: no-folder/decoded: "));
}

#[test]
fn an_answer_that_cannot_be_written_is_told() {
    let full = fs::OpenOptions::new().write(true).open("/dev/full");
    let output = command(&["read", &school("toy.instance")])
        .stdout(full.expect("a device that is always full"))
        .output()
        .expect("the command ends");
    assert_eq!(output.status.code(), Some(2));
    assert!(String::from_utf8_lossy(&output.stderr).starts_with("timetable: standard output: "));
}

/// The command by a shell, which can close and redirect what it is given.
fn by_shell(script: &str) -> (String, String, i32) {
    let output = Command::new("sh")
        .args(["-c", script])
        .env("TIMETABLE", program())
        .env("INSTANCE", school("small.instance"))
        .env("MODEL", school("small.model"))
        .current_dir(folder())
        .output()
        .expect("the shell runs");
    (
        String::from_utf8(output.stdout).expect("text"),
        String::from_utf8(output.stderr).expect("text"),
        output.status.code().expect("an exit status"),
    )
}

#[test]
fn who_closes_the_pipe_early_is_told_nothing() {
    // The text is longer than a pipe holds, so the second write finds it closed.
    let script = "{ \"$TIMETABLE\" text \"$INSTANCE\"; echo status $? >&2; } | head -n 1";
    let (printed, said, status) = by_shell(script);
    assert_eq!(printed, "p wcnf 20583 74417 648\n");
    assert_eq!((said.as_str(), status), ("status 0\n", 0));
}

#[test]
fn a_closed_standard_output_is_a_failure_and_the_null_device_is_none() {
    let (_, said, status) = by_shell("\"$TIMETABLE\" read \"$INSTANCE\" >&-");
    assert_eq!(
        (said.as_str(), status),
        ("timetable: standard output: it is closed\n", 2)
    );
    for null in [">/dev/null", "1<>/dev/null"] {
        let (_, said, status) = by_shell(&format!("\"$TIMETABLE\" read \"$INSTANCE\" {null}"));
        assert_eq!((said.as_str(), status), ("", 0), "{null}");
    }
}

#[test]
fn a_closed_standard_error_changes_no_answer() {
    let (printed, _, status) = by_shell("\"$TIMETABLE\" check \"$INSTANCE\" 4096 /dev/null 2>&-");
    assert_eq!((printed.as_str(), status), ("refused 7 4096\n", 1));
}

#[test]
fn every_spelling_of_the_option_for_the_file_writes_it() {
    let toy = [school("toy.instance"), school("toy.model")];
    let table = fs::read(school("toy.timetable")).expect("a timetable");
    for words in [
        vec!["-o", "spelt-1"],
        vec!["-ospelt-2"],
        vec!["--out", "spelt-3"],
        vec!["--out=spelt-4"],
    ] {
        let found = run(&[&["decode", &toy[0], &toy[1]], &words[..]].concat());
        assert_eq!(found.printed, "objective 3\nbytes 108\n");
        let word = words.last().expect("a word");
        let name = &word[word.find("spelt").expect("the file's name")..];
        assert_eq!(fs::read(folder().join(name)).expect("a file"), table);
    }
}

#[test]
fn a_product_on_standard_output_sends_the_report_to_standard_error() {
    let toy = [school("toy.instance"), school("toy.model")];
    let table = fs::read(school("toy.timetable")).expect("a timetable");
    let found = run(&["decode", &toy[0], &toy[1], "--out", "-"]);
    assert_eq!(found.printed.as_bytes(), table);
    assert_eq!(found.said, "objective 3\nbytes 108\n");
    assert_eq!(found.status, 0);
    let text = run(&["text", &toy[0]]);
    assert_eq!(run(&["text", &toy[0], "-o", "-"]), text);
    assert_eq!(run(&["text", &toy[0], "-o", "toy.wcnf"]).printed, "");
    let written = fs::read_to_string(folder().join("toy.wcnf")).expect("the text");
    assert_eq!(written, text.printed);
}

#[test]
fn a_write_that_fails_leaves_the_old_file() {
    let place = folder().join("kept");
    fs::create_dir_all(&place).expect("a folder");
    fs::write(place.join("text"), "as it was").expect("a file");
    // A file may grow to 8 blocks of 512 bytes; the text is longer.
    let (printed, said, status) =
        by_shell("ulimit -f 8; trap '' XFSZ; \"$TIMETABLE\" text \"$INSTANCE\" -o kept/text");
    assert_eq!((printed.as_str(), status), ("", 2));
    assert!(said.starts_with("timetable text: kept/text: "), "{said}");
    assert_eq!(said.lines().count(), 1, "{said}");
    assert_eq!(names(&place), ["text"]);
    let kept = fs::read_to_string(place.join("text")).expect("the old file");
    assert_eq!(kept, "as it was");
}

#[test]
fn a_file_that_is_written_keeps_its_permissions_and_its_link() {
    let place = folder().join("linked");
    // What an earlier run left.
    let _ = fs::remove_dir_all(&place);
    fs::create_dir_all(&place).expect("a folder");
    fs::write(place.join("text"), "old").expect("a file");
    let private = fs::Permissions::from_mode(0o600);
    fs::set_permissions(place.join("text"), private).expect("permissions");
    symlink("text", place.join("link")).expect("a link");
    let toy = school("toy.instance");
    assert_eq!(run(&["text", &toy, "-o", "linked/link"]).status, 0);
    assert_eq!(names(&place), ["link", "text"]);
    let link = fs::symlink_metadata(place.join("link")).expect("the link");
    assert!(link.file_type().is_symlink());
    let written = fs::metadata(place.join("text")).expect("the file");
    assert_eq!(written.permissions().mode() & 0o777, 0o600);
    let text = fs::read_to_string(place.join("text")).expect("the text");
    assert_eq!(text, run(&["text", &toy]).printed);
}

#[test]
fn a_device_is_written_directly() {
    let found = run(&["text", &school("toy.instance"), "-o", "/dev/null"]);
    assert_eq!((found.said.as_str(), found.status), ("", 0));
    let device = fs::metadata("/dev/null").expect("the null device");
    assert!(device.file_type().is_char_device());
}

/// The names of the files in a folder.
fn names(place: &Path) -> Vec<String> {
    let entries = fs::read_dir(place).expect("a folder");
    let names = entries.map(|entry| entry.expect("an entry").file_name());
    let mut names: Vec<String> = names.filter_map(|name| name.into_string().ok()).collect();
    names.sort();
    names
}
