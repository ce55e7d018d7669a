//! Every school of Debian's package fet-data: imported or refused by name, and what is
//! imported is accepted by the engine. The package has a licence of its own, so that its
//! files are read where it is installed and are no part of this repository.
#![cfg(feature = "engine")]

use std::fs;
use std::io::Write;
use std::path::{Path, PathBuf};
use timetable::import::{fet, xml, Fault};
use timetable::school::{read_names, write_names};
use timetable::{engine, instance};

const EXAMPLES: &str = "/usr/share/doc/fet-data/examples";

/// The FET files of a folder and of those in it.
fn schools(folder: &Path, found: &mut Vec<PathBuf>) {
    for entry in fs::read_dir(folder).into_iter().flatten().flatten() {
        let path = entry.path();
        match path.is_dir() {
            true => schools(&path, found),
            false if path.extension().is_some_and(|end| end == "fet") => found.push(path),
            false => {}
        }
    }
}

/// Says a line that is seen whether or not tests print.
fn say(line: &str) {
    let _ = writeln!(std::io::stderr(), "fet-data: {line}");
}

#[test]
fn every_school_is_imported_or_refused_by_name() {
    let mut found = Vec::new();
    schools(Path::new(EXAMPLES), &mut found);
    if found.is_empty() {
        say("nothing tried: the package fet-data is not installed");
        return;
    }
    let (mut carried, mut whole) = (0, 0);
    for path in &found {
        let bytes = fs::read(path).expect("a school");
        let root = xml::read(&bytes).map_err(Fault::from);
        let imported = match root.and_then(|root| fet::import(&root, 10)) {
            Ok(imported) => imported,
            Err(fault) => {
                let known = ["are the most", "only the official mode is read"];
                let named = known.iter().any(|end| fault.message.ends_with(end));
                assert!(named, "{}:{fault}", path.display());
                continue;
            }
        };
        let school = imported.school;
        let bytes = instance::write(&school.instance);
        engine::read(&bytes).unwrap_or_else(|refusal| panic!("{refusal:?} {}", path.display()));
        let names = write_names(&school.names, &bytes);
        let named = read_names(&names, &bytes, school.instance.counts());
        assert_eq!(
            named.ok().as_ref(),
            Some(&school.names),
            "{}",
            path.display()
        );
        carried += 1;
        whole += usize::from(imported.remarks.is_empty());
    }
    let count = found.len();
    say(&format!(
        "{count} schools, {carried} imported, {whole} of them whole"
    ));
    assert!(whole > 0);
}
