//! Reading files up to a limit, and writing them so that a failed write leaves
//! the old file as it was.

use std::ffi::{OsStr, OsString};
use std::fs::{self, File};
use std::io::{self, Read, Write};
use std::path::{Path, PathBuf};
use std::process;

/// Whether a word names standard input or output.
pub fn is_standard(word: &OsStr) -> bool {
    word == "-"
}

/// The name of an input in messages.
pub fn input_name(word: &OsStr) -> String {
    match is_standard(word) {
        true => "standard input".to_string(),
        false => word.to_string_lossy().into_owned(),
    }
}

/// Opens a file, or standard input.
pub fn open(word: &OsStr) -> io::Result<Box<dyn Read>> {
    Ok(match is_standard(word) {
        true => Box::new(io::stdin()),
        false => Box::new(File::open(word)?),
    })
}

/// The bytes of a file of at most `most` bytes, or of standard input; or a
/// message that names it.
pub fn read(word: &OsStr, most: u64) -> Result<Vec<u8>, String> {
    let mut bytes = Vec::new();
    let read = open(word).and_then(|file| file.take(most + 1).read_to_end(&mut bytes));
    match read {
        Err(error) => Err(format!("{}: {error}", input_name(word))),
        Ok(_) if bytes.len() as u64 > most => Err(format!(
            "{}: longer than {most} bytes, the most that is read here",
            input_name(word)
        )),
        Ok(_) => Ok(bytes),
    }
}

/// Writes files: each under another name in its folder, and only when all are
/// written does each take its own name. So a write that fails leaves every file
/// as it was. What is no regular file, such as a pipe, is written directly.
pub fn write(files: &[(PathBuf, Vec<u8>)]) -> Result<(), String> {
    let mut written = Vec::new();
    let result = files.iter().try_for_each(|(path, bytes)| {
        let name = |error| format!("{}: {error}", path.display());
        let target = Target::of(path).map_err(name)?;
        written.push(target);
        let target = &written[written.len() - 1];
        target.fill(bytes).map_err(name)
    });
    if result.is_err() {
        written.iter().for_each(Target::discard);
        return result;
    }
    files
        .iter()
        .zip(&written)
        .try_for_each(|((path, _), target)| {
            target.settle().map_err(|error| {
                target.discard();
                format!("{}: {error}", path.display())
            })
        })
}

/// Where the bytes of a file go first, and where they belong.
enum Target {
    Direct(PathBuf),
    Renamed { temporary: PathBuf, path: PathBuf },
}

impl Target {
    fn of(path: &Path) -> io::Result<Target> {
        // A link stays a link: what it points at is replaced.
        let path = match fs::metadata(path) {
            Ok(known) if !known.is_file() => return Ok(Target::Direct(path.to_path_buf())),
            Ok(_) => fs::canonicalize(path)?,
            Err(_) => path.to_path_buf(),
        };
        let Some(name) = path.file_name() else {
            return Ok(Target::Direct(path));
        };
        let mut temporary = OsString::from(".");
        temporary.push(name);
        temporary.push(format!(".{}", process::id()));
        Ok(Target::Renamed {
            temporary: path.with_file_name(temporary),
            path,
        })
    }

    fn fill(&self, bytes: &[u8]) -> io::Result<()> {
        let place = match self {
            Target::Direct(path) => path,
            Target::Renamed { temporary, .. } => temporary,
        };
        let mut file = File::create(place)?;
        file.write_all(bytes)?;
        if let Target::Renamed { path, .. } = self {
            if let Ok(old) = fs::metadata(path) {
                file.set_permissions(old.permissions())?;
            }
            file.sync_all()?;
        }
        Ok(())
    }

    fn settle(&self) -> io::Result<()> {
        match self {
            Target::Direct(_) => Ok(()),
            Target::Renamed { temporary, path } => fs::rename(temporary, path),
        }
    }

    fn discard(&self) {
        if let Target::Renamed { temporary, .. } = self {
            // It may not be there.
            let _ = fs::remove_file(temporary);
        }
    }
}
