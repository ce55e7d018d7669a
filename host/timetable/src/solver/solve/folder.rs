//! The folder in which the files of a week are kept.

use crate::solver::Fault;
use std::fs;
use std::path::{Path, PathBuf};

pub struct Folder(PathBuf);

impl Folder {
    /// The folder at `path`, which is made if it is not there.
    pub fn at(path: &Path) -> Result<Folder, Fault> {
        match fs::create_dir_all(path) {
            Ok(()) => Ok(Folder(path.to_path_buf())),
            Err(error) => Err(Fault::Failed(format!("{}: {error}", path.display()))),
        }
    }

    pub fn path(&self, name: &str) -> PathBuf {
        self.0.join(name)
    }

    /// Writes a file whole: under another name first.
    pub fn write(&self, name: &str, bytes: &[u8]) -> Result<PathBuf, Fault> {
        let path = self.path(name);
        let part = self.path(&format!("{name}.part"));
        let written = fs::write(&part, bytes).and_then(|()| fs::rename(&part, &path));
        match written {
            Ok(()) => Ok(path),
            Err(error) => Err(Fault::Failed(format!("{}: {error}", path.display()))),
        }
    }

    pub fn read(&self, name: &str) -> Result<Vec<u8>, Fault> {
        let path = self.path(name);
        fs::read(&path).map_err(|error| Fault::Failed(format!("{}: {error}", path.display())))
    }

    /// Removes a file, if it is there.
    pub fn remove(&self, name: &str) {
        let _ = fs::remove_file(self.path(name));
    }
}
