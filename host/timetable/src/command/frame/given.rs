//! What a call was given: the operands and options of a subcommand, by name.

use super::parameters::{CommandOption, Operand};
use std::path::{Path, PathBuf};

/// The operands and options of a call. Asking for a name that the subcommand
/// does not declare, or for another sort of value, is a mistake of the program
/// and panics.
pub struct Given {
    /// What the subcommand declares.
    pub operands: &'static [Operand],
    pub options: &'static [CommandOption],
    pub manual: &'static dyn Manual,
    pub values: Vec<(&'static str, Content)>,
}

/// What can be told of the whole command.
pub trait Manual {
    /// The help of the command or of one subcommand, if there is one of that name.
    fn help(&self, subcommand: Option<&str>) -> Option<String>;
    fn man_page(&self) -> String;
    /// What bash reads to complete words.
    fn bash_completion(&self) -> String;
}

/// A word's value.
pub enum Content {
    File(File),
    Path(PathBuf),
    Number(u64),
    Word(String),
    Flag,
}

/// A file that was read.
pub struct File {
    /// Its name, for messages.
    pub name: String,
    pub bytes: Vec<u8>,
}

impl Given {
    /// Every value under `name`, which the subcommand must declare.
    fn all(&self, name: &str) -> impl Iterator<Item = &Content> {
        let declared = self.has_operand(name) || self.has_option(name);
        assert!(declared, "the subcommand declares no {name}");
        let named = name.to_string();
        let values = self.values.iter().filter(move |(known, _)| *known == named);
        values.map(|(_, content)| content)
    }

    fn one<'a, T>(&'a self, name: &str, sort: fn(&'a Content) -> Option<T>) -> Option<T> {
        let content = self.all(name).next()?;
        Some(sort(content).unwrap_or_else(|| panic!("{name} is of another sort")))
    }

    /// The file under `name`, if it was given.
    pub fn file_if(&self, name: &str) -> Option<&File> {
        self.one(name, |content| match content {
            Content::File(file) => Some(file),
            _ => None,
        })
    }

    /// The file under `name`.
    pub fn file(&self, name: &str) -> &File {
        self.file_if(name).unwrap_or_else(|| missing(name))
    }

    /// The bytes of the file under `name`.
    pub fn bytes(&self, name: &str) -> &[u8] {
        &self.file(name).bytes
    }

    /// Every file under `name`.
    pub fn files(&self, name: &str) -> Vec<&File> {
        let files = self.all(name).filter_map(|content| match content {
            Content::File(file) => Some(file),
            _ => None,
        });
        files.collect()
    }

    /// The path under `name`, if it was given.
    pub fn path_if(&self, name: &str) -> Option<&Path> {
        self.one(name, |content| match content {
            Content::Path(path) => Some(path.as_path()),
            _ => None,
        })
    }

    /// The path under `name`.
    pub fn path(&self, name: &str) -> &Path {
        self.path_if(name).unwrap_or_else(|| missing(name))
    }

    /// The number under `name`, if one was given; a word in its place is none.
    pub fn number_if(&self, name: &str) -> Option<u64> {
        self.all(name).find_map(|content| match content {
            Content::Number(number) => Some(*number),
            _ => None,
        })
    }

    /// The number under `name`.
    pub fn number(&self, name: &str) -> u64 {
        self.number_if(name).unwrap_or_else(|| missing(name))
    }

    /// The word under `name`, if it was given.
    pub fn word_if(&self, name: &str) -> Option<&str> {
        self.one(name, |content| match content {
            Content::Word(word) => Some(word.as_str()),
            _ => None,
        })
    }

    /// The word under `name`.
    pub fn word(&self, name: &str) -> &str {
        self.word_if(name).unwrap_or_else(|| missing(name))
    }

    /// Whether the flag was given.
    pub fn flag(&self, name: &str) -> bool {
        self.all(name).next().is_some()
    }

    /// Whether the subcommand has an operand of this name.
    pub fn has_operand(&self, name: &str) -> bool {
        self.operands.iter().any(|one| one.name == name)
    }

    /// Whether the subcommand has an option of this name.
    pub fn has_option(&self, name: &str) -> bool {
        self.options.iter().any(|one| one.long == name)
    }
}

fn missing<T>(name: &str) -> T {
    panic!("{name} was not given")
}
