//! The operands and options that a subcommand declares.

/// A word after the subcommand's name that is no option.
pub struct Operand {
    /// In capitals; the subcommand asks for it by this name.
    pub name: &'static str,
    pub about: &'static str,
    pub value: Value,
    pub count: Count,
}

/// How often an operand stands. Only the last may be other than `One`.
#[derive(Clone, Copy, PartialEq, Eq)]
pub enum Count {
    One,
    Optional,
    /// Once or more.
    Many,
}

/// An option.
pub struct CommandOption {
    /// Without its dashes; the subcommand asks for it by this name.
    pub long: &'static str,
    pub short: Option<char>,
    /// Its value's name in capitals, and what the value is; a flag has none.
    pub value: Option<(&'static str, Value)>,
    pub about: &'static str,
}

/// What a word stands for.
#[derive(Clone, Copy)]
pub enum Value {
    /// A file of at most so many bytes, which is read whole; `-` is standard input.
    File(u64),
    /// A file or folder that the subcommand opens itself, or that is written.
    Path,
    Number,
    /// A number, or this word.
    NumberOr(&'static str),
    /// One of these words.
    OneOf(&'static [&'static str]),
    /// The name of a subcommand.
    Subcommand,
    /// Any word.
    Text,
}

impl CommandOption {
    /// The option as help shows it: `-o, --out FILE`.
    pub fn spelling(&self) -> String {
        let short = self.short.map(|short| format!("-{short}, "));
        let value = self.value.map(|(name, _)| format!(" {name}"));
        format!(
            "{}--{}{}",
            short.unwrap_or_default(),
            self.long,
            value.unwrap_or_default()
        )
    }
}
