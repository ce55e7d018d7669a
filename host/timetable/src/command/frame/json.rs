//! Answers as JSON.

use std::fmt;

/// A value of JSON.
#[derive(Clone, Debug, PartialEq, Eq)]
pub enum Json {
    Null,
    Flag(bool),
    Number(u64),
    Text(String),
    List(Vec<Json>),
    Object(Vec<(String, Json)>),
}

impl Json {
    pub fn object<'a>(fields: impl IntoIterator<Item = (&'a str, Json)>) -> Json {
        let fields = fields.into_iter();
        Json::Object(
            fields
                .map(|(name, value)| (name.to_string(), value))
                .collect(),
        )
    }
}

impl From<u64> for Json {
    fn from(number: u64) -> Json {
        Json::Number(number)
    }
}

impl From<bool> for Json {
    fn from(flag: bool) -> Json {
        Json::Flag(flag)
    }
}

impl From<&str> for Json {
    fn from(text: &str) -> Json {
        Json::Text(text.to_string())
    }
}

/// On one line, without a space.
impl fmt::Display for Json {
    fn fmt(&self, out: &mut fmt::Formatter) -> fmt::Result {
        match self {
            Json::Null => write!(out, "null"),
            Json::Flag(flag) => write!(out, "{flag}"),
            Json::Number(number) => write!(out, "{number}"),
            Json::Text(text) => quoted(text, out),
            Json::List(list) => {
                write!(out, "[")?;
                for (index, value) in list.iter().enumerate() {
                    separate(index, out)?;
                    write!(out, "{value}")?;
                }
                write!(out, "]")
            }
            Json::Object(fields) => {
                write!(out, "{{")?;
                for (index, (name, value)) in fields.iter().enumerate() {
                    separate(index, out)?;
                    quoted(name, out)?;
                    write!(out, ":{value}")?;
                }
                write!(out, "}}")
            }
        }
    }
}

fn separate(index: usize, out: &mut fmt::Formatter) -> fmt::Result {
    match index {
        0 => Ok(()),
        _ => write!(out, ","),
    }
}

fn quoted(text: &str, out: &mut fmt::Formatter) -> fmt::Result {
    write!(out, "\"")?;
    for character in text.chars() {
        match character {
            '"' => write!(out, "\\\"")?,
            '\\' => write!(out, "\\\\")?,
            '\n' => write!(out, "\\n")?,
            '\t' => write!(out, "\\t")?,
            control if control < ' ' => write!(out, "\\u{:04x}", control as u32)?,
            other => write!(out, "{other}")?,
        }
    }
    write!(out, "\"")
}

#[cfg(test)]
mod tests {
    use super::*;

    #[test]
    fn every_value_is_spelt_as_json_spells_it() {
        let value = Json::object([
            ("a", Json::from(18_446_744_073_709_551_615)),
            ("b", Json::List(vec![Json::Null, Json::from(true)])),
            ("c", Json::from("Zoë says \"1\\2\"\n\t\u{1}")),
            ("d", Json::object([])),
        ]);
        assert_eq!(
            value.to_string(),
            "{\"a\":18446744073709551615,\"b\":[null,true],\
             \"c\":\"Zoë says \\\"1\\\\2\\\"\\n\\t\\u0001\",\"d\":{}}"
        );
    }
}
