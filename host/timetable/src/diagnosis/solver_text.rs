//! Refusals 20 and 21: what stands at a place of a solver's text, and how often
//! a variable is given in it.

use super::inputs::Inputs;
use crate::engine::model_length;
use crate::solver::answers;

/// What is wrong at the offset `at`: of a line, of what follows a v, or of a number.
pub fn bad_place(inputs: &Inputs, at: u64) -> Option<String> {
    let text = inputs.file;
    let at = usize::try_from(at).ok().filter(|&at| at < text.len())?;
    let rest = &text[at..];
    let reason = match at - line_start(text, at) {
        0 if rest[0] == b'\n' => "the line is empty; each begins with c, s, o or v".to_string(),
        0 => format!(
            "the line begins with {}, not with c, s, o or v",
            quoted(&rest[..1])
        ),
        1 => format!("after v comes {}, not a space", quoted(&rest[..1])),
        _ => bad_word(text, at, model_length(inputs.instance).ok()?)?,
    };
    Some(format!("{}: {reason}", place(text, at)))
}

/// What is wrong with the word at the offset `at`, in a text over so many variables.
fn bad_word(text: &[u8], at: usize, variables: usize) -> Option<String> {
    let word = text[at..].split(|byte| b" \n".contains(byte)).next()?;
    let shown = quoted(word);
    match variable_of(word) {
        Some(variable) if variable > variables as u64 => Some(format!(
            "{shown} is out of range: the variables are 1 to {variables}"
        )),
        None if word != b"0" => Some(format!(
            "{shown} is no literal: a minus or no sign, and a number without leading zeros"
        )),
        _ => {
            let before = words(text).take_while(|(start, _)| *start < at);
            let (closing, _) = before.filter(|(_, word)| *word == b"0").last()?;
            let closing = place(text, closing);
            Some(format!("{shown} comes after the closing 0 of {closing}"))
        }
    }
}

/// How often the text gives `variable`, which it does not give once.
pub fn not_given_once(inputs: &Inputs, variable: u64) -> Option<String> {
    let text = inputs.file;
    let part = answers::for_engine(text, model_length(inputs.instance).ok()?);
    let part = part.unwrap_or(0..text.len());
    let words: Vec<(usize, &[u8])> = words(text).filter(|(at, _)| part.contains(at)).collect();
    let given = words
        .iter()
        .filter(|(_, word)| variable_of(word) == Some(variable));
    let given: Vec<usize> = given.map(|(at, _)| *at).collect();
    match given[..] {
        [] if words.iter().any(|(_, word)| *word == b"0") => {
            Some(format!("variable {variable} is missing in the lines v"))
        }
        [] => Some(format!(
            "variable {variable} is missing in the lines v, and so is a closing 0: is the text cut \
             short?"
        )),
        [_] => None,
        [_, second, ..] => Some(format!(
            "variable {variable} is given {} times, the second time in {}",
            given.len(),
            place(text, second)
        )),
    }
}

/// The variable that a word names, if it is a literal; for one that no number of
/// 64 bits is, the largest.
fn variable_of(word: &[u8]) -> Option<u64> {
    let digits = word.strip_prefix(b"-").unwrap_or(word);
    let number = digits.iter().all(u8::is_ascii_digit) && !digits.is_empty();
    let digits = String::from_utf8_lossy(digits);
    (number && !digits.starts_with('0')).then(|| digits.parse().unwrap_or(u64::MAX))
}

/// The words of the lines v, with their offsets.
fn words(text: &[u8]) -> impl Iterator<Item = (usize, &[u8])> {
    let lines = parts(text, 0, b'\n').filter(|(_, line)| line.starts_with(b"v"));
    let words = lines.flat_map(|(at, line)| parts(line, at, b' ').skip(1));
    words.filter(|(_, word)| !word.is_empty())
}

/// The parts of `text` between the bytes `between`, with their offsets, if that of
/// `text` is `at`.
fn parts(text: &[u8], mut at: usize, between: u8) -> impl Iterator<Item = (usize, &[u8])> {
    let parts = text.split(move |&byte| byte == between);
    parts.map(move |part| {
        let start = at;
        at += part.len() + 1;
        (start, part)
    })
}

/// Where the line with the offset `at` begins.
fn line_start(text: &[u8], at: usize) -> usize {
    let before = text[..at].iter().rposition(|&byte| byte == b'\n');
    before.map_or(0, |before| before + 1)
}

/// The line and the column of the offset `at`, each from 1.
fn place(text: &[u8], at: usize) -> String {
    let line = text[..at].iter().filter(|&&byte| byte == b'\n').count() + 1;
    let column = at - line_start(text, at) + 1;
    format!("line {line}, column {column}")
}

/// The first bytes of a word, in a form that can be shown.
fn quoted(word: &[u8]) -> String {
    const SHOWN: usize = 24;
    let shown = String::from_utf8_lossy(&word[..word.len().min(SHOWN)]);
    let more = if word.len() > SHOWN { ".." } else { "" };
    format!("'{}{more}'", shown.escape_debug())
}
