//! What a solver prints, read as a model and decoded: refusals 9, 10, 20, 21 and
//! those of decoding but 11.

use super::clauses::Sizes;
use super::instance::Instance;
use super::model::decode;
use super::refusal::refuse;
use timetable::engine::{Objective, Refusal};

/// The model that `text` gives, the length of its part that is the timetable, and
/// its cost; or 1 to 6, 8 to 10, 13, 19 to 22. The lent model and the store are
/// given by their lengths.
pub fn solver_text(
    file: &[u8],
    text: &[u8],
    model_length: usize,
    store_length: usize,
) -> Result<(Vec<u8>, usize, Objective), Refusal> {
    let instance = Instance::read(file)?;
    let variables = Sizes::of(&instance, None)?.variables as usize;
    if store_length < variables {
        return refuse(9, 0);
    }
    if model_length != variables {
        return refuse(10, variables as u64);
    }
    let model = model_of(variables, &literals(text, variables)?)?;
    let (part, cost) = decode(file, &model)?;
    let part = part.len();
    Ok((model, part, cost))
}

/// The text of a model: one line with a literal for each variable in turn and the
/// closing 0.
pub fn print_model(model: &[u8]) -> Vec<u8> {
    let mut text = b"v".to_vec();
    for (index, &value) in model.iter().enumerate() {
        let sign = if value == 1 { "" } else { "-" };
        text.extend(format!(" {sign}{}", index + 1).bytes());
    }
    text.extend(b" 0\n");
    text
}

/// A variable from 1, and whether it is given without a minus.
type Given = (usize, bool);

/// What the lines of values give, in the order of the text; or 20 with the offset of
/// the first fault.
fn literals(text: &[u8], variables: usize) -> Result<Vec<Given>, Refusal> {
    let mut literals = Vec::new();
    let mut closed = false;
    for (offset, line) in lines(text) {
        let values = match line {
            [b'c' | b's' | b'o', ..] => continue,
            [b'v', values @ ..] => values,
            _ => return refuse(20, offset as u64),
        };
        if values.first().is_some_and(|&byte| byte != b' ') {
            return refuse(20, offset as u64 + 1);
        }
        for (at, word) in words(values) {
            let literal = literal(word, variables);
            match (closed, word, literal) {
                (false, b"0", _) => closed = true,
                (false, _, Some(literal)) => literals.push(literal),
                _ => return refuse(20, (offset + 1 + at) as u64),
            }
        }
    }
    Ok(literals)
}

/// The lines of a text with their offsets, without the byte that ends them. The end
/// of the text begins none.
fn lines(text: &[u8]) -> impl Iterator<Item = (usize, &[u8])> {
    let mut next = 0;
    text.split_inclusive(|&byte| byte == b'\n')
        .map(move |line| {
            let offset = next;
            next += line.len();
            (offset, line.strip_suffix(b"\n").unwrap_or(line))
        })
}

/// What stands between the spaces of a line, with its offset in the line.
fn words(line: &[u8]) -> impl Iterator<Item = (usize, &[u8])> {
    let mut next = 0;
    let pieces = line.split(|&byte| byte == b' ').map(move |word| {
        let offset = next;
        next += word.len() + 1;
        (offset, word)
    });
    pieces.filter(|(_, word)| !word.is_empty())
}

/// The literal that a word is: a minus or nothing, then a number from 1 to `variables`
/// in digits of which the first is not 0.
fn literal(word: &[u8], variables: usize) -> Option<Given> {
    let (digits, positive) = match word {
        [b'-', digits @ ..] => (digits, false),
        digits => (digits, true),
    };
    if !digits.iter().all(u8::is_ascii_digit) || digits.first() == Some(&b'0') {
        return None;
    }
    // Without a digit there is no number; one too large for the type is out of range.
    let number = std::str::from_utf8(digits).ok()?.parse().ok()?;
    (number <= variables).then_some((number, positive))
}

/// The model that gives each variable as its only literal says; or 21 with the lowest
/// variable that has no literal, or more than one.
fn model_of(variables: usize, literals: &[Given]) -> Result<Vec<u8>, Refusal> {
    let mut model = vec![0; variables];
    let mut times = vec![0u64; variables];
    for &(variable, positive) in literals {
        model[variable - 1] = u8::from(positive);
        times[variable - 1] += 1;
    }
    match times.iter().position(|&times| times != 1) {
        Some(index) => refuse(21, index as u64 + 1),
        None => Ok(model),
    }
}
