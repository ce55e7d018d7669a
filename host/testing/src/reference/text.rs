//! The formula as "p wcnf" text, and the text program.

use super::clauses::{walk, Literal, Sink, Sizes};
use super::instance::Instance;
use super::refusal::refuse;
use timetable::engine::Refusal;

/// Bytes the text program lends for the file, and as many for the text.
pub const TEXT_PROGRAM_BYTES: usize = 65_536;

/// The length of the text, or 1 to 6, 8, 19, 22.
pub fn text_size(file: &[u8]) -> Result<u64, Refusal> {
    let instance = Instance::read(file)?;
    let sizes = Sizes::of(&instance, None)?;
    Ok(length(&instance, &sizes))
}

/// Writes the text to the front of `out` and gives its length, or 1 to 6, 8, 9, 19, 22.
pub fn text(file: &[u8], out: &mut [u8]) -> Result<usize, Refusal> {
    let instance = Instance::read(file)?;
    let sizes = Sizes::of(&instance, None)?;
    let length = length(&instance, &sizes);
    if (out.len() as u64) < length {
        return refuse(9, 0);
    }
    let mut sink = Lines {
        output: Written { out, length: 0 },
        top: sizes.top,
        soft: Vec::with_capacity(sizes.soft as usize),
    };
    sink.all(&instance, &sizes);
    debug_assert!(sink.output.length as u64 == length);
    Ok(sink.output.length)
}

/// What the text program prints for `input` on standard input.
pub fn text_program(input: &[u8]) -> Vec<u8> {
    let mut out = vec![0; TEXT_PROGRAM_BYTES];
    let answer = if input.len() > TEXT_PROGRAM_BYTES {
        refuse(9, 0)
    } else {
        text(input, &mut out)
    };
    match answer {
        Ok(length) => {
            out.truncate(length);
            out
        }
        Err(Refusal { number, value }) => format!("{number} {value}\n").into_bytes(),
    }
}

fn length(instance: &Instance, sizes: &Sizes) -> u64 {
    let mut sink = Lines {
        output: Measured { length: 0 },
        top: sizes.top,
        soft: Vec::with_capacity(sizes.soft as usize),
    };
    sink.all(instance, sizes);
    sink.output.length
}

/// Where the text goes: it is written, or only measured.
trait Output {
    fn bytes(&mut self, bytes: &[u8]);
    fn decimal(&mut self, value: u64);
}

struct Written<'a> {
    out: &'a mut [u8],
    length: usize,
}

impl Output for Written<'_> {
    fn bytes(&mut self, bytes: &[u8]) {
        self.out[self.length..][..bytes.len()].copy_from_slice(bytes);
        self.length += bytes.len();
    }

    fn decimal(&mut self, mut value: u64) {
        let end = self.length + digits(value);
        for byte in self.out[self.length..end].iter_mut().rev() {
            *byte = b'0' + (value % 10) as u8;
            value /= 10;
        }
        self.length = end;
    }
}

struct Measured {
    length: u64,
}

impl Output for Measured {
    fn bytes(&mut self, bytes: &[u8]) {
        self.length += bytes.len() as u64;
    }

    fn decimal(&mut self, value: u64) {
        self.length += digits(value) as u64;
    }
}

/// The number of decimal digits of `value`.
fn digits(value: u64) -> usize {
    let mut count = 1;
    let mut limit = 10;
    while value >= limit {
        count += 1;
        limit *= 10;
    }
    count
}

/// Writes hard clauses as lines and keeps the soft units for the end.
struct Lines<O> {
    output: O,
    top: u64,
    soft: Vec<(u32, Literal)>,
}

impl<O: Output> Lines<O> {
    fn all(&mut self, instance: &Instance, sizes: &Sizes) {
        self.output.bytes(b"p wcnf ");
        self.output.decimal(sizes.variables);
        self.output.bytes(b" ");
        self.output.decimal(sizes.clauses + sizes.soft);
        self.output.bytes(b" ");
        self.output.decimal(sizes.top);
        self.output.bytes(b"\n");
        walk(instance, self);
        for (weight, unit) in std::mem::take(&mut self.soft) {
            self.line(u64::from(weight), &[unit]);
        }
    }

    fn line(&mut self, weight: u64, clause: &[Literal]) {
        self.output.decimal(weight);
        for &literal in clause {
            let before: &[u8] = if literal.is_negated() { b" -" } else { b" " };
            self.output.bytes(before);
            self.output.decimal(u64::from(literal.variable()));
        }
        self.output.bytes(b" 0\n");
    }
}

impl<O: Output> Sink for Lines<O> {
    fn hard(&mut self, clause: &[Literal]) {
        self.line(self.top, clause);
    }

    fn soft(&mut self, weight: u32, unit: Literal) {
        self.soft.push((weight, unit));
    }
}
