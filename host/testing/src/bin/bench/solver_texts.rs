//! What a solver prints: texts of the largest formula and of a school, read and
//! decoded, and read alone, and texts that are mostly comments.

use crate::programs::Side;
use crate::schools::generated;
use crate::table::{grouped, head, SOLVER_TEXTS};
use crate::Bench;
use testing::generate::{encode, many_variables, model, scattered, timetable, wrapped, Random};
use testing::reference::{print_model, LARGEST_FORMULA};

/// Who takes part in this table.
pub const SIDES: [Side; 4] = [Side::Engine, Side::Plain, Side::Reference, Side::Lines];

/// Bytes of a line as solvers print them.
const WIDTH: usize = 78;

/// Prints how long each text takes.
pub fn table(bench: &Bench) {
    let said = "A text without its last literal is refused by 21, so that nothing is decoded. \
                Counting lines is a loop in C that counts byte 10 and does no more.";
    head("Texts of solvers", said, &SOLVER_TEXTS);
    let variables = LARGEST_FORMULA / bench.scale.part as u64;
    let (instance, table) = many_variables(&mut Random::new(1), variables);
    let largest = Printed {
        name: format!("{} variables", grouped(variables)),
        file: encode(&instance),
        model: model(&instance, &table),
    };
    largest.rows(bench);
    // A line for each literal: none has room for a second one.
    let text = scattered(&mut Random::new(1), &largest.model, 2);
    let name = format!("{}, a line for each, in any order", largest.name);
    row(bench, &name, &largest.file, &text);
    school(bench).rows(bench);
    comments(bench);
}

/// A formula and a model of it.
struct Printed {
    name: String,
    file: Vec<u8>,
    model: Vec<u8>,
}

impl Printed {
    /// The model in lines, then without its last literal.
    fn rows(&self, bench: &Bench) {
        let last = self.model.len() - 1;
        row(bench, &self.name, &self.file, &wrapped(&self.model, WIDTH));
        let name = format!("{}, without the last literal", self.name);
        let text = wrapped(&self.model[..last], WIDTH);
        row(bench, &name, &self.file, &text);
    }
}

/// A generated school with every constraint soft, so that its timetable has a model.
fn school(bench: &Bench) -> Printed {
    let school = generated(bench.scale.printed);
    let mut instance = school.instance;
    for constraint in &mut instance.constraints {
        constraint.weight = constraint.weight.max(1);
    }
    let table = timetable(&mut Random::new(1), &instance);
    Printed {
        name: format!("{} lessons", school.lessons),
        file: encode(&instance),
        model: model(&instance, &table),
    }
}

/// Comments before the model of a small school: long lines, and the shortest.
fn comments(bench: &Bench) {
    let file = include_bytes!("../../../../schools/toy.instance");
    let model = include_bytes!("../../../../schools/toy.model");
    let long = [&b"c"[..], &b" 0123456"[..].repeat(WIDTH / 8), b"\n"].concat();
    for (name, line) in [("comments", &long[..]), ("comments of one byte", b"c\n")] {
        let mut text = line.repeat(bench.scale.comments / line.len());
        text.extend(print_model(model));
        row(bench, &format!("6 lessons, {name}"), file, &text);
    }
}

fn row(bench: &Bench, name: &str, file: &[u8], text: &[u8]) {
    let row = bench.row("solver_text", name.to_string(), &[file, text], &SIDES);
    println!("{}", row.solver_text(text.len()));
}
