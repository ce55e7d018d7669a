//! Runs every case of vectors/cases.txt, by the reference and by the engine.

mod support;

use support::both::{
    check, decode, read, same_sheet, score, sizes, solver_text, text, text_program, text_size,
};
use support::cases::{self, Case};
use testing::reference::Refusal;

#[test]
fn every_case_has_the_expected_answer() {
    assert_eq!(cases::compare(|case| Some(answer(case))), 2_794);
}

#[test]
fn unparsable_lines_are_seen() {
    for line in [
        "",
        "read",
        "read 01",
        "read 0 = accepted",
        "read 0g = accepted",
        "read +1 = accepted",
        "read 01 02 = refused 1 1",
        "sizing 01 some = refused 1 1",
        "check 01 0 - 1 1 = refused 1 1",
        "solver_text 01 - 4 = refused 1 1",
        "solver_text 01 - 4 -4 = refused 1 1",
        "solve 01 = refused 1 1",
    ] {
        assert!(cases::parse(line).is_none(), "{line}");
    }
}

/// The answer, in the form of the file.
fn answer(case: &Case) -> Result<String, Refusal> {
    match case {
        Case::Read(file) => read(file).map(cases::accepted),
        Case::Score(file, table) => score(file, table).map(cases::scored),
        Case::SameSheet(file, first, second) => {
            same_sheet(file, first, second).map(cases::compared)
        }
        Case::Sizing(file, bound) => sizes(file, *bound).map(cases::sized),
        Case::Wcnf(file, length) => {
            let mut out = vec![0xa5; *length];
            let answer = text(file, &mut out);
            let written = answer.unwrap_or(0);
            assert!(
                out[written..].iter().all(|&byte| byte == 0xa5),
                "bytes beyond the text changed"
            );
            if answer.is_ok() {
                assert_eq!(text_size(file), Ok(written as u64));
            }
            Ok(cases::written(&out[..answer?]))
        }
        Case::TextProgram(input) => Ok(cases::printed(&text_program(input))),
        Case::Decode(file, model) => {
            let (part, cost) = decode(file, model)?;
            assert_eq!(part, &model[..part.len()]);
            Ok(cases::decoded(part, cost))
        }
        Case::SolverText(file, text, [model, store]) => {
            let (model, part, cost) = solver_text(file, text, *model, *store)?;
            Ok(cases::filled(&model, part, cost))
        }
        Case::Check(file, bound, proof, [words, rows, marks]) => {
            check(file, *bound, proof, *words, *rows, *marks).map(cases::refuted)
        }
    }
}
