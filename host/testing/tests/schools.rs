//! Two schools with a solver's model and refutation, and the answers expected.

mod support;

use support::both::{check, decode, read, same_sheet, score, sizes, text, text_size};
use testing::reference::{Infeasibility, Objective, Refusal, Score, Sizes, Summary};

struct School {
    file: &'static [u8],
    table: &'static [u8],
    model: &'static [u8],
    proof: &'static [u8],
    summary: Summary,
    cost: u64,
    without_tail: Sizes,
    text: u64,
    bound: u64,
    with_tail: Sizes,
    steps: u64,
    /// Words, rows and bytes that just fit.
    fits: [u64; 3],
}

macro_rules! school {
    ($name:literal, $kind:literal) => {
        include_bytes!(concat!("../../schools/", $name, ".", $kind))
    };
}

fn toy() -> School {
    let without_tail = Sizes {
        variables: 1_289,
        clauses: 4_114,
        words: 10_250,
        soft: 59,
        top: 0,
    };
    School {
        file: school!("toy", "instance"),
        table: school!("toy", "timetable"),
        model: school!("toy", "model"),
        proof: school!("toy", "proof"),
        summary: Summary {
            times: 9,
            events: 6,
            resources: 5,
            groups: 7,
            constraints: 43,
        },
        cost: 3,
        without_tail,
        text: 66_653,
        bound: 2,
        with_tail: Sizes {
            variables: 1_466,
            clauses: 4_759,
            words: 11_943,
            ..without_tail
        },
        steps: 81,
        fits: [12_016, 4_809, 1_466],
    }
}

fn small() -> School {
    let without_tail = Sizes {
        variables: 20_583,
        clauses: 73_808,
        words: 194_351,
        soft: 609,
        top: 0,
    };
    School {
        file: school!("small", "instance"),
        table: school!("small", "timetable"),
        model: school!("small", "model"),
        proof: school!("small", "proof"),
        summary: Summary {
            times: 25,
            events: 21,
            resources: 10,
            groups: 12,
            constraints: 181,
        },
        cost: 8,
        without_tail,
        text: 1_561_878,
        bound: 7,
        with_tail: Sizes {
            variables: 25_455,
            clauses: 92_635,
            words: 245_297,
            ..without_tail
        },
        steps: 530,
        fits: [245_982, 92_971, 25_455],
    }
}

#[test]
fn instances_are_accepted() {
    for school in [toy(), small()] {
        assert_eq!(read(school.file), Ok(school.summary));
    }
}

#[test]
fn sizes_without_and_with_the_tail() {
    for school in [toy(), small()] {
        for (bound, expected) in [
            (None, school.without_tail),
            (Some(school.bound), school.with_tail),
        ] {
            let found = sizes(school.file, bound).unwrap();
            assert_eq!(
                found,
                Sizes {
                    top: found.top,
                    ..expected
                }
            );
        }
    }
}

#[test]
fn the_text_has_the_expected_length_and_header() {
    for school in [toy(), small()] {
        assert_eq!(text_size(school.file), Ok(school.text));
        let length = school.text as usize;
        let mut out = vec![0xa5; length + 3];
        assert_eq!(text(school.file, &mut out), Ok(length));
        assert_eq!(out[length..], [0xa5; 3]);
        let found = sizes(school.file, None).unwrap();
        let header = format!(
            "p wcnf {} {} {}\n",
            found.variables,
            found.clauses + found.soft,
            found.top
        );
        assert!(out.starts_with(header.as_bytes()));
        let lines = out[..length].iter().filter(|&&byte| byte == b'\n').count() as u64;
        assert_eq!(lines, 1 + found.clauses + found.soft);

        let mut short = vec![0xa5; length - 1];
        assert_eq!(
            text(school.file, &mut short),
            Err(Refusal {
                number: 9,
                value: 0
            })
        );
        assert!(short.iter().all(|&byte| byte == 0xa5));
    }
}

#[test]
fn timetable_and_model_have_the_same_cost() {
    for school in [toy(), small()] {
        assert_eq!(
            score(school.file, school.table),
            Ok(Score {
                infeasibility: Infeasibility(0),
                objective: Objective(school.cost),
            })
        );
        let (part, cost) = decode(school.file, school.model).unwrap();
        assert_eq!(part, school.table);
        assert_eq!(cost, Objective(school.cost));
        assert_eq!(same_sheet(school.file, part, school.table), Ok(true));
    }
}

#[test]
fn a_model_with_one_derived_variable_changed_is_refused() {
    for school in [toy(), small()] {
        for at in (school.table.len()..school.model.len()).step_by(97) {
            let mut model = school.model.to_vec();
            model[at] ^= 1;
            let refusal = decode(school.file, &model).unwrap_err();
            assert_eq!(refusal.number, 13, "variable {}", at + 1);
        }
    }
}

#[test]
fn the_refutation_is_accepted_in_stores_that_just_fit() {
    for school in [toy(), small()] {
        let [words, rows, bytes] = school.fits;
        assert_eq!(
            check(school.file, school.bound, school.proof, words, rows, bytes),
            Ok(school.steps)
        );
    }
}

#[test]
fn one_word_or_row_less_is_refused_at_a_step() {
    for school in [toy(), small()] {
        let [words, rows, bytes] = school.fits;
        for [words, rows] in [[words - 1, rows], [words, rows - 1]] {
            let answer = check(school.file, school.bound, school.proof, words, rows, bytes);
            let refusal = answer.unwrap_err();
            assert_eq!(refusal.number, 17);
            assert!((1..school.steps).contains(&refusal.value));
        }
    }
}

#[test]
fn stores_too_short_for_the_formula_are_refused() {
    for school in [toy(), small()] {
        let Sizes {
            variables,
            clauses,
            words,
            ..
        } = school.with_tail;
        for [words, rows, bytes] in [
            [words - 1, clauses, variables],
            [words, clauses - 1, variables],
            [words, clauses, variables - 1],
        ] {
            assert_eq!(
                check(school.file, school.bound, school.proof, words, rows, bytes),
                Err(Refusal {
                    number: 9,
                    value: 0
                })
            );
        }
        // The formula alone fits; the first added clause does not.
        let answer = check(
            school.file,
            school.bound,
            school.proof,
            words,
            clauses,
            variables,
        );
        assert_eq!(answer.unwrap_err().number, 17);
    }
}

#[test]
fn the_refutation_is_refused_at_the_cost_and_above() {
    for school in [toy(), small()] {
        for bound in [school.cost, school.cost + 1, 100] {
            let sizes = sizes(school.file, Some(bound)).unwrap();
            let words = 2 * sizes.words;
            let rows = 2 * sizes.clauses;
            let answer = check(
                school.file,
                bound,
                school.proof,
                words,
                rows,
                sizes.variables,
            );
            assert!(answer.is_err(), "bound {bound}");
        }
    }
}
