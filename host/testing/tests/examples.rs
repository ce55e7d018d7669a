//! The checked examples of the specification.

mod support;

use support::both::{check, decode, idle_step, read, score, sizes, solver_text, text_program};
use support::{clauses, first_times, hex, numbers, refused, FILE_A, PROOF_A};
use testing::generate::model;
use testing::reference::{
    deviation, print_model, read_number, Infeasibility, Instance, Kept, Objective, Range, Score,
};

fn scored<E>(infeasibility: u64, objective: u64) -> Result<Score, E> {
    Ok(Score {
        infeasibility: Infeasibility(infeasibility),
        objective: Objective(objective),
    })
}

#[test]
fn text_of_file_a() {
    let expected = b"p wcnf 4 8 5\n5 1 -2 0\n5 -1 2 0\n5 -1 3 0\n5 1 -3 0\n5 3 0\n5 -2 4 0\n5 2 -4 0\n4 -4 0\n";
    assert_eq!(text_program(&hex(FILE_A)), expected);
}

#[test]
fn timetables_of_file_a() {
    assert_eq!(score(&hex(FILE_A), &hex("01 01")), scored(0, 4));
    assert_eq!(score(&hex(FILE_A), &hex("00 00")), refused(12, 1));
}

#[test]
fn proofs_of_file_a() {
    let run = |bound, proof: &str| check(&hex(FILE_A), bound, &hex(proof), 99, 99, 99);
    assert_eq!(run(3, PROOF_A), Ok(1));
    // Without the hint 2, clause 6 has two open literals.
    assert_eq!(run(3, "61 11 00 05 04 06 0E 10 00"), refused(16, 1));
    assert_eq!(run(4, PROOF_A), refused(14, 1));
    assert_eq!(run(4, "61 13 00 05 04 02 06 0E 10 00"), refused(16, 1));
    assert_eq!(run(3, ""), refused(18, 0));
}

/// What solvers print, read for file A.
#[test]
fn solver_texts_of_file_a() {
    let read_a = |text: &str| solver_text(&hex(FILE_A), text.as_bytes(), 4, 4);
    for text in [
        "v 1 2 3 4 0\n",
        "v 1 2 3 4\n",
        "v 1 2 3 4",
        "c\r\ns\nv 1 2 \nox\nv  3 4 0\nv",
    ] {
        let filled = Ok((hex("01 01 01 01"), 2, Objective(4)));
        assert_eq!(read_a(text), filled, "{text:?}");
    }
    for (text, number, value) in [
        ("", 21, 1),
        ("v", 21, 1),
        ("\n", 20, 0),
        (" v 1 2", 20, 0),
        ("v 1 2 3 4\n\n", 20, 10),
        ("v1", 20, 1),
        ("v\t1", 20, 1),
        ("v 1 2 0\nv 3 4", 20, 10),
        ("v 1 2 3 4 0 0", 20, 12),
        ("v 1 2x", 20, 4),
        ("v 01", 20, 2),
        ("v -0", 20, 2),
        ("v +", 20, 2),
        ("v -", 20, 2),
        ("v 1\r\n", 20, 2),
        ("v 5", 20, 2),
        ("v 1 2 3 4 1", 21, 1),
        ("v 1 2 3 4 -2", 21, 2),
        ("v 1 3 4 3 4", 21, 2),
        ("v 1 2 3 4 1 5", 20, 12),
        ("v -1 2 3 4", 13, 1),
        ("v 1 2 3 -4 0\n", 13, 6),
    ] {
        assert_eq!(read_a(text), refused(number, value), "{text:?}");
    }
}

/// A text of another line, in lent models and stores of these lengths.
#[test]
fn lengths_for_a_solver_text_of_file_a() {
    let read_x = |model, store| solver_text(&hex(FILE_A), b"x", model, store);
    assert_eq!(read_x(3, 3), refused(9, 0));
    assert_eq!(read_x(3, 4), refused(10, 4));
    assert_eq!(read_x(5, 9), refused(10, 4));
    assert_eq!(read_x(4, 9), refused(20, 0));
}

#[test]
fn text_of_a_model() {
    assert_eq!(print_model(&[1, 0]), b"v 1 -2 0\n");
}

#[test]
fn deviations() {
    let range = Range { lo: 1, hi: 2 };
    assert_eq!([0, 2, 3].map(|count| deviation(count, range)), [1, 0, 1]);
}

/// Kind 6, 3 to 5, on a day of five times; the event has one time, outside or inside.
#[test]
fn busy_limit_deviations() {
    let file = numbers(&[6, 1, 1, 1, 1, 1, 1, 5, 1, 2, 3, 4, 5, 1, 6, 1, 1, 1, 3, 5]);
    assert_eq!(
        score(&file, &hex("00 00 00 00 00 01 00 00 00 00 00 01")),
        scored(0, 0)
    );
    assert_eq!(score(&file, &first_times(6, 1, 1)), scored(0, 2));
}

#[test]
fn idle_times() {
    let file = numbers(&[
        6, 1, 1, 2, 1, 1, 1, 6, 1, 2, 3, 4, 5, 6, 1, 8, 1, 1, 1, 1, 0, 0,
    ]);
    assert_eq!(
        score(&file, &hex("00 01 00 00 01 00 00 01 00 00 01 00")),
        scored(0, 2)
    );
}

/// Idle, since and seen after each member of a group of six with X at members 2 and 5,
/// then after steps from numbers that no walk keeps.
#[test]
fn idle_times_in_one_walk() {
    let step = |[idle, since, seen]: [u32; 3], used| {
        let next = idle_step(Kept { idle, since, seen }, used);
        [next.idle, next.since, next.seen]
    };
    let mut last = [0; 3];
    let walked = [0, 1, 0, 0, 1, 0].map(|used| {
        last = step(last, used);
        last
    });
    let expected = [
        [0, 0, 0],
        [0, 0, 1],
        [0, 1, 1],
        [0, 2, 1],
        [2, 0, 1],
        [2, 1, 1],
    ];
    assert_eq!(walked, expected);
    let most = u32::MAX;
    assert_eq!(step([7, 3, 9], 0), [7, 4, 1]);
    assert_eq!(step([7, 3, 9], 5), [10, 0, 1]);
    assert_eq!(step([most, 1, 1], 1), [most, 0, 1]);
    assert_eq!(step([5, most, 1], 0), [5, most, 1]);
    assert_eq!(step([0, 5, 0], 0), [0, 5, 0]);
    assert_eq!(step([0, 5, 0], 1), [5, 0, 1]);
}

/// A double in two times, with a group of one of them: it costs its whole length
/// if it starts outside, wherever it ends.
#[test]
fn preferred_times() {
    let with = |member| numbers(&[2, 1, 0, 2, 0, 1, 1, member, 1, 3, 1, 1, 1]);
    let double = hex("01 01 01 00");
    assert_eq!(score(&with(2), &double), scored(0, 2));
    assert_eq!(score(&with(1), &double), scored(0, 0));
    assert_eq!(score(&with(1), &hex("01 01 01 01")), scored(0, 1));
}

/// The clauses of a hard kind 3 for an event of duration 2 in three times: its
/// gates, a counter of one column over its members, the unit.
#[test]
fn clauses_of_preferred_times() {
    let added = |member| {
        let start = [3, 1, 0, 2, 0, 1, 1, member];
        let all = clauses(&numbers(&[&start[..], &[1, 3, 0, 1, 1]].concat()), None);
        let without = clauses(&numbers(&[&start[..], &[0]].concat()), None);
        all[without.len()..].to_vec()
    };
    let scattered: [&[i64]; 15] = [
        &[2, -16],
        &[-5, -16],
        &[-2, 5, 16],
        &[4, -17],
        &[16, -17],
        &[-4, -16, 17],
        &[-4, 18],
        &[4, -18],
        &[-18, 19],
        &[-17, 19],
        &[17, 18, -19],
        &[-19, 20],
        &[-6, 20],
        &[6, 19, -20],
        &[-20],
    ];
    assert_eq!(added(2), scattered);
    let adjacent: [&[i64]; 15] = [
        &[3, -16],
        &[-6, -16],
        &[-3, 6, 16],
        &[5, -17],
        &[16, -17],
        &[-5, -16, 17],
        &[-6, 18],
        &[-17, 18],
        &[6, 17, -18],
        &[-5, 19],
        &[5, -19],
        &[-19, 20],
        &[-18, 20],
        &[18, 19, -20],
        &[-20],
    ];
    assert_eq!(added(1), adjacent);
}

/// "Two doubles and a single" in six times: two subevents of length 2, one of
/// length 1, none of another length.
#[test]
fn two_doubles_and_a_single() {
    let file = hex("06 01 00 05 00 00 03 09 00 01 02 02 02 09 00 01 01 01 01 0A 00 01 01 02");
    let kept = hex("01 01 01 01 00 01 01 00 01 00 00 01");
    assert_eq!(score(&file, &kept), scored(0, 0));
    let model = model(&Instance::read(&file).unwrap(), &kept);
    assert_eq!(decode(&file, &model), Ok((&kept[..], Objective(0))));
    // A triple and a double: a double and the single are missing, the triple is too long.
    let broken = hex("01 01 01 00 01 01 01 00 00 00 01 00");
    assert_eq!(score(&file, &broken), scored(3, 0));
}

/// One double, at weight 1.
#[test]
fn doubles() {
    let with = |times, duration| numbers(&[times, 1, 0, duration, 0, 0, 1, 9, 1, 1, 2, 1, 1]);
    let last = hex("00 00 00 00 01 01 00 00 00 00 01 00");
    assert_eq!(score(&with(6, 2), &last), scored(0, 0));
    assert_eq!(score(&with(2, 2), &hex("01 01 01 00")), scored(0, 0));
    assert_eq!(score(&with(2, 2), &hex("01 01 01 01")), scored(0, 1));
    assert_eq!(score(&with(2, 1), &hex("01 00 01 00")), scored(0, 1));
}

/// The clauses of a hard kind 9 for length 2, 1 to 1, beside its counter.
#[test]
fn clauses_of_doubles() {
    let all = clauses(&numbers(&[3, 1, 0, 2, 0, 0, 1, 9, 0, 1, 2, 1, 1]), None);
    let first = all.iter().position(|clause| *clause == [2, -16]).unwrap();
    let expected: [&[i64]; 18] = [
        &[2, -16],
        &[-5, -16],
        &[-2, 5, 16],
        &[3, -17],
        &[-6, -17],
        &[-3, 6, 17],
        &[-18],
        &[4, -19],
        &[16, -19],
        &[-17, -19],
        &[-4, -16, 17, 19],
        &[5, -20],
        &[17, -20],
        &[-18, -20],
        &[-5, -17, 18, 20],
        &[6, -21],
        &[18, -21],
        &[-6, -18, 21],
    ];
    assert_eq!(all[first..first + 18], expected);
    assert_eq!(all[all.len() - 2..], [vec![26], vec![-27]]);
}

/// "A theory lesson comes before its laboratory", at weight 1: a gap of 0 to 0 in three
/// times, then 0 to 124 in four where the first event has two times.
#[test]
fn one_lesson_before_another() {
    let file = numbers(&[3, 2, 0, 1, 0, 1, 0, 0, 1, 11, 1, 1, 2, 0, 0]);
    let at = |taken: &str| score(&file, &hex(&format!("{taken} {taken}")));
    assert_eq!(at("01 00 00 00 01 00"), scored(0, 0));
    assert_eq!(at("01 00 00 00 00 01"), scored(0, 1));
    assert_eq!(at("00 01 00 01 00 00"), scored(0, 1));
    let file = numbers(&[4, 2, 0, 2, 0, 1, 0, 0, 1, 11, 1, 1, 2, 0, 124]);
    let at = |taken: &str| score(&file, &hex(&format!("{taken} {taken}")));
    assert_eq!(at("01 00 01 00 00 01 00 00"), scored(0, 1));
    assert_eq!(at("01 00 01 00 00 00 00 01"), scored(0, 0));
}

/// A precedence of the events 1 and 2 at one time.
#[test]
fn refusals_of_precedence() {
    let with = |fields: [u32; 4]| {
        let start = [1, 2, 0, 1, 0, 1, 0, 0, 1, 11, 0];
        read(&numbers(&[&start[..], &fields].concat())).map(|_| ())
    };
    assert_eq!(with([1, 1, 1, 0]), refused(19, 9));
    assert_eq!(with([1, 1, 125, 0]), refused(2, 13));
    assert_eq!(with([1, 2, 1, 0]), refused(5, 9));
    assert_eq!(with([1, 2, 0, 125]), refused(2, 14));
    assert_eq!(with([2, 1, 124, 124]), Ok(()));
}

/// The clauses that a hard kind 11 adds where both events have duration 1: in four times
/// for 0 to 0, in three for 1 to 1, in two for 1 to 1. Y of the first event comes first.
#[test]
fn clauses_of_precedence() {
    let added = |times: u32, lo: u32, hi: u32| {
        let start = [times, 2, 0, 1, 0, 1, 0, 0];
        let constraint = [1, 11, 0, 1, 2, lo, hi];
        let all = clauses(&numbers(&[&start[..], &constraint].concat()), None);
        let without = clauses(&numbers(&[&start[..], &[0]].concat()), None);
        all[without.len()..].to_vec()
    };
    let all_gates: [&[i64]; 36] = [
        &[-5, 33],
        &[5, -33],
        &[-6, 34],
        &[-33, 34],
        &[6, 33, -34],
        &[-7, 35],
        &[-34, 35],
        &[7, 34, -35],
        &[2, -36],
        &[34, -36],
        &[-2, -34, 36],
        &[3, -37],
        &[35, -37],
        &[-3, -35, 37],
        &[-3, 38],
        &[-4, 38],
        &[3, 4, -38],
        &[-2, 39],
        &[-38, 39],
        &[2, 38, -39],
        &[-34, -40],
        &[-39, -40],
        &[34, 39, 40],
        &[-35, -41],
        &[-38, -41],
        &[35, 38, 41],
        &[-4, 42],
        &[-33, 42],
        &[-36, 42],
        &[-37, 42],
        &[-40, 42],
        &[-41, 42],
        &[4, 33, 36, 37, 40, 41, -42],
        &[-42, 43],
        &[42, -43],
        &[-43],
    ];
    assert_eq!(added(4, 0, 0), all_gates);
    let one_start: [&[i64]; 10] = [
        &[-4, 25],
        &[-5, 25],
        &[4, 5, -25],
        &[-2, 26],
        &[-3, 26],
        &[-25, 26],
        &[2, 3, 25, -26],
        &[-26, 27],
        &[26, -27],
        &[-27],
    ];
    assert_eq!(added(3, 1, 1), one_start);
    let no_start: [&[i64]; 6] = [
        &[-1, 17],
        &[-2, 17],
        &[1, 2, -17],
        &[-17, 18],
        &[17, -18],
        &[-18],
    ];
    assert_eq!(added(2, 1, 1), no_start);
}

/// A soft split counts the starts 1, 0, 1.
#[test]
fn last_row_of_a_counter() {
    let file = numbers(&[3, 1, 0, 2, 0, 0, 1, 4, 1, 1, 0, 0]);
    let table = hex("01 00 01 01 00 01");
    let model = model(&Instance::read(&file).unwrap(), &table);
    assert_eq!(decode(&file, &model), Ok((&table[..], Objective(2))));
    assert_eq!(model[model.len() - 3..], [1, 1, 0]);
}

#[test]
fn numbers_in_groups_of_seven_bits() {
    assert_eq!(read_number(&[0x80, 0x01], 0), Some((128, 2)));
    assert_eq!(read(&hex("80 00")), refused(1, 0));
}

/// A week of six periods: 8:00 to 8:45, 8:50 to 9:35 and 10:00 to 11:30 on days 1 and 5;
/// windows in the morning of day 5, over its second and third period, and of day 2.
#[test]
fn windows_are_groups_of_periods() {
    let periods = [3, 480, 525, 530, 575, 600, 690];
    let mut values = vec![0];
    values.extend(periods);
    values.extend([0, 0, 0]);
    values.extend(periods);
    values.extend([0, 0, 1, 1, 1, 1, 1]);
    // One group, then the windows: groups 2 to 4.
    values.extend([1, 2, 1, 4, 3]);
    values.extend([5, 480, 575, 5, 530, 690, 2, 0, 1_440]);
    let constraints = |group| [1, 2, 7, 1, group];
    let objective = |group, time: usize| {
        let file = numbers(&[&values[..], &constraints(group)].concat());
        let mut table = vec![0; 12];
        (table[time - 1], table[6 + time - 1]) = (1, 1);
        score(&file, &table).map(|score| score.objective.0 / 7)
    };
    let members = |group| -> Vec<usize> {
        let with = |time: &usize| objective(group, *time) == Ok(1);
        (1..=6).filter(with).collect()
    };
    assert_eq!(members(1), [1, 4]);
    assert_eq!(members(2), [4, 5]);
    assert_eq!(members(3), [5, 6]);
    assert_eq!(members(4), [0; 0]);
    let beyond = numbers(&[&values[..], &constraints(5)].concat());
    assert_eq!(read(&beyond), refused(3, beyond.len() as u64 - 1));
}

#[test]
fn limits() {
    let with_times = |times| read(&numbers(&[times, 1, 0, 1, 0, 0, 0]));
    assert_eq!(with_times(125).unwrap().times, 125);
    assert_eq!(with_times(126), refused(2, 0));

    // A cluster over all groups counts a list of that length.
    let with_groups = |groups: u32| {
        let mut values = vec![1, 1, 1, 1, 0, groups];
        values.extend(vec![0; groups as usize]);
        values.extend([1, 7, 0, 1, groups]);
        values.extend(1..=groups);
        values.extend([0, 0]);
        read(&numbers(&values))
    };
    assert_eq!(with_groups(255).unwrap().groups, 255);
    assert_eq!(with_groups(256).unwrap_err().number, 4);

    assert!(sizes(&hex(FILE_A), Some(4_095)).is_ok());
    assert_eq!(sizes(&hex(FILE_A), Some(4_096)), refused(7, 4_096));
}
