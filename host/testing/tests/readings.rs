//! Places where the specification can be read two ways. Each test is named by
//! what it decides, and says which decision of docs/DECISIONS.md that is.
//!
//! What the lent stores hold before and after a call (decisions 51 and 52) is
//! compared with every check and every solver's text: `support::both` lends stores
//! that are not zero.

mod support;

use support::both::{
    check, check_hard, decode, idle_step, read, same_sheet, score, sizes, solver_text, text,
    text_program, text_size,
};
use support::{clauses, first_times, hex, numbers, oversized, refused, FILE_A, PROOF_A};
use testing::generate::model;
use testing::prover::{clause_list, solve, Verdict};
use testing::reference::{
    print_model, Infeasibility, Instance, Kept, Objective, Refusal, Score, Sizes, Summary,
};
use testing::steps::encode_steps;

fn read_of(file: &str) -> Result<Summary, Refusal> {
    read(&hex(file))
}

/// File A at bound 3 in ample stores.
fn check_a(proof: &str) -> Result<u64, Refusal> {
    check(&hex(FILE_A), 3, &hex(proof), 1_000, 1_000, 1_000)
}

fn scored(infeasibility: u64, objective: u64) -> Result<Score, Refusal> {
    Ok(Score {
        infeasibility: Infeasibility(infeasibility),
        objective: Objective(objective),
    })
}

mod general {
    use super::*;

    /// Decision 35: Without soft units a refutation says that the hard constraints
    /// cannot be kept, at every bound.
    #[test]
    fn without_soft_units_the_bound_does_not_matter() {
        let file = hex("01 01 01 01 01 01 01 01 01 01 02 00 01 01");
        let instance = Instance::read(&file).unwrap();
        let clauses = clause_list(&instance, Some(0));
        let sizes = sizes(&file, Some(0)).unwrap();
        let Verdict::Refutation(steps) = solve(sizes.variables as usize, &clauses) else {
            panic!("the only event cannot avoid the only time");
        };
        let proof = encode_steps(&steps);
        for bound in [0, 1, 4_095] {
            assert_eq!(
                check(&file, bound, &proof, 1_000, 1_000, 1_000),
                Ok(steps.len() as u64)
            );
        }
        // A with weight 0 has the unit as its eighth hard clause.
        let hard = hex("01 01 00 01 00 01 00 01 03 00 01 01");
        let proof = hex("61 09 00 05 04 02 06 08 00");
        for bound in [0, 4_095] {
            assert_eq!(check(&hard, bound, &proof, 1_000, 1_000, 1_000), Ok(1));
        }
    }

    /// Decision 58: Without the tail a check asks whether any timetable keeps the hard
    /// constraints.
    #[test]
    fn without_the_tail_the_cost_does_not_matter() {
        let hard = hex("01 01 00 01 00 01 00 01 03 00 01 01");
        let lent = [1_000; 3];
        let proof = hex("61 09 00 05 04 02 06 08 00");
        assert_eq!(check_hard(&hard, &proof, lent), Ok(1));
        let proof = hex(PROOF_A);
        assert_eq!(check_hard(&hex(FILE_A), &proof, lent), refused(15, 1));
    }
}

mod calendars {
    use super::*;

    /// One period on day 1 from 0 to 5, one event and no group, then `rest`.
    fn one_period(rest: &str) -> Vec<u8> {
        hex(&format!(
            "00 01 00 05 00 00 00 00 00 00 01 00 01 00 00 {rest}"
        ))
    }

    fn accepted(file: &[u8]) -> Option<(usize, usize)> {
        let found = read(file).ok()?;
        Some((found.times, found.groups))
    }

    /// Decision 98: 22 gives the first byte of the count, period or window, whichever of
    /// its numbers breaks a rule.
    #[test]
    fn a_fault_stands_at_the_period_or_window() {
        assert_eq!(read_of("00 01 00 A1 0B"), refused(22, 2));
        assert_eq!(read(&one_period("01 01 00 A1 0B 00")), refused(22, 16));
        assert_eq!(read(&one_period("01 01 A1 0B 00 00")), refused(22, 16));
        // Of the second period and the second window.
        assert_eq!(read_of("00 02 00 05 05 A1 0B"), refused(22, 4));
        assert_eq!(
            read(&one_period("02 01 00 05 01 00 A1 0B")),
            refused(22, 19)
        );
        assert_eq!(read_of("00 00 19"), refused(22, 2));
    }

    /// Decision 99: A limit is looked at as its number is read, order after the period's
    /// end; a bad number is 1 with its own offset.
    #[test]
    fn limits_come_before_the_next_number_and_order_after_the_end() {
        assert_eq!(read_of("00 01 A1 0B"), refused(22, 2));
        assert_eq!(read_of("00 01 A1 0B 80"), refused(22, 2));
        assert_eq!(read_of("00 01 05 05"), refused(22, 2));
        assert_eq!(read_of("00 01 06 05"), refused(22, 2));
        assert_eq!(read_of("00 01 05 80"), refused(1, 3));
        assert_eq!(read_of("00 01 05"), refused(1, 3));
        assert_eq!(read_of("00 02 00 05 04 09"), refused(22, 4));
        assert_eq!(read_of("00 02 00 05 04 80"), refused(1, 5));
        assert_eq!(read_of("00 02 00 05 04"), refused(1, 5));
        // A period cannot start at the day's end, which is no limit of its start.
        assert_eq!(read_of("00 01 A0 0B 80"), refused(1, 4));
        assert_eq!(read_of("00 01 A0 0B A0 0B"), refused(22, 2));
        assert_eq!(read_of("00 19"), refused(22, 1));
        assert_eq!(read_of("00"), refused(1, 1));
        assert_eq!(read_of("80 00"), refused(1, 0));
        assert_eq!(read_of("7E"), refused(2, 0));
        // In windows too.
        assert_eq!(read(&one_period("01 08")), refused(22, 16));
        assert_eq!(read(&one_period("01 01 A1 0B 80")), refused(22, 16));
        assert_eq!(read(&one_period("01 01 80")), refused(1, 17));
    }

    /// Decision 100: No period or more than 125 are seen after day 7 and before the
    /// events, and give the offset of the 0 in place of T.
    #[test]
    fn the_number_of_periods_is_looked_at_after_the_last_day() {
        assert_eq!(read_of("00 00 00 00 00 00 00 00"), refused(22, 0));
        assert_eq!(read_of("00 00 00 00 00 00 00 00 80"), refused(22, 0));
        assert_eq!(read_of("00 00 00 00 00 00 00"), refused(1, 7));
        // A fault of day 7 comes first: its count, and one of its periods.
        let six_days = {
            let mut values = vec![0];
            for _ in 0..6 {
                values.push(24);
                values.extend((0..24).flat_map(|at| [at, at + 1]));
            }
            values
        };
        let with = |rest: &[u32]| read(&numbers(&[&six_days[..], rest].concat()));
        let length = six_days.len() as u64;
        assert_eq!(with(&[0]), refused(22, 0));
        assert_eq!(with(&[25]), refused(22, length));
        assert_eq!(with(&[1, 5, 5]), refused(22, length + 1));
        assert_eq!(with(&[1, 5]), refused(1, length + 2));
    }

    /// Decision 101: Periods of a day may touch; those of two days have nothing to do
    /// with each other.
    #[test]
    fn neighbours_may_touch_and_days_are_apart() {
        let touching = hex("00 02 00 05 05 09 00 00 00 00 00 00 01 00 01 00 00 00 00");
        assert_eq!(accepted(&touching), Some((2, 0)));
        let overlapping = hex("00 02 00 05 04 09 00 00 00 00 00 00 01 00 01 00 00 00 00");
        assert_eq!(read(&overlapping), refused(22, 4));
        let apart = hex("00 01 04 05 01 00 05 00 00 00 00 00 01 00 01 00 00 00 00");
        assert_eq!(accepted(&apart), Some((2, 0)));
    }

    /// Decision 102: Only a file with a calendar has a count of windows.
    #[test]
    fn a_file_that_gives_its_times_has_no_windows() {
        let plain = hex("01 01 00 01 00 00 00");
        assert_eq!(accepted(&plain), Some((1, 0)));
        assert_eq!(read_of("01 01 00 01 00 00 00 00"), refused(6, 7));
        // With a calendar the count of constraints comes after it.
        assert_eq!(read(&one_period("00")), refused(1, 16));
        assert_eq!(accepted(&one_period("00 00")), Some((1, 0)));
    }

    /// Decision 103: Day, from, to and the count are limits of 22; from above to is no
    /// fault. The count of time groups stays 2.
    #[test]
    fn numbers_of_windows_have_limits() {
        assert_eq!(read(&one_period("01 00 00 00 00")), refused(22, 16));
        assert_eq!(read(&one_period("01 08 00 00 00")), refused(22, 16));
        assert_eq!(read(&one_period("81 08")), refused(22, 15));
        assert_eq!(accepted(&one_period("01 01 05 00 00")), Some((1, 1)));
        assert_eq!(accepted(&one_period("01 07 00 A0 0B 00")), Some((1, 1)));
        let groups = "00 01 00 05 00 00 00 00 00 00 01 00 01 00 81 08";
        assert_eq!(read_of(groups), refused(2, 14));
    }

    /// Decision 104: A window is a group after the time groups: references, lists of
    /// groups and lengths of lists go by that.
    #[test]
    fn windows_are_groups() {
        let empty =
            "00 01 00 05 00 00 00 00 00 00 01 01 01 01 01 00 01 01 05 00 01 06 00 01 01 01 01";
        assert_eq!(read_of(empty), refused(5, 21));
        let whole =
            "00 01 00 05 00 00 00 00 00 00 01 01 01 01 01 00 01 01 00 05 01 06 00 01 01 01 01";
        assert_eq!(accepted(&hex(whole)), Some((1, 1)));
        assert_eq!(
            read(&one_period("01 01 00 05 01 03 00 01 02")),
            refused(3, 23)
        );
        assert_eq!(
            accepted(&one_period("01 01 00 05 01 03 00 01 01")),
            Some((1, 1))
        );
        // Two groups of one resource, of which the second is a window.
        let listed = "00 01 00 05 00 00 00 00 00 00 01 01 01 01 01 01 00 01 01 00 05 01 07 00 01";
        let with = |groups: &str| read_of(&format!("{listed} {groups} 00 02"));
        assert!(with("02 01 02").is_ok());
        assert_eq!(with("03 01 02 03"), refused(2, 25));
        assert_eq!(with("02 01 03"), refused(3, 27));
    }

    /// Decision 105: A period that begins with its window and ends with it belongs to it.
    #[test]
    fn both_ends_count() {
        // Kind 2 at weight 1 for the only resource, which is used at the only time.
        let charged = |from: u8, to: u8| {
            let file = format!(
                "00 01 03 05 00 00 00 00 00 00 01 01 01 01 01 00 01 01 {from:02X} {to:02X} 01 02 01 01 01"
            );
            score(&hex(&file), &[1, 1])
        };
        assert_eq!(charged(3, 5), scored(0, 1));
        assert_eq!(charged(2, 6), scored(0, 1));
        assert_eq!(charged(4, 5), scored(0, 0));
        assert_eq!(charged(3, 4), scored(0, 0));
    }
}

mod reader {
    use super::*;

    /// Decision 1: 4 and 5 of a constraint come before any number of the next.
    #[test]
    fn constraint_end_comes_before_the_next_constraint() {
        assert_eq!(
            read_of("01 01 00 01 00 00 02 04 00 01 01 00"),
            refused(5, 7)
        );
    }

    /// One time, one event, one resource, 256 empty groups, kind 7 over all of
    /// them, then `rest`. Also gives the offset of the kind.
    fn long_cluster(rest: &[u32]) -> (Vec<u8>, u64) {
        let mut values = vec![1, 1, 1, 1, 0, 256];
        values.extend([0; 256]);
        values.push(1);
        let kind = numbers(&values).len() as u64;
        values.extend([7, 0, 1, 256]);
        values.extend(1..=256);
        values.extend(rest);
        (numbers(&values), kind)
    }

    /// Decision 2: Of 4 and 5 in one constraint, 4 is given.
    #[test]
    fn a_long_list_comes_before_a_bad_range() {
        let (file, kind) = long_cluster(&[1, 0]);
        assert_eq!(read(&file), refused(4, kind));
    }

    /// Decision 3: 4 is given at the constraint's end, after lo and hi.
    #[test]
    fn a_long_list_is_seen_after_lo_and_hi() {
        let (file, _) = long_cluster(&[]);
        assert_eq!(read(&file), refused(1, file.len() as u64));
        let at_lo = file.len() as u64;
        let (file, _) = long_cluster(&[256, 256]);
        assert_eq!(read(&file), refused(2, at_lo));
    }

    /// Decision 4: A list's count above the number of things is outside its limit.
    #[test]
    fn a_count_above_the_number_of_things_is_2_at_the_count() {
        assert_eq!(read_of("01 01 00 01 01 01"), refused(2, 4));
        // members of a group: T; events of a spread: E
        assert_eq!(read_of("01 01 00 01 00 01 02 01 02 00"), refused(2, 6));
        assert_eq!(
            read_of("01 01 00 01 00 01 00 01 05 00 02 01 02 01 00 00"),
            refused(2, 10)
        );
        // groups of a cluster or idle constraint: the groups of this file
        for kind in [7, 8] {
            let file = numbers(&[1, 1, 1, 1, 0, 1, 0, 1, kind, 0, 1, 2, 1, 2, 0, 0]);
            assert_eq!(read(&file), refused(2, 11));
        }
    }

    /// Decision 5: Reference 0 and a reference too high are references to nothing.
    #[test]
    fn a_reference_outside_its_things_is_3() {
        assert_eq!(read_of("01 01 01 01 01 00"), refused(3, 5));
        assert_eq!(read_of("01 01 01 01 01 02"), refused(3, 5));
        assert_eq!(read_of("01 01 01 01 00 00 01 01 00 00"), refused(3, 9));
        assert_eq!(read_of("01 01 01 01 00 00 01 01 00 02"), refused(3, 9));
    }

    /// Decision 6: The offset is that of the member that does not ascend.
    #[test]
    fn a_list_not_ascending_is_3_at_the_member() {
        assert_eq!(read_of("02 01 00 01 00 01 02 02 01 00"), refused(3, 8));
        assert_eq!(read_of("02 01 00 01 00 01 02 01 01 00"), refused(3, 8));
    }

    /// Decision 7: A clash has one list for each time, not one for all times.
    #[test]
    fn the_lists_of_a_clash_are_as_long_as_the_resource_has_events() {
        let file = |events: u32| {
            let mut values = vec![2, events, 1];
            for _ in 0..events {
                values.extend([1, 1, 1]);
            }
            values.extend([0, 1, 1, 0, 1]);
            numbers(&values)
        };
        for events in [128, 255] {
            assert_eq!(read(&file(events)).unwrap().events, events as usize);
        }
        let kind = file(256).len() as u64 - 3;
        assert_eq!(read(&file(256)), refused(4, kind));
    }

    /// Decision 8: lo above the list's length is 5 for a busy limit too.
    #[test]
    fn a_busy_limit_has_no_exception_from_5() {
        assert_eq!(
            read_of("01 01 01 01 01 01 01 00 01 06 00 01 01 01 01"),
            refused(5, 9)
        );
    }

    /// Decision 9: hi = 256 is outside its limit, whatever lo is.
    #[test]
    fn limits_come_before_5() {
        assert_eq!(
            read_of("01 01 00 01 00 00 01 04 00 01 01 80 02"),
            refused(2, 11)
        );
        assert_eq!(
            read_of("01 01 00 01 00 00 01 04 00 01 02 80 02"),
            refused(2, 11)
        );
    }

    /// Decision 10: Cut short, overlong and too large give 1 at the first byte.
    #[test]
    fn bad_numbers_are_1_at_their_first_byte() {
        assert_eq!(read_of(""), refused(1, 0));
        assert_eq!(read_of("80"), refused(1, 0));
        assert_eq!(read_of("01 80"), refused(1, 1));
        assert_eq!(read_of("80 80 80 80 10"), refused(1, 0));
        assert_eq!(read_of("FF FF FF FF 0F"), refused(2, 0));
        // kind 12 before the weight is asked for
        assert_eq!(read_of("01 01 00 01 00 00 01 0C"), refused(2, 7));
    }

    /// Decision 11: Empty groups and lists, equal groups and equal constraints are accepted.
    #[test]
    fn empty_and_equal_things_are_accepted() {
        assert!(read_of("01 01 01 01 00 01 00 01 07 00 01 00 00 00").is_ok());
        let equal = hex("01 01 00 01 00 02 00 00 02 03 04 01 01 03 04 01 01");
        assert!(read(&equal).is_ok());
        assert_eq!(score(&equal, &[1, 1]), scored(0, 8));
    }

    /// lo ≤ hi as written, but lo above the list's length, is 5 too.
    #[test]
    fn lo_above_the_lowered_hi_is_5() {
        assert_eq!(
            read_of("01 01 00 01 00 00 01 04 00 01 02 03"),
            refused(5, 7)
        );
    }
}

mod timetables {
    use super::*;

    /// Decision 13: 12 gives the lowest event that breaks any rule.
    #[test]
    fn the_lowest_broken_event_is_given() {
        let file = hex("01 02 00 01 00 01 00 00 00");
        assert_eq!(score(&file, &hex("01 00 00 00")), refused(12, 1));
        assert_eq!(score(&file, &hex("01 00 01 00")), refused(12, 2));
    }

    /// Decision 14: Same sheet skips the sizing place, as scoring does.
    #[test]
    fn same_sheet_and_score_skip_sizing() {
        let file = oversized();
        let table = first_times(125, 505, 124);
        assert_eq!(sizes(&file, None), refused(8, 0));
        assert_eq!(same_sheet(&file, &table, &table), Ok(true));
        assert_eq!(score(&file, &table), scored(0, 0));
    }

    /// Decision 15: An empty group has no X; groups of up to two members add no idle time.
    #[test]
    fn empty_and_short_groups_count_nothing() {
        // two times; the event takes both; groups {}, {1}, {1, 2}
        let start = "02 01 01 02 01 01 03 00 01 01 02 01 02 01";
        let cluster = format!("{start} 07 01 01 03 01 02 03 00 00");
        assert_eq!(score(&hex(&cluster), &[1, 1, 1, 0]), scored(0, 2));
        let idle = format!("{start} 08 01 01 03 01 02 03 00 00");
        assert_eq!(score(&hex(&idle), &[1, 1, 1, 0]), scored(0, 0));
        let idle = format!("{start} 08 01 01 03 01 02 03 01 01");
        assert_eq!(read(&hex(&idle)), refused(5, 14));
    }

    /// Decision 16: A busy limit of 0 to 0 with count 0 deviates by 0.
    #[test]
    fn an_unused_day_never_deviates() {
        let file = hex("02 01 01 01 01 01 01 01 01 01 06 01 01 01 00 00");
        assert_eq!(score(&file, &hex("00 01 00 01")), scored(0, 0));
        assert_eq!(score(&file, &hex("01 00 01 00")), scored(0, 1));
    }
}

mod preferred_times {
    use super::*;

    /// Decision 68: A subevent that starts outside counts with all of its times, one
    /// that starts inside with none.
    #[test]
    fn a_subevent_is_charged_by_its_start() {
        let file = hex("02 01 00 02 00 01 01 02 01 03 01 01 01");
        assert_eq!(score(&file, &[1, 1, 1, 0]), scored(0, 2));
        let file = hex("02 01 00 02 00 01 01 01 01 03 01 01 01");
        assert_eq!(score(&file, &[1, 1, 1, 0]), scored(0, 0));
        assert_eq!(score(&file, &[1, 1, 1, 1]), scored(0, 1));
    }

    /// Decision 69: The list has the times that a subevent that starts outside can hold.
    #[test]
    fn the_list_follows_from_duration_and_group() {
        let sizes_of = |file: &str| {
            let sizes = sizes(&hex(file), None).unwrap();
            let Sizes {
                variables,
                clauses,
                words,
                soft,
                top,
            } = sizes;
            [variables, clauses, words, soft, top]
        };
        // All three times in the group; then the second and third, for durations 1 to 3.
        let all = "03 01 00 01 00 01 03 01 02 03 01 03 01 01 01";
        assert_eq!(sizes_of(all), [12, 26, 59, 0, 1]);
        let two = |duration| format!("03 01 00 {duration} 00 01 02 02 03 01 03 01 01 01");
        assert_eq!(sizes_of(&two("01")), [13, 28, 63, 1, 2]);
        assert_eq!(sizes_of(&two("02")), [21, 53, 123, 2, 3]);
        assert_eq!(sizes_of(&two("03")), [28, 75, 179, 3, 4]);
    }

    /// Decision 70: No list of kind 3 earns 4 or 5, the empty one and the longest neither.
    #[test]
    fn no_list_is_refused() {
        assert!(read_of("03 01 00 01 00 01 03 01 02 03 01 03 01 01 01").is_ok());
        for duration in [1, 2, 125] {
            let file = numbers(&[125, 1, 0, duration, 0, 1, 0, 1, 3, 1, 1, 1]);
            assert_eq!(sizes(&file, None).unwrap().soft, 125);
        }
    }

    /// Decision 71: M, C and D are gates of their own, each time only those that it needs.
    #[test]
    fn a_time_has_up_to_three_gates() {
        // Four times and duration 2; a hard list has a counter of one column.
        let gates = |group: &[u32], members: u64| {
            let count = group.len() as u32;
            let start = [&[4, 1, 0, 2, 0, 1, count], group].concat();
            let variables = |rest: &[u32]| {
                let file = numbers(&[&start, rest].concat());
                sizes(&file, None).unwrap().variables
            };
            variables(&[1, 3, 0, 1, 1]) - variables(&[0]) - members
        };
        assert_eq!(gates(&[1, 2, 3, 4], 0), 0);
        assert_eq!(gates(&[1, 2, 3], 1), 0);
        assert_eq!(gates(&[1, 3, 4], 2), 2);
        assert_eq!(gates(&[1, 4], 3), 3 + 2);
        assert_eq!(gates(&[], 4), 3 * 3);
    }

    /// Decision 72: A's list is S(1), so its proof needs clause 2 before clause 6.
    #[test]
    fn the_list_of_a_is_its_start() {
        let all = clauses(&hex(FILE_A), Some(3));
        assert_eq!(all[5..7], [[-2, 4], [2, -4]]);
        assert_eq!(all.len(), 16);
        let sizes = sizes(&hex(FILE_A), Some(3)).unwrap();
        assert_eq!((sizes.variables, sizes.words), (8, 30));
        assert_eq!(check_a(PROOF_A), Ok(1));
        assert_eq!(check_a("61 11 00 05 04 06 0E 10 00"), refused(16, 1));
        assert_eq!(score(&hex(FILE_A), &[1, 1]), scored(0, 4));
    }
}

mod idle_times {
    use super::*;

    /// Idle, since and seen after one more member.
    fn step([idle, since, seen]: [u32; 3], used: u32) -> [u32; 3] {
        let next = idle_step(Kept { idle, since, seen }, used);
        [next.idle, next.since, next.seen]
    }

    /// What is kept after these members of a group.
    fn kept_after(row: &[u32]) -> [u32; 3] {
        row.iter().fold([0; 3], |last, &used| step(last, used))
    }

    /// The count after each member.
    fn counts(row: &[u32]) -> Vec<u32> {
        let cut = (1..=row.len()).map(|length| kept_after(&row[..length]));
        cut.map(|[idle, ..]| idle).collect()
    }

    /// Decision 74: Each group is counted from 0, and kind 8 counts their sum; free
    /// times at the end of what is drawn are not idle yet.
    #[test]
    fn each_group_is_counted_from_0() {
        assert_eq!(counts(&[0, 1, 0, 0, 1, 0]), [0, 0, 0, 0, 2, 2]);
        // Six times, X at the second and the fifth, and kind 8 over two groups.
        let start = "06 01 01 02 01 01 02";
        let table = [0, 1, 0, 0, 1, 0, 0, 1, 0, 0, 1, 0];
        let over = |first: &str, second: &str| {
            let file = format!("{start} {first} {second} 01 08 01 01 02 01 02 00 00");
            score(&hex(&file), &table)
        };
        assert_eq!(over("03 01 02 03", "03 04 05 06"), scored(0, 0));
        assert_eq!(counts(&[0, 1, 0]), [0, 0, 0]);
        let all = "06 01 02 03 04 05 06";
        assert_eq!(over(all, all), scored(0, 2 + 2));
        assert_eq!(over(all, "03 02 04 05"), scored(0, 2 + 1));
    }

    /// Decision 75: The three numbers are the idle members, those since the last with
    /// X, and whether there was one; two would not do.
    #[test]
    fn three_numbers_are_kept() {
        assert_eq!(kept_after(&[0]), [0, 0, 0]);
        assert_eq!(kept_after(&[0, 1]), [0, 0, 1]);
        assert_eq!(kept_after(&[0, 0, 1]), [0, 0, 1]);
        assert_eq!(kept_after(&[0, 1, 0, 1]), [1, 0, 1]);
        assert_eq!(kept_after(&[0, 1, 0, 0, 1, 0]), [2, 1, 1]);
    }

    /// Decision 76: Any number but 0 says yes, and a sum that does not fit is the
    /// largest number.
    #[test]
    fn every_number_has_an_answer() {
        let most = u32::MAX;
        assert_eq!(step([7, 3, 9], 0), [7, 4, 1]);
        assert_eq!(step([7, 3, 0], 256), [10, 0, 1]);
        assert_eq!(step([0, 5, 0], 0), [0, 5, 0]);
        assert_eq!(step([most, 1, 1], 1), [most, 0, 1]);
        assert_eq!(step([5, most, 1], 0), [5, most, 1]);
    }

    /// Decision 78: Kind 8 has G, H and I of each member but the first and the last,
    /// and a counter over I, as before.
    #[test]
    fn the_clauses_of_kind_8_stay() {
        let start = "04 01 01 01 01 01 01 04 01 02 03 04";
        let sizes_with = |constraints: &str| {
            let sizes = sizes(&hex(&format!("{start} {constraints}")), None).unwrap();
            [sizes.variables, sizes.clauses, sizes.words, sizes.soft]
        };
        let before = sizes_with("00");
        let after = sizes_with("01 08 01 01 01 01 00 00");
        let added: Vec<u64> = after.iter().zip(before).map(|(a, b)| a - b).collect();
        assert_eq!(added, [2 * 3 + 4, 2 * 9 + 4 + 7, 2 * 21 + 7 + 18, 2]);
    }
}

mod lengths {
    use super::*;

    /// Two times and one event of duration 1, before a constraint.
    const START: &str = "02 01 00 01 00 00 01";

    fn read_with(constraint: &str) -> Result<Summary, Refusal> {
        read_of(&format!("{START} {constraint}"))
    }

    /// Decision 62: A length outside 1 to T is 2 at the number itself.
    #[test]
    fn a_length_is_from_1_to_the_last_time() {
        assert_eq!(read_with("09 00 01 00 00 00"), refused(2, 10));
        assert_eq!(read_with("09 00 01 03"), refused(2, 10));
        assert_eq!(read_with("0A 00 01 00"), refused(2, 10));
        assert_eq!(read_with("0A 00 01 02 00"), refused(2, 11));
        assert_eq!(read_with("0A 00 01 02 03"), refused(2, 11));
        assert!(read_with("0A 00 01 01 02").is_ok());
    }

    /// Decision 63: Kind 9's list has T members, whatever the length.
    #[test]
    fn the_list_has_a_member_for_each_time() {
        assert!(read_with("09 00 01 02 02 02").is_ok());
        assert_eq!(read_with("09 00 01 02 03 03"), refused(5, 7));
        assert_eq!(read_with("09 00 01 02 01 00"), refused(5, 7));
        // hi is lowered to T: 2 × T gates, a counter of T × T cells and no soft unit.
        let file = hex(&format!("{START} 09 01 01 02 00 FF 01"));
        let sizes = sizes(&file, None).unwrap();
        assert_eq!((sizes.variables, sizes.soft), (8 + 4 + 4, 0));
    }

    /// Decision 64: Shortest above longest is 5 at the end, after both limits.
    #[test]
    fn crossed_lengths_are_5_with_the_kind() {
        assert_eq!(read_with("0A 00 01 02 01"), refused(5, 7));
        assert_eq!(read_with("0A 00 01 02 01 00"), refused(5, 7));
        assert_eq!(read_with("0A 00 01 02"), refused(1, 11));
        assert!(read_with("0A 00 01 02 02").is_ok());
    }

    /// Decision 65: A subevent ends before the next start too, and at the last time.
    #[test]
    fn two_singles_side_by_side_are_no_double() {
        let file = hex("02 01 00 02 00 00 01 09 01 01 02 01 01");
        assert_eq!(score(&file, &[1, 1, 1, 1]), scored(0, 1));
        assert_eq!(score(&file, &[1, 1, 1, 0]), scored(0, 0));
        let singles = hex("02 01 00 02 00 00 01 0A 01 01 01 01");
        assert_eq!(score(&singles, &[1, 1, 1, 1]), scored(0, 0));
        assert_eq!(score(&singles, &[1, 1, 1, 0]), scored(0, 1));
    }

    /// Decision 66: A length above the duration is allowed, and counts 0.
    #[test]
    fn a_length_may_be_above_the_duration() {
        let file = hex("02 01 00 01 00 00 01 09 01 01 02 01 01");
        assert_eq!(score(&file, &[1, 0, 1, 0]), scored(0, 1));
    }

    /// Decision 67: Only starts of the lengths spoken of have variables: T for M and
    /// T, or 3 × T, beside the counter's.
    #[test]
    fn few_starts_are_marked() {
        let gates = |constraint: &str| {
            // A hard 0 to 0 has a counter of T cells.
            let file = hex(&format!("{START} {constraint}"));
            sizes(&file, None).unwrap().variables - 8 - 2
        };
        assert_eq!(gates("09 00 01 01 00 00"), 4);
        assert_eq!(gates("09 00 01 02 00 00"), 4);
        assert_eq!(gates("0A 00 01 01 01"), 4);
        assert_eq!(gates("0A 00 01 02 02"), 8);
    }
}

mod precedence {
    use super::*;

    /// One time and two events of duration 1, before a constraint.
    const START: &str = "01 02 00 01 00 01 00 00 01";

    fn read_with(constraint: &str) -> Result<Summary, Refusal> {
        read_of(&format!("{START} {constraint}"))
    }

    /// Decision 79: Two events that are one are 19 at the constraint's end: after 1, 2
    /// and 3 of all four fields, before 5.
    #[test]
    fn one_event_twice_is_19_with_the_kind() {
        assert_eq!(read_with("0B 00 01 01 01 00"), refused(19, 9));
        assert_eq!(read_with("0B 00 01 01 00 00"), refused(19, 9));
        assert_eq!(read_with("0B 00 01 01 7D 00"), refused(2, 13));
        assert_eq!(read_with("0B 00 01 01 00 7D"), refused(2, 14));
        assert_eq!(read_with("0B 00 01 01 00"), refused(1, 14));
        assert_eq!(read_with("0B 00 01 03 00 00"), refused(3, 12));
        assert_eq!(read_with("0B 00 01 01 00 00 00"), refused(19, 9));
    }

    /// Decision 80: 5 is given for lo above hi as written alone, hi is not lowered.
    #[test]
    fn only_crossed_bounds_are_5() {
        assert_eq!(read_with("0B 00 01 02 01 00"), refused(5, 9));
        assert!(read_with("0B 00 02 01 7C 7C").is_ok());
        assert!(read_with("0B 00 01 02 02 02").is_ok());
        assert!(read_with("0B 00 01 02 00 7C").is_ok());
        // Five times, a gap of 3, 0 to 3, then 0 to 2.
        let file = |hi| format!("05 02 00 01 00 01 00 00 01 0B 01 01 02 00 {hi}");
        let table = hex("01 00 00 00 00 00 00 00 00 01 01 00 00 00 00 00 00 00 00 01");
        assert_eq!(score(&hex(&file("03")), &table), scored(0, 0));
        assert_eq!(score(&hex(&file("02")), &table), scored(0, 1));
    }

    /// Decision 81: First and last time are those of the whole events.
    #[test]
    fn a_gap_is_between_whole_events() {
        let file = hex("04 02 00 02 00 01 00 00 01 0B 01 01 02 00 7C");
        let at_2 = hex("01 00 01 00 00 01 00 00 01 00 01 00 00 01 00 00");
        assert_eq!(score(&file, &at_2), scored(0, 1));
        let at_4 = hex("01 00 01 00 00 00 00 01 01 00 01 00 00 00 00 01");
        assert_eq!(score(&file, &at_4), scored(0, 0));
        // The other way round the second event has two subevents: 1 and 3, then 2 and 4,
        // after an event at 2, then at 1.
        let file = hex("04 02 00 02 00 01 00 00 01 0B 01 02 01 00 7C");
        assert_eq!(score(&file, &at_2), scored(0, 1));
        let at_1 = hex("00 01 00 01 01 00 00 00 00 01 00 01 01 00 00 00");
        assert_eq!(score(&file, &at_1), scored(0, 0));
    }

    /// Decision 82: It deviates by 1 at most, however far the gap is outside, and always
    /// if it is negative; the events stand in any order.
    #[test]
    fn a_gap_deviates_by_1_at_most() {
        let file = hex(&format!("{START} 0B 01 01 02 00 7C"));
        assert_eq!(score(&file, &[1, 1, 1, 1]), scored(0, 1));
        // Four times, the events at 1 and 4: the gap is 2, and -4 the other way round.
        let table = hex("01 00 00 00 00 00 00 01 01 00 00 00 00 00 00 01");
        let with = |constraint: &str| {
            let file = format!("04 02 00 01 00 01 00 00 01 {constraint}");
            score(&hex(&file), &table)
        };
        assert_eq!(with("0B 05 01 02 02 02"), scored(0, 0));
        assert_eq!(with("0B 05 01 02 00 00"), scored(0, 5));
        assert_eq!(with("0B 05 01 02 7C 7C"), scored(0, 5));
        assert_eq!(with("0B 05 02 01 00 7C"), scored(0, 5));
        assert_eq!(with("0B 00 02 01 00 7C"), scored(1, 0));
    }

    /// Decision 83: The list has one member, 0 to 0: a counter of one cell, one unit.
    #[test]
    fn the_list_has_one_member() {
        let sizes_with = |rest: &str| {
            let file = hex(&format!("01 02 00 01 00 01 00 00 {rest}"));
            let sizes = sizes(&file, None).unwrap();
            [sizes.variables, sizes.clauses, sizes.words, sizes.soft]
        };
        let before = sizes_with("00");
        let added = |rest| {
            let after = sizes_with(rest);
            [0, 1, 2, 3].map(|at| after[at] - before[at])
        };
        // At one time O is the OR of Y alone.
        assert_eq!(added("01 0B 00 01 02 00 7C"), [1 + 1, 2 + 3, 4 + 5, 0]);
        assert_eq!(added("01 0B 07 01 02 00 7C"), [1 + 1, 2 + 2, 4 + 4, 1]);
    }

    /// Decision 84: O is the OR of all Y of the first event where no last time of it
    /// leaves room; the gates F, P, G and Q are there only where they can be true or false.
    #[test]
    fn gates_follow_from_the_bounds() {
        let gates = |times, lo, hi| {
            let start = [times, 2, 0, 1, 0, 1, 0, 0];
            let variables = |rest: &[u32]| {
                let file = numbers(&[&start[..], rest].concat());
                sizes(&file, None).unwrap().variables
            };
            variables(&[1, 11, 0, 1, 2, lo, hi]) - variables(&[0]) - 1
        };
        assert_eq!(gates(1, 0, 0), 1);
        assert_eq!(gates(4, 3, 3), 1);
        assert_eq!(gates(4, 124, 124), 1);
        assert_eq!(gates(4, 2, 2), 2);
        assert_eq!(gates(4, 0, 2), 2 * 3);
        assert_eq!(gates(4, 0, 1), 2 * 3 + 2);
        assert_eq!(gates(4, 0, 0), 2 * 3 + 2 * 2);
        assert_eq!(gates(125, 0, 0), 2 * 124 + 2 * 123);
        assert_eq!(gates(125, 0, 124), 2 * 124);
    }
}

mod solver_texts {
    use super::*;

    type Answer = Result<(Vec<u8>, usize, Objective), Refusal>;

    /// File A in a lent model and a store of just its four variables.
    fn read_a(text: &str) -> Answer {
        read_lent(text, [4, 4])
    }

    fn read_lent(text: &str, [model, store]: [usize; 2]) -> Answer {
        solver_text(&hex(FILE_A), text.as_bytes(), model, store)
    }

    /// The only model of file A, its timetable of two bytes, and its cost.
    fn model_a() -> Answer {
        Ok((vec![1; 4], 2, Objective(4)))
    }

    /// Decision 87: The reader, 8, 9 for the store alone, 10 for the lent model, 20 and 21,
    /// 13. A longer store is no fault, a longer model is, and what it holds is not looked at.
    #[test]
    fn checks_come_in_this_order() {
        assert_eq!(read_a("v 1 2 3 4 0\n"), model_a());
        assert_eq!(read_lent("x", [3, 3]), refused(9, 0));
        assert_eq!(read_lent("x", [3, 4]), refused(10, 4));
        assert_eq!(read_lent("x", [5, 9]), refused(10, 4));
        assert_eq!(read_lent("x", [4, 9]), refused(20, 0));
        assert_eq!(read_lent("v 1 2 3 4", [4, 9]), model_a());
        assert_eq!(read_lent("v 1 2 3 4", [0, 0]), refused(9, 0));
        let wrong = hex("01 01 00 01 00 01 00 01 03 04 01 02");
        assert_eq!(solver_text(&wrong, b"x", 0, 0), refused(3, 11));
        assert_eq!(solver_text(&oversized(), b"x", 0, 0), refused(8, 0));
    }

    /// Decision 88: The text's end begins no line; an empty line is a line of another kind.
    #[test]
    fn the_end_of_a_text_begins_no_line() {
        assert_eq!(read_a(""), refused(21, 1));
        assert_eq!(read_a("\n"), refused(20, 0));
        assert_eq!(read_a("v 1 2 3 4\n"), model_a());
        assert_eq!(read_a("v 1 2 3 4\n\n"), refused(20, 10));
        assert_eq!(read_a("v 1 2 3 4"), model_a());
    }

    /// Decision 89: Lines of c, s and o go by their first byte alone.
    #[test]
    fn the_rest_of_other_lines_is_ignored() {
        assert_eq!(read_a("cx\nsat\no\nv 1 2 3 4"), model_a());
        assert_eq!(read_a("V 1"), refused(20, 0));
        assert_eq!(read_a(" v 1"), refused(20, 0));
    }

    /// Decision 90: After v comes nothing or a space; anything else is 20 one byte on.
    #[test]
    fn a_space_follows_v() {
        assert_eq!(read_a("v"), refused(21, 1));
        assert_eq!(read_a("v  "), refused(21, 1));
        assert_eq!(read_a("v1 2 3 4"), refused(20, 1));
        assert_eq!(read_a("v\t1"), refused(20, 1));
        assert_eq!(read_a("c\nv-1"), refused(20, 3));
    }

    /// Decision 91: One closing 0 for all lines of values: after it no word may come
    /// there, but empty ones and other lines may.
    #[test]
    fn one_0_closes_all_lines_of_values() {
        assert_eq!(read_a("v 1 2 3 0\nv 4 0"), refused(20, 12));
        assert_eq!(read_a("v 1 2 3 4 0 0"), refused(20, 12));
        assert_eq!(read_a("v 1 2 3 4 0\nv\nc\n"), model_a());
        assert_eq!(read_a("v 1 2 3 4\nv 0\n"), model_a());
        assert_eq!(read_a("v 0"), refused(21, 1));
        assert_eq!(read_a("v 0 5"), refused(20, 4));
    }

    /// Decision 92: A malformed literal gives the offset of its first byte, whichever byte
    /// is bad. A tab and byte 13 belong to it.
    #[test]
    fn a_malformed_literal_is_20_at_its_first_byte() {
        assert_eq!(read_a("v 1 2x"), refused(20, 4));
        assert_eq!(read_a("v 01"), refused(20, 2));
        assert_eq!(read_a("v -0"), refused(20, 2));
        assert_eq!(read_a("v +"), refused(20, 2));
        assert_eq!(read_a("v -"), refused(20, 2));
        assert_eq!(read_a("v +1"), refused(20, 2));
        assert_eq!(read_a("v 1\r\n"), refused(20, 2));
        assert_eq!(read_a("c\r\nv 1 2 3 4"), model_a());
        assert_eq!(read_a("v 1\t2"), refused(20, 2));
    }

    /// Decision 93: A literal's variable is one of the formula without the tail, however
    /// many digits stand there.
    #[test]
    fn a_literal_out_of_range_is_20() {
        assert_eq!(read_a("v 5"), refused(20, 2));
        assert_eq!(read_a("v -5"), refused(20, 2));
        assert_eq!(read_a("v -99999999999999999999"), refused(20, 2));
        assert_eq!(read_a("v 4294967297"), refused(20, 2));
        assert_eq!(read_a("v 18446744073709551617"), refused(20, 2));
    }

    /// Decision 94: A variable given twice does not stop the reading. Equal and opposite
    /// literals are both twice, and three times is too. Missing and twice share one order.
    #[test]
    fn the_lowest_variable_not_given_once_is_21_after_the_last_line() {
        assert_eq!(read_a("v 1 1 2 3 4"), refused(21, 1));
        assert_eq!(read_a("v 1 -1 2 3 4"), refused(21, 1));
        assert_eq!(read_a("v 1 3 3 4"), refused(21, 2));
        assert_eq!(read_a("v 1 1 5"), refused(20, 6));
        assert_eq!(read_a("v 2 2 2 1 3 4"), refused(21, 2));
        assert_eq!(read_a("v 1 1 3 4"), refused(21, 1));
        assert_eq!(read_a("v 1 1 2 3 4\nx"), refused(20, 12));
    }

    /// Decision 95: 13 is that of decoding, after 21. `support::both` looks at the lent
    /// model, which is then untouched as on 20 and 21, and at the store, which is zero.
    #[test]
    fn a_false_clause_is_13_after_21() {
        assert_eq!(read_a("v -1 2 3 4"), refused(13, 1));
        assert_eq!(read_a("v 1 2 3 -4"), refused(13, 6));
        assert_eq!(read_a("v -1 2 3 3 4"), refused(21, 3));
    }

    /// Decision 96: The text of a model is one line with a literal for each variable in
    /// turn and the closing 0; it reads back as that model.
    #[test]
    fn the_text_of_a_model_reads_back() {
        assert_eq!(print_model(&[1, 0]), b"v 1 -2 0\n");
        let file = hex(FILE_A);
        let instance = Instance::read(&file).unwrap();
        let model = model(&instance, &[1, 1]);
        let text = print_model(&model);
        assert_eq!(solver_text(&file, &text, 4, 4), model_a());
    }
}

mod clause_order {
    use super::*;

    fn clause(file: &str, bound: Option<u64>, id: usize) -> Vec<i64> {
        clauses(&hex(file), bound)[id - 1].clone()
    }

    /// Decision 17: Both clauses of an event and time stand together.
    #[test]
    fn start_clauses_go_time_by_time() {
        let file = "02 01 00 01 00 00 00";
        assert_eq!(clause(file, None, 2), [-1, 3]);
        assert_eq!(clause(file, None, 3), [2, -4]);
        assert_eq!(clause(file, None, 4), [1, -2, 4]);
    }

    /// Decision 18: A counter's clauses go cell by cell, row by row.
    #[test]
    fn counters_go_cell_by_cell() {
        let file = "02 01 00 02 00 00 00";
        assert_eq!(clause(file, None, 6), [1, -5]);
        assert_eq!(clause(file, None, 7), [1, -6]);
        assert_eq!(clause(file, None, 8), [-6]);
        assert_eq!(clause(FILE_A, Some(3), 14), [-4, 8]);
    }

    /// Decision 19: Each time's list of a clash is complete before the next.
    #[test]
    fn clash_units_follow_their_own_counter() {
        let file = "02 02 01 01 01 01 01 01 01 00 01 01 00 01";
        assert_eq!(clause(file, None, 52), [-22]);
        assert_eq!(clause(file, None, 64), [-26]);
        assert_eq!(clauses(&hex(file), None).len(), 64);
    }

    /// Decision 20: A busy limit writes each v's clauses and unit before the next v.
    #[test]
    fn busy_limit_units_follow_their_own_clauses() {
        let file = "03 01 01 01 01 01 01 03 01 02 03 01 06 00 01 01 03 03";
        assert_eq!(clause(file, None, 64), [-25]);
        assert_eq!(clause(file, None, 65), [22, -26]);
    }

    /// Decision 21: A busy limit with lo = 1 has no low part.
    #[test]
    fn a_busy_limit_of_one_has_no_low_unit() {
        let all = clauses(
            &hex("01 01 01 01 01 01 01 01 01 01 06 00 01 01 01 01"),
            None,
        );
        assert_eq!(all.len(), 9);
        assert_eq!(all[8], [3, -5]);
    }

    /// Decision 22: Idle gates G, H and I go member by member.
    #[test]
    fn idle_gates_go_member_by_member() {
        let file = "04 01 01 01 01 01 01 04 01 02 03 04 01 08 01 01 01 01 00 00";
        let all = clauses(&hex(file), None);
        let first = all.iter().position(|clause| *clause == [-9, 21]).unwrap();
        let expected: [&[i64]; 21] = [
            &[-9, 21],
            &[9, -21],
            &[-11, 22],
            &[-12, 22],
            &[11, 12, -22],
            &[-10, -23],
            &[21, -23],
            &[22, -23],
            &[10, -21, -22, 23],
            &[-9, 24],
            &[-10, 24],
            &[9, 10, -24],
            &[-12, 25],
            &[12, -25],
            &[-11, -26],
            &[24, -26],
            &[25, -26],
            &[11, -24, -25, 26],
            &[-23, 27],
            &[23, -27],
            &[23, -28],
        ];
        assert_eq!(all[first..first + 21], expected);
    }

    /// Decision 23: The OR of an empty list is the unit (not o).
    #[test]
    fn an_empty_or_is_a_negative_unit() {
        assert_eq!(clause("01 01 01 01 00 01 00 01 02 00 01 01", None, 3), [-3]);
    }

    /// Decision 24: Counters without units are written; empty lists write nothing.
    #[test]
    fn nothing_is_left_out_to_save_room() {
        let file = "01 01 00 01 00 00 01 04 00 01 00 01";
        assert_eq!(clause(file, None, 6), [-2, 4]);
        assert_eq!(clause(file, None, 7), [2, -4]);
        let empty = hex("01 01 01 01 00 01 00 01 02 00 01 01");
        assert_eq!(sizes(&empty, None).unwrap().variables, 4);
    }

    /// Decision 25: The tail counts the negated units.
    #[test]
    fn the_tail_counts_falsified_units() {
        let file = hex("01 01 00 01 00 00 01 04 01 01 01 01");
        let without = clauses(&file, None).len();
        let tail = clauses(&file, Some(0)).split_off(without);
        assert_eq!(tail, [vec![4, 5], vec![-4, -5], vec![-5]]);
    }

    /// Decision 26: Without soft units the tail is empty; 7 is still given.
    #[test]
    fn an_empty_tail_has_no_unit() {
        let file = hex("01 01 00 01 00 00 00");
        for bound in [0, 1, 4_095] {
            assert_eq!(sizes(&file, Some(bound)), sizes(&file, None));
            assert_eq!(clauses(&file, Some(bound)), clauses(&file, None));
        }
        assert_eq!(sizes(&file, Some(4_096)), refused(7, 4_096));
    }

    /// Decision 27: The tail has B + 1 columns and keeps equal clauses.
    #[test]
    fn the_tail_is_not_shortened() {
        let all = clauses(&hex(FILE_A), Some(4));
        assert_eq!(all.len(), 18);
        assert_eq!(all[15..], [vec![4, -9], vec![-9], vec![-9]]);
    }
}

mod sizing {
    use super::*;

    /// Decision 29: 7, then 8, then 9, all after the instance.
    #[test]
    fn sizing_refusals_come_in_order() {
        let file = oversized();
        assert_eq!(check(&file, 4_096, &[], 0, 0, 0), refused(7, 4_096));
        assert_eq!(check(&file, 0, &[], 0, 0, 0), refused(8, 0));
        assert_eq!(check(&hex(FILE_A), 0, &[], 0, 0, 0), refused(9, 0));
        assert_eq!(check(&hex("7E"), 4_096, &[], 0, 0, 0), refused(2, 0));
    }

    /// Decision 30: Only proof checks count the tail for 8; 8,000,000 variables pass.
    #[test]
    fn the_tail_counts_for_proof_checks_alone() {
        // 503 events of duration 124 and one of 115 make 63,999 × 125 variables. Of
        // preferred times with the last time outside, a hard one adds 1, the soft one 1
        // and its unit.
        let mut values = vec![125, 504, 0];
        for _ in 0..503 {
            values.extend([124, 0]);
        }
        values.extend([115, 0, 1, 124]);
        values.extend(1..=124);
        values.push(124);
        for _ in 0..123 {
            values.extend([3, 0, 1, 1]);
        }
        values.extend([3, 1, 1, 1]);
        let file = numbers(&values);
        assert_eq!(sizes(&file, None).unwrap().variables, 7_999_999);
        assert_eq!(sizes(&file, None).unwrap().soft, 1);
        assert_eq!(sizes(&file, Some(0)).unwrap().variables, 8_000_000);
        assert_eq!(sizes(&file, Some(1)), refused(8, 0));
        assert_eq!(decode(&file, &[]), refused(10, 7_999_999));
        assert_eq!(text(&file, &mut []), refused(9, 0));
        assert_eq!(check(&file, 0, &[], 0, 0, 0), refused(9, 0));
        assert_eq!(check(&file, 1, &[], 0, 0, 0), refused(8, 0));
    }

    /// Decision 31: Words, rows and variable bytes must each suffice for the formula.
    #[test]
    fn each_store_must_fit_the_formula() {
        let file = hex(FILE_A);
        let run = |words, rows, bytes| check(&file, 3, &hex(PROOF_A), words, rows, bytes);
        assert_eq!(run(30, 16, 8), Ok(1));
        assert_eq!(run(29, 16, 8), refused(9, 0));
        assert_eq!(run(30, 15, 8), refused(9, 0));
        assert_eq!(run(30, 16, 7), refused(9, 0));
    }

    /// Decision 32: 9 exactly if the output is shorter than the text.
    #[test]
    fn the_text_needs_its_own_length() {
        let file = hex(FILE_A);
        let length = text_size(&file).unwrap() as usize;
        let mut out = vec![7; length + 1];
        assert_eq!(text(&file, &mut out), Ok(length));
        assert_eq!(out[length], 7);
        assert_eq!(text(&file, &mut vec![7; length]), Ok(length));
        let mut out = vec![7; length - 1];
        assert_eq!(text(&file, &mut out), refused(9, 0));
        assert!(out.iter().all(|&byte| byte == 7));
    }
}

mod models {
    use super::*;

    /// Decision 33: 8 comes before 10.
    #[test]
    fn an_oversized_formula_comes_before_the_model() {
        assert_eq!(decode(&oversized(), &[]), refused(8, 0));
    }

    /// Decision 34: A model is never refused by 12; 10 wants the variables without the tail.
    #[test]
    fn a_model_without_timetable_breaks_a_clause() {
        let file = hex(FILE_A);
        assert_eq!(decode(&file, &hex("00 00 00 00")), refused(13, 5));
        assert_eq!(decode(&file, &hex("01 00 00 00")), refused(13, 2));
        assert_eq!(decode(&file, &hex("01 01 01")), refused(10, 4));
    }
}

mod proofs {
    use super::*;

    /// Decision 36: The literals of a step stand in any order.
    #[test]
    fn literals_of_a_step_are_in_any_order() {
        assert_eq!(check_a("61 11 06 02 00 05 00"), refused(18, 1));
    }

    /// Decision 37: Ids may have gaps; deletion frees none; 0 is no id.
    #[test]
    fn ids_ascend_with_gaps() {
        assert_eq!(check_a("61 63 02 06 00 05 00"), refused(18, 1));
        assert_eq!(
            check_a("61 11 06 00 05 00 64 11 00 61 11 06 00 05 00"),
            refused(14, 3)
        );
        assert_eq!(check_a("61 00 06 00 05 00"), refused(14, 1));
        assert_eq!(check_a("61 FF FF FF FF 0F 06 00 05 00"), refused(18, 1));
    }

    /// Decision 38: A hint or deletion that never was a clause is not live.
    #[test]
    fn an_unknown_id_is_not_live() {
        assert_eq!(check_a("61 11 00 63 00"), refused(15, 1));
        assert_eq!(check_a("64 63 00"), refused(15, 1));
        assert_eq!(check_a("61 11 06 00 11 00"), refused(15, 1));
    }

    /// Decision 39: Hints are judged one by one, for each 15, then 16.
    #[test]
    fn an_earlier_hint_comes_before_a_later_one() {
        assert_eq!(check_a("61 11 00 07 63 00"), refused(16, 1));
        assert_eq!(check_a("61 11 06 00 05 63 00"), refused(16, 1));
    }

    /// Decision 40: No hints, or a last hint with an open literal, is 16.
    #[test]
    fn the_hints_must_end_in_a_false_clause() {
        assert_eq!(check_a("61 11 00 00"), refused(16, 1));
        assert_eq!(check_a("61 11 00 05 00"), refused(16, 1));
    }

    /// Decision 41: A deletion of nothing is a step.
    #[test]
    fn a_deletion_without_ids_counts_one() {
        assert_eq!(check_a("64 00"), refused(18, 1));
        assert_eq!(check_a(&format!("64 00 {PROOF_A}")), Ok(2));
    }

    /// Decision 42: Bytes after the empty clause are not read.
    #[test]
    fn bytes_after_the_empty_clause_are_18() {
        for more in ["00", "61", "64 00", "FF"] {
            assert_eq!(check_a(&format!("{PROOF_A} {more}")), refused(18, 1));
        }
    }

    /// Decision 43: The tail's variables may stand in steps.
    #[test]
    fn the_last_variable_is_the_tails() {
        assert_eq!(check_a("61 11 06 10 00 05 00"), refused(18, 1));
        assert_eq!(check_a("61 11 06 12 00 05 00"), refused(14, 1));
    }

    /// Decision 44: A clause needs a word for each literal and a row; deleted ones stay used.
    #[test]
    fn a_clause_must_fit_unless_empty() {
        let file = hex(FILE_A);
        let unit = "61 11 06 00 05 00";
        let run = |proof: &str, words, rows| check(&file, 3, &hex(proof), words, rows, 8);
        assert_eq!(run(unit, 31, 17), refused(18, 1));
        assert_eq!(run(unit, 30, 17), refused(17, 1));
        assert_eq!(run(unit, 31, 16), refused(17, 1));
        assert_eq!(run(&format!("64 01 00 {unit}"), 30, 16), refused(17, 2));
        assert_eq!(run(PROOF_A, 30, 16), Ok(1));
    }

    /// Decision 45: A bad number in a proof is 14; a step's first byte is a byte.
    #[test]
    fn bad_numbers_in_proofs_are_14() {
        assert_eq!(check_a("61 11 86 00 00 05 00"), refused(14, 1));
        assert_eq!(check_a("61 11 06 00 05 80 00"), refused(14, 1));
        assert_eq!(check_a("E1 00 11 06 00 05 00"), refused(14, 1));
        assert_eq!(check_a("61 80 80 80 80 10 06 00 05 00"), refused(14, 1));
    }

    /// Decision 46: A step is read whole first; an earlier step's refusal comes first.
    #[test]
    fn steps_are_judged_one_by_one() {
        assert_eq!(check_a("64 63 00 62"), refused(15, 1));
        assert_eq!(check_a("61 11 00 63 80 00"), refused(14, 1));
    }

    /// Decision 47: One literal twice, both signs, and literal 1 are 14.
    #[test]
    fn no_variable_stands_twice() {
        assert_eq!(check_a("61 11 06 06 00 05 00"), refused(14, 1));
        assert_eq!(check_a("61 11 06 07 00 05 00"), refused(14, 1));
        assert_eq!(check_a("61 11 01 00 05 00"), refused(14, 1));
    }

    /// Decision 48: The formula's own clauses may be deleted, each once.
    #[test]
    fn formula_clauses_can_be_deleted() {
        assert_eq!(check_a(&format!("64 05 00 {PROOF_A}")), refused(15, 2));
        assert_eq!(check_a("64 05 05 00"), refused(15, 1));
    }

    /// Decision 49: A proof that stops inside a step is misformed there.
    #[test]
    fn a_cut_step_is_14() {
        assert_eq!(check_a("61 11 06 00 05"), refused(14, 1));
        assert_eq!(check_a("61"), refused(14, 1));
        assert_eq!(check_a("64"), refused(14, 1));
    }

    /// Decision 50: After a missing 0 the bytes that follow are read as numbers.
    #[test]
    fn a_missing_0_joins_two_lists() {
        assert_eq!(check_a("61 11 06 05 00 61 12 00 05 00"), refused(15, 1));
    }
}

mod text_for_solvers {
    use super::*;

    /// Decision 53: A file longer than 65,536 bytes is not read.
    #[test]
    fn a_longer_file_is_9() {
        assert_eq!(text_program(&[0; 65_537]), b"9 0\n");
        assert_eq!(text_program(&[126; 65_536]), b"2 0\n");
        assert_eq!(text_program(&[0; 65_536]), b"22 0\n");
    }

    /// Decision 54: Without soft units top is 1.
    #[test]
    fn without_soft_units_top_is_1() {
        assert_eq!(
            text_program(&hex("01 01 00 01 00 00 00")),
            b"p wcnf 3 5 1\n1 1 -2 0\n1 -1 2 0\n1 -1 3 0\n1 1 -3 0\n1 3 0\n"
        );
    }
}

mod wide_amounts {
    use super::*;

    /// 255 events of all 125 times share a resource with 4,096 clashes.
    fn crowded(weight: u32) -> Vec<u8> {
        let mut values = vec![125, 255, 1];
        for _ in 0..255 {
            values.extend([125, 1, 1]);
        }
        values.extend([0, 4_096]);
        for _ in 0..4_096 {
            values.extend([1, weight, 1]);
        }
        numbers(&values)
    }

    #[test]
    fn the_objective_passes_32_bits() {
        let table = first_times(125, 255, 125);
        assert_eq!(score(&crowded(1_000), &table), scored(0, 130_048_000_000));
        assert_eq!(score(&crowded(0), &table), scored(130_048_000, 0));
    }

    #[test]
    fn large_formulas_are_refused_without_being_built() {
        let file = crowded(1_000);
        for bound in [None, Some(0), Some(4_095)] {
            assert_eq!(sizes(&file, bound), refused(8, 0));
        }
        assert_eq!(decode(&file, &[]), refused(8, 0));
        assert_eq!(text_size(&file), refused(8, 0));
        assert_eq!(check(&file, 4_095, &[], 0, 0, 0), refused(8, 0));
    }
}
