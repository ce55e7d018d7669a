//! FET's rules about activities and rooms, against every placement.
#![cfg(feature = "engine")]

mod import;

use import::*;
use timetable::engine;
use timetable::import::Fate;
use timetable::instance::{self, Kind};

#[test]
fn without_rules_only_clashes_are_infeasible() {
    let imported = import(&school("", "")).unwrap();
    let counts = imported.school.instance.counts();
    // Cy has no active activity; both subgroups of 5a have the same events.
    assert_eq!((counts.times, counts.events, counts.resources), (9, 4, 4));
    let names = imported
        .school
        .names
        .resources
        .iter()
        .map(|known| known.name.as_str());
    assert_eq!(names.collect::<Vec<_>>(), ["Ada", "Bob", "5a", "5b"]);
    judge(&school("", ""), no_clash, true);
}

#[test]
fn a_long_activity_is_one_block_within_a_day() {
    let imported = import(&school("", "")).unwrap();
    let bytes = instance::write(&imported.school.instance);
    let feasible = |taken: &[usize], begun: &[usize]| {
        let mut table = timetable(&[0, 1, 3, 8]);
        table[2 * TIMES..3 * TIMES].fill(0);
        table[6 * TIMES..7 * TIMES].fill(0);
        taken.iter().for_each(|time| table[2 * TIMES + time] = 1);
        begun.iter().for_each(|time| table[6 * TIMES + time] = 1);
        engine::score(&bytes, &table)
            .expect("a timetable")
            .infeasibility
            .0
            == 0
    };
    assert!(feasible(&[3, 4], &[3]));
    assert!(!feasible(&[3, 4], &[3, 4]), "two parts side by side");
    assert!(!feasible(&[3, 5], &[3, 5]), "two parts");
    assert!(!feasible(&[5, 6], &[5]), "over the end of a day");
}

#[test]
fn starts_of_activities() {
    let time = "<Activity_Id>3</Activity_Id><Preferred_Day>Tu</Preferred_Day>\
                <Preferred_Hour>2</Preferred_Hour><Permanently_Locked>true</Permanently_Locked>";
    judge_both("ActivityPreferredStartingTime", time, |starts| {
        starts[2] == 4
    });
    let set = times(
        "Preferred_Starting_Time",
        "Preferred_Starting_",
        &[("Mo", 2), ("We", 1)],
    );
    let one = format!("{}{set}", ids(&[1]));
    judge_both("ActivityPreferredStartingTimes", &one, |starts| {
        [1, 6].contains(&starts[0])
    });
    let filter = |teacher: &str, students: &str, subject: &str, tag: &str, further: &str| {
        format!(
            "<Teacher_Name>{teacher}</Teacher_Name><Students_Name>{students}</Students_Name>\
             <Subject_Name>{subject}</Subject_Name><Activity_Tag_Name>{tag}</Activity_Tag_Name>{further}"
        )
    };
    let fields = filter("Ada", "", "", "", "<Duration></Duration>") + &set;
    judge_both("ActivitiesPreferredStartingTimes", &fields, |starts| {
        ADA.iter().all(|&at| [1, 6].contains(&starts[at]))
    });
    let fields = filter("", "5", "", "hard", "") + &set;
    judge_both("ActivitiesPreferredStartingTimes", &fields, |starts| {
        [0, 2].iter().all(|&at| [1, 6].contains(&starts[at]))
    });
    let fields = filter("", "", "", "", "<Duration>2</Duration>") + &set;
    judge_both("ActivitiesPreferredStartingTimes", &fields, |starts| {
        [1, 6].contains(&starts[2])
    });
    let fields = filter(
        "",
        "5a1",
        "Maths",
        "",
        "<Component_Number>2</Component_Number>",
    ) + &set;
    judge_both("SubactivitiesPreferredStartingTimes", &fields, |starts| {
        [1, 6].contains(&starts[1])
    });
}

/// A subject may be named by spaces; a filter for it does not fit all.
#[test]
fn spaces_in_names_count() {
    let slots = times("Preferred_Time_Slot", "Preferred_", &[("Tu", 1), ("Tu", 2)]);
    let fields = format!("<Subject_Name>  </Subject_Name>{slots}");
    let text = school(&rule("ActivitiesPreferredTimeSlots", "100", &fields), "");
    let text = text.replace("<Subject>Sport</Subject>", "<Subject>  </Subject>");
    judge(&text, |starts| starts[2] == 3, true);
}

#[test]
fn slots_of_activities() {
    let slots = times(
        "Preferred_Time_Slot",
        "Preferred_",
        &[("Mo", 1), ("Mo", 2), ("We", 3)],
    );
    judge_both(
        "ActivityPreferredTimeSlots",
        &format!("{}{slots}", ids(&[3])),
        |starts| starts[2] == 0,
    );
    let fields = format!(
        "<Teacher_Name></Teacher_Name><Students_Name>5a</Students_Name>\
         <Subject_Name></Subject_Name><Activity_Tag_Name></Activity_Tag_Name>{slots}"
    );
    judge_both("ActivitiesPreferredTimeSlots", &fields, |starts| {
        (0..TIMES).all(|time| [0, 1, 8].contains(&time) || on_at(starts, CLASS_A, time) == 0)
    });
    let slots = times("Preferred_Time_Slot", "Preferred_", &[("Tu", 1)]);
    let fields =
        format!("<Component_Number>1</Component_Number><Subject_Name>Maths</Subject_Name>{slots}");
    judge_both("SubactivitiesPreferredTimeSlots", &fields, |starts| {
        starts[0] == 3
    });
}

/// The cost of each placement under a wish about the double alone, by its start.
fn costs_by_start(name: &str, fields: &str) -> Vec<u64> {
    let fields = format!("{}{fields}", ids(&[3]));
    let imported = import(&school(&rule(name, "95", &fields), "")).unwrap();
    assert!(imported.remarks.is_empty(), "{:?}", imported.remarks);
    assert_eq!(imported.divisor, 10, "one weight, reduced to 1");
    let bytes = instance::write(&imported.school.instance);
    let mut costs = vec![None; TIMES];
    for starts in placements() {
        let score = engine::score(&bytes, &timetable(&starts)).expect("a timetable");
        assert_eq!(score.infeasibility.0 == 0, no_clash(&starts), "{starts:?}");
        let cost = costs[starts[2]].get_or_insert(score.objective.0);
        assert_eq!(*cost, score.objective.0, "{starts:?}");
    }
    costs.into_iter().flatten().collect()
}

/// Slots speak of every hour: a wish costs those outside, be it that the double starts
/// inside and runs out or starts outside and runs in. Starting times speak of the start.
#[test]
fn a_wish_costs_its_hours_outside_or_its_start() {
    let at = [("Mo", 1), ("Mo", 2), ("Tu", 3), ("We", 1)];
    // Where the double can start: at the first two hours of each day.
    let slots = times("Preferred_Time_Slot", "Preferred_", &at);
    assert_eq!(
        costs_by_start("ActivityPreferredTimeSlots", &slots),
        [0, 1, 2, 1, 1, 2]
    );
    let starts = times("Preferred_Starting_Time", "Preferred_Starting_", &at);
    assert_eq!(
        costs_by_start("ActivityPreferredStartingTimes", &starts),
        [0, 0, 1, 1, 0, 1]
    );
}

#[test]
fn breaks() {
    let fields = times("Break_Time", "", &[("Mo", 2), ("Tu", 1)]);
    judge(
        &school(&rule("BreakTimes", "100", &fields), ""),
        |starts| {
            [1, 3]
                .iter()
                .all(|&time| on_at(starts, &[0, 1, 2, 3], time) == 0)
        },
        true,
    );
}

fn day_distance(starts: &Starts, one: usize, other: usize) -> usize {
    (starts[one] / HOURS).abs_diff(starts[other] / HOURS)
}

#[test]
fn days_between_activities() {
    let fields = |least: usize, adjacent: bool, list: &[usize]| {
        format!(
            "<Consecutive_If_Same_Day>{adjacent}</Consecutive_If_Same_Day>{}<MinDays>{least}</MinDays>",
            ids(list)
        )
    };
    judge_both(
        "MinDaysBetweenActivities",
        &fields(1, false, &[1, 2, 3]),
        |starts| {
            [(0, 1), (0, 2), (1, 2)]
                .iter()
                .all(|&(a, b)| day_distance(starts, a, b) >= 1)
        },
    );
    judge_both(
        "MinDaysBetweenActivities",
        &fields(2, false, &[1, 2]),
        |starts| day_distance(starts, 0, 1) >= 2,
    );
    let hard = rule("MinDaysBetweenActivities", "100", &fields(1, true, &[1, 2]));
    judge(
        &school(&hard, ""),
        |starts| day_distance(starts, 0, 1) >= 1,
        true,
    );
    let far = format!("{}<MaxDays>1</MaxDays>", ids(&[1, 2, 4]));
    judge_both("MaxDaysBetweenActivities", &far, |starts| {
        [(0, 1), (0, 3), (1, 3)]
            .iter()
            .all(|&(a, b)| day_distance(starts, a, b) <= 1)
    });
}

/// Two activities that are too close cost as much as days are missing; on one day they
/// must be side by side.
#[test]
fn a_wish_for_days_between_costs_the_missing_days() {
    let fields = format!(
        "<Consecutive_If_Same_Day>true</Consecutive_If_Same_Day>{}<MinDays>2</MinDays>",
        ids(&[1, 2])
    );
    let imported = import(&school(
        &rule("MinDaysBetweenActivities", "95", &fields),
        "",
    ))
    .unwrap();
    assert!(imported.remarks.is_empty());
    assert_eq!(imported.divisor, 10, "one weight, reduced to 1");
    let bytes = instance::write(&imported.school.instance);
    for starts in placements() {
        let score = engine::score(&bytes, &timetable(&starts)).expect("a timetable");
        let missing = 2usize.saturating_sub(day_distance(&starts, 0, 1));
        assert_eq!(score.objective.0, missing as u64, "{starts:?}");
        let apart = day_distance(&starts, 0, 1) == 0 && starts[0].abs_diff(starts[1]) > 1;
        assert_eq!(
            score.infeasibility.0 == 0,
            no_clash(&starts) && !apart,
            "{starts:?}"
        );
    }
}

/// Where a teacher is off, nothing is counted, and what can be placed costs the same.
#[test]
fn a_spread_counts_only_where_its_activities_can_start() {
    let monday = times("Not_Available_Time", "", &[("Mo", 1), ("Mo", 2), ("Mo", 3)]);
    let off = format!("<Teacher>Ada</Teacher>{monday}");
    let apart = format!("{}<MinDays>1</MinDays>", ids(&[1, 2]));
    let rules = rule("TeacherNotAvailableTimes", "100", &off)
        + &rule("MinDaysBetweenActivities", "95", &apart);
    let school = import(&school(&rules, "")).unwrap().school;
    let spreads = school
        .instance
        .constraints
        .iter()
        .filter_map(|known| match &known.kind {
            Kind::Spread { events, group, .. } if events.len() == 2 => Some(*group),
            _ => None,
        });
    let counted: Vec<Vec<usize>> = spreads
        .map(|at| school.instance.groups[at].clone())
        .collect();
    assert_eq!(counted, [vec![3, 4, 5], vec![6, 7, 8]]);
    let bytes = instance::write(&school.instance);
    for starts in placements() {
        let score = engine::score(&bytes, &timetable(&starts)).expect("a timetable");
        if score.infeasibility.0 == 0 {
            let same_day = u64::from(day_distance(&starts, 0, 1) == 0);
            assert_eq!(score.objective.0, same_day, "{starts:?}");
        }
    }
}

#[test]
fn activities_together() {
    judge_both("ActivitiesSameStartingDay", &ids(&[1, 3, 4]), |starts| {
        day_distance(starts, 0, 2) + day_distance(starts, 0, 3) == 0
    });
    judge_both("ActivitiesSameStartingHour", &ids(&[1, 2, 4]), |starts| {
        starts[0] % HOURS == starts[1] % HOURS && starts[0] % HOURS == starts[3] % HOURS
    });
    judge_both("ActivitiesNotOverlapping", &ids(&[3, 4]), |starts| {
        (0..TIMES).all(|time| on_at(starts, &[2, 3], time) <= 1)
    });
    let side_by_side = |starts: &Starts| {
        day_distance(starts, 2, 3) == 0
            && (starts[3] + 1 == starts[2] || starts[2] + 2 == starts[3])
    };
    let pair = "<First_Activity_Id>3</First_Activity_Id><Second_Activity_Id>4</Second_Activity_Id>";
    judge(
        &school(&rule("TwoActivitiesGrouped", "100", pair), ""),
        side_by_side,
        true,
    );
    let three =
        "<First_Activity_Id>1</First_Activity_Id><Second_Activity_Id>2</Second_Activity_Id>\
                 <Third_Activity_Id>4</Third_Activity_Id>";
    judge(
        &school(&rule("ThreeActivitiesGrouped", "100", three), ""),
        |starts| week(starts, ADA).iter().any(|day| day.len() == 3),
        true,
    );
    let wish = rule("ActivitiesSameStartingTime", "50", &ids(&[1, 4]));
    judge(&school(&wish, ""), |starts| starts[0] == starts[3], false);
}

fn pair(first: usize, second: usize) -> String {
    format!(
        "<First_Activity_Id>{first}</First_Activity_Id>\
         <Second_Activity_Id>{second}</Second_Activity_Id>"
    )
}

/// The second is later in the week, on the same day or on another.
#[test]
fn activities_in_order() {
    judge_both("TwoActivitiesOrdered", &pair(3, 4), |starts| {
        starts[2] + 1 < starts[3]
    });
    judge_both("TwoActivitiesOrdered", &pair(4, 3), |starts| {
        starts[3] < starts[2]
    });
    judge_both("TwoActivitiesOrdered", &pair(2, 1), |starts| {
        starts[1] < starts[0]
    });
    let consecutive =
        |starts: &Starts| day_distance(starts, 2, 3) == 0 && starts[2] + 2 == starts[3];
    let rules = rule("TwoActivitiesConsecutive", "100", &pair(3, 4));
    judge(&school(&rules, ""), consecutive, true);
}

/// Nothing but the break lies between two activities of Monday or Tuesday.
fn over_breaks(starts: &Starts) -> bool {
    let [first, second] = [starts[0], starts[1]];
    let next = |time: usize| time + 1 + usize::from([1, 4].contains(&(time + 1)));
    first / HOURS == second / HOURS && second == next(first)
}

#[test]
fn consecutive_activities_may_have_a_break_between_them() {
    let breaks = times("Break_Time", "", &[("Mo", 2), ("Tu", 2)]);
    let rules =
        rule("BreakTimes", "100", &breaks) + &rule("TwoActivitiesConsecutive", "100", &pair(1, 2));
    let kept = |starts: &Starts| {
        let free = |&time: &usize| on_at(starts, &[0, 1, 2, 3], time) == 0;
        [1, 4].iter().all(free) && over_breaks(starts)
    };
    judge(&school(&rules, ""), kept, true);
}

/// As a wish it costs nothing where it is met, and as much as its weight at most.
#[test]
fn a_wish_for_consecutive_activities_is_a_short_gap() {
    let breaks = times("Break_Time", "", &[("Mo", 2), ("Tu", 2)]);
    let wish = rule("TwoActivitiesConsecutive", "50", &pair(1, 2));
    let rules = rule("BreakTimes", "100", &breaks) + &wish;
    let imported = import(&school(&rules, "")).unwrap();
    assert_eq!(imported.count(Fate::Weakened), 1);
    let bytes = instance::write(&imported.school.instance);
    for starts in placements() {
        let score = engine::score(&bytes, &timetable(&starts)).expect("a timetable");
        let near = (1..=2).contains(&starts[1].wrapping_sub(starts[0]));
        assert_eq!(score.objective.0, u64::from(!near), "{starts:?}");
        assert!(near || !over_breaks(&starts), "{starts:?}");
    }
}

/// An order of activities that must start together cannot be kept; one with an activity
/// that is not active says nothing.
#[test]
fn an_order_of_one_event_is_dropped() {
    let fates = |rules: &str| {
        let imported = import(&school(rules, "")).unwrap();
        (
            imported.count(Fate::Weakened),
            imported.count(Fate::Dropped),
        )
    };
    let together = rule("ActivitiesSameStartingTime", "100", &ids(&[1, 4]));
    for name in ["TwoActivitiesOrdered", "TwoActivitiesConsecutive"] {
        let order = rule(name, "100", &pair(1, 4));
        assert_eq!(fates(&order), (0, 0), "{name}");
        assert_eq!(fates(&(together.clone() + &order)), (1, 1), "{name}");
        for weight in ["50", "100"] {
            let order = rule(name, weight, &pair(1, 5));
            assert_eq!(fates(&order), (0, 0), "{name}");
        }
    }
}

/// How many of three times are occupied by activities 1, 3 and 4.
fn occupied(starts: &Starts) -> usize {
    let on = |&&time: &&usize| on_at(starts, &[0, 2, 3], time) > 0;
    [0, 1, 3].iter().filter(on).count()
}

#[test]
fn activities_at_selected_times() {
    let slots = times(
        "Selected_Time_Slot",
        "Selected_",
        &[("Mo", 1), ("Mo", 2), ("Tu", 1)],
    );
    let list = ids(&[1, 3, 4]) + &slots;
    let most =
        format!("{list}<Max_Number_of_Occupied_Time_Slots>1</Max_Number_of_Occupied_Time_Slots>");
    judge_both(
        "ActivitiesOccupyMaxTimeSlotsFromSelection",
        &most,
        |starts| occupied(starts) <= 1,
    );
    let least =
        format!("{list}<Min_Number_of_Occupied_Time_Slots>2</Min_Number_of_Occupied_Time_Slots>");
    judge_both(
        "ActivitiesOccupyMinTimeSlotsFromSelection",
        &least,
        |starts| occupied(starts) >= 2,
    );
    let list = ids(&[1, 2, 4]) + &slots;
    let at_once = format!(
        "{list}<Max_Number_of_Simultaneous_Activities>1</Max_Number_of_Simultaneous_Activities>"
    );
    judge_both(
        "ActivitiesMaxSimultaneousInSelectedTimeSlots",
        &at_once,
        |starts| {
            [0, 1, 3]
                .iter()
                .all(|&time| on_at(starts, &[0, 1, 3], time) <= 1)
        },
    );
}

#[test]
fn activities_that_start_together_are_one_event() {
    let together = rule("ActivitiesSameStartingTime", "100", &ids(&[1, 4]));
    let shared = import(&school(&together, "")).unwrap();
    assert_eq!(shared.school.instance.events.len(), 3);
    assert_eq!(shared.count(Fate::Weakened), 1, "Ada has both");
    assert_eq!(shared.school.names.lessons[0], "Maths 5a #1 & Arts 5b #4");
    let uneven = rule("ActivitiesSameStartingTime", "100", &ids(&[1, 3]));
    let uneven = import(&school(&uneven, "")).unwrap();
    assert_eq!(
        (
            uneven.school.instance.events.len(),
            uneven.count(Fate::Dropped)
        ),
        (4, 1)
    );
}

#[test]
fn pinned_rooms() {
    let pin = |id: usize, room: &str, weight: &str| {
        rule(
            "ActivityPreferredRoom",
            weight,
            &format!("{}<Room>{room}</Room>", ids(&[id])),
        )
    };
    let both = pin(3, "Hall", "100") + &pin(4, "Hall", "100");
    judge(
        &school("", &both),
        |starts| (0..TIMES).all(|time| on_at(starts, &[2, 3], time) <= 1),
        true,
    );
    let off = times("Not_Available_Time", "", &[("Mo", 1)]);
    let off = rule(
        "RoomNotAvailableTimes",
        "100",
        &format!("<Room>Hall</Room>{off}"),
    );
    judge(
        &school("", &(pin(3, "Hall", "100") + &off)),
        |starts| starts[2] != 0,
        true,
    );
    let subject = rule(
        "SubjectPreferredRoom",
        "100",
        "<Subject>Arts</Subject><Room>Hall</Room>",
    );
    judge(
        &school("", &(pin(3, "Hall", "100") + &subject)),
        |starts| (0..TIMES).all(|time| on_at(starts, &[2, 3], time) <= 1),
        true,
    );
    for lost in [
        pin(3, "Any", "100"),
        pin(3, "Hall", "90"),
        rule("TeacherHomeRoom", "100", ""),
    ] {
        assert_eq!(
            import(&school("", &lost)).unwrap().count(Fate::Dropped),
            1,
            "{lost}"
        );
    }
}
