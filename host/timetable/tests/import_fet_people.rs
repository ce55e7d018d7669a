//! FET's rules about teachers and students, against every placement.
#![cfg(feature = "engine")]

mod import;

use import::*;
use timetable::import::Fate;

#[test]
fn people_who_are_not_available() {
    let fields = times("Not_Available_Time", "", &[("Mo", 1), ("Tu", 2)]);
    judge_both(
        "TeacherNotAvailableTimes",
        &format!("<Teacher>Ada</Teacher>{fields}"),
        |starts| [0, 4].iter().all(|&time| on_at(starts, ADA, time) == 0),
    );
    let of_class = format!("<Students>5a</Students>{fields}");
    judge_both("StudentsSetNotAvailableTimes", &of_class, |starts| {
        [0, 4].iter().all(|&time| on_at(starts, CLASS_A, time) == 0)
    });
    let of_year = format!("<Students>5</Students>{fields}");
    judge_both("StudentsSetNotAvailableTimes", &of_year, |starts| {
        [0, 4]
            .iter()
            .all(|&time| on_at(starts, &[0, 1, 2, 3], time) == 0)
    });
}

#[test]
fn gaps_of_people() {
    let fields = "<Teacher_Name>Ada</Teacher_Name><Max_Gaps>0</Max_Gaps>";
    judge_both("TeacherMaxGapsPerWeek", fields, |starts| {
        week(starts, ADA).iter().map(|day| gaps(day)).sum::<usize>() == 0
    });
    judge_both("TeacherMaxGapsPerDay", fields, |starts| {
        week(starts, ADA).iter().all(|day| gaps(day) == 0)
    });
    let all = "<Max_Gaps>0</Max_Gaps>";
    judge_both("StudentsMaxGapsPerWeek", all, |starts| {
        [CLASS_A, CLASS_B]
            .iter()
            .all(|class| week(starts, class).iter().all(|day| gaps(day) == 0))
    });
}

#[test]
fn an_hour_off_is_no_gap() {
    let off = times("Not_Available_Time", "", &[("Mo", 2), ("Tu", 2), ("We", 2)]);
    let rules = rule(
        "TeacherNotAvailableTimes",
        "100",
        &format!("<Teacher>Ada</Teacher>{off}"),
    ) + &rule("TeachersMaxGapsPerWeek", "100", "<Max_Gaps>0</Max_Gaps>");
    judge(
        &school(&rules, ""),
        |starts| week(starts, ADA).iter().all(|day| !day.contains(&1)),
        true,
    );
    let breaks = times("Break_Time", "", &[("Mo", 2)]);
    let rules = rule("BreakTimes", "100", &breaks)
        + &rule("TeachersMaxGapsPerWeek", "100", "<Max_Gaps>0</Max_Gaps>");
    judge(
        &school(&rules, ""),
        |starts| {
            on_at(starts, &[0, 1, 2, 3], 1) == 0
                && gaps(&hours(starts, ADA, 1)) + gaps(&hours(starts, ADA, 2)) == 0
        },
        true,
    );
}

#[test]
fn hours_of_people() {
    let fields = "<Teacher_Name>Ada</Teacher_Name><Maximum_Hours_Daily>1</Maximum_Hours_Daily>";
    judge_both("TeacherMaxHoursDaily", fields, |starts| {
        week(starts, ADA).iter().all(|day| day.len() <= 1)
    });
    let least = "<Students>5a</Students><Minimum_Hours_Daily>2</Minimum_Hours_Daily>";
    let allowed = format!("{least}<Allow_Empty_Days>true</Allow_Empty_Days>");
    judge_both("StudentsSetMinHoursDaily", &allowed, |starts| {
        week(starts, CLASS_A)
            .iter()
            .all(|day| day.is_empty() || day.len() >= 2)
    });
    let least = "<Students>5a</Students><Minimum_Hours_Daily>1</Minimum_Hours_Daily>";
    let forbidden = format!("{least}<Allow_Empty_Days>false</Allow_Empty_Days>");
    judge_both("StudentsSetMinHoursDaily", &forbidden, |starts| {
        days_of(starts, CLASS_A) == DAYS
    });
    let row = "<Maximum_Hours_Continuously>2</Maximum_Hours_Continuously>";
    judge_both("StudentsMaxHoursContinuously", row, |starts| {
        week(starts, CLASS_A)
            .iter()
            .all(|day| longest_row(day) <= 2)
    });
    judge_both(
        "TeachersMaxSpanPerDay",
        "<Max_Span>2</Max_Span>",
        |starts| {
            week(starts, ADA)
                .iter()
                .all(|day| day.len() + gaps(day) <= 2)
        },
    );
}

#[test]
fn days_of_people() {
    let fields = "<Teacher_Name>Ada</Teacher_Name><Max_Days_Per_Week>1</Max_Days_Per_Week>";
    judge_both("TeacherMaxDaysPerWeek", fields, |starts| {
        days_of(starts, ADA) <= 1
    });
    let fields = "<Teacher_Name>Ada</Teacher_Name><Minimum_Days_Per_Week>3</Minimum_Days_Per_Week>";
    judge_both("TeacherMinDaysPerWeek", fields, |starts| {
        days_of(starts, ADA) == 3
    });
    let interval = "<Students>5a</Students><Interval_Start_Hour>2</Interval_Start_Hour>\
                    <Interval_End_Hour></Interval_End_Hour><Max_Days_Per_Week>1</Max_Days_Per_Week>";
    judge_both("StudentsSetIntervalMaxDaysPerWeek", interval, |starts| {
        let late = |day: &&Vec<usize>| day.iter().any(|&hour| hour >= 1);
        week(starts, CLASS_A).iter().filter(late).count() <= 1
    });
    let rest = "<Minimum_Resting_Hours>2</Minimum_Resting_Hours><Circular>false</Circular>";
    judge_both("TeachersMinRestingHours", rest, |starts| {
        week(starts, ADA)
            .windows(2)
            .all(|pair| match (pair[0].last(), pair[1].first()) {
                (Some(last), Some(first)) => HOURS - 1 - last + first >= 2,
                _ => true,
            })
            && week(starts, &[2])
                .windows(2)
                .all(|pair| pair[0].is_empty() || pair[1].is_empty())
    });
}

#[test]
fn early_beginnings_of_a_class_that_comes_every_day() {
    let every_day = rule(
        "StudentsSetMinHoursDaily",
        "100",
        "<Students>5a</Students><Minimum_Hours_Daily>1</Minimum_Hours_Daily>\
         <Allow_Empty_Days>false</Allow_Empty_Days>",
    );
    let early = |most: usize| {
        let fields = format!(
            "<Students>5a</Students><Max_Beginnings_At_Second_Hour>{most}</Max_Beginnings_At_Second_Hour>"
        );
        rule("StudentsSetEarlyMaxBeginningsAtSecondHour", "100", &fields)
    };
    judge(
        &school(&(every_day.clone() + &early(0)), ""),
        |starts| {
            week(starts, CLASS_A)
                .iter()
                .all(|day| day.first() == Some(&0))
        },
        true,
    );
    judge(
        &school(&(every_day + &early(1)), ""),
        |starts| {
            let week = week(starts, CLASS_A);
            week.iter()
                .all(|day| day.first().is_some_and(|&hour| hour <= 1))
                && week.iter().filter(|day| day.first() == Some(&1)).count() <= 1
        },
        true,
    );
    let lost = import(&school(&early(1), "")).unwrap();
    assert_eq!(lost.count(Fate::Dropped), 1, "a class that may stay away");
}

#[test]
fn tagged_hours_of_people() {
    let fields = "<Students>5a</Students><Activity_Tag>hard</Activity_Tag>\
                  <Maximum_Hours_Daily>2</Maximum_Hours_Daily>";
    judge_both("StudentsSetActivityTagMaxHoursDaily", fields, |starts| {
        week(starts, &[0, 2]).iter().all(|day| day.len() <= 2)
    });
    let fields = "<Activity_Tag_Name>hard</Activity_Tag_Name>\
                  <Maximum_Hours_Continuously>2</Maximum_Hours_Continuously>";
    judge_both(
        "StudentsActivityTagMaxHoursContinuously",
        fields,
        |starts| {
            week(starts, &[0, 2])
                .iter()
                .all(|day| longest_row(day) <= 2)
        },
    );
}
