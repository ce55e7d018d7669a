//! Calendars and windows: every calendar of tiny days and every window of them against
//! what the rules say, the limits, files that spell their windows out as groups,
//! damaged calendars, and readers that each make one mistake, which must be told from
//! the right one. `support::both` compares every byte of every buffer after each call.

mod support;

use std::collections::BTreeMap;
use support::both::{
    best, check, check_hard, decode, read, same_sheet, score, sizes, solver_text, text, text_size,
};
use support::cases::{self, Case};
use support::hasty_calendar::{self, Mistake, MISTAKES};
use support::{numbers, refused};
use testing::generate::{
    calendar, damaged_bytes, damaged_calendars, damaged_numbers, damaged_table, encode, instance,
    lent, model, printed, proof, timetable, window, Random, Shape,
};
use testing::prover::{clause_list, solve, Verdict};
use testing::reference::{
    self, Calendar, Constraint, Event, Instance, Kind, Objective, Period, Range, Refusal, Score,
    Window, DAYS,
};
use testing::steps::encode_steps;

/// An instance of this shape that has a calendar.
fn with_calendar(random: &mut Random, shape: Shape) -> Instance {
    let calendars = 100;
    instance(random, &Shape { calendars, ..shape })
}

/// The times of a window, told from the numbers of all periods in turn.
fn times_inside(days: &[Vec<Period>; DAYS], window: Window) -> Vec<usize> {
    let mut times = Vec::new();
    let mut time = 0;
    for (day, periods) in (1..).zip(days) {
        for period in periods {
            let inside = window.from <= period.start && period.end <= window.to;
            if day == window.day && inside {
                times.push(time);
            }
            time += 1;
        }
    }
    times
}

/// The same instance without a calendar, its windows spelled out as groups.
fn spelled_out(instance: &Instance) -> Instance {
    let mut spelled = instance.clone();
    let Some(calendar) = spelled.calendar.take() else {
        return spelled;
    };
    let time_groups = instance.time_groups().to_vec();
    let windows = calendar.windows.iter();
    let windows = windows.map(|&window| times_inside(&calendar.days, window));
    spelled.groups = time_groups.into_iter().chain(windows).collect();
    spelled
}

/// A calendar of these days, in minutes.
fn days(all: [&[(u32, u32)]; DAYS]) -> Calendar {
    let day = |periods: &[(u32, u32)]| {
        let periods = periods.iter();
        periods.map(|&(start, end)| Period { start, end }).collect()
    };
    Calendar {
        days: all.map(day),
        windows: Vec::new(),
    }
}

/// One event of duration 1 with the only resource, and for each window of the calendar
/// a kind 2 of another weight.
fn one_event(calendar: Calendar) -> Instance {
    let kind = |group| Kind::Unavailable { resource: 0, group };
    let weighted = |group: usize| Constraint {
        weight: 1 + (group as u32 * 389) % 1_000,
        kind: kind(group),
    };
    let windows = calendar.windows.iter();
    Instance {
        times: calendar.times(),
        resources: 1,
        events: vec![Event {
            duration: 1,
            resources: vec![0],
        }],
        groups: windows
            .map(|&window| times_inside(&calendar.days, window))
            .collect(),
        constraints: (0..calendar.windows.len()).map(weighted).collect(),
        calendar: Some(calendar),
    }
}

/// Periods of up to `count` on one day with minutes up to `last`, in and out of order.
fn lists_of_periods(count: usize, last: u32) -> Vec<Vec<(u32, u32)>> {
    let mut all: Vec<Vec<(u32, u32)>> = vec![Vec::new()];
    let mut longest = all.clone();
    for _ in 0..count {
        let longer = longest.iter().flat_map(|periods| {
            let one = move |start| (0..=last).map(move |end| (start, end));
            let pairs = (0..=last).flat_map(one);
            pairs.map(|pair| [&periods[..], &[pair]].concat())
        });
        longest = longer.collect();
        all.extend(longest.iter().cloned());
    }
    all
}

/// The first period that breaks a rule.
fn first_fault(periods: &[(u32, u32)]) -> Option<usize> {
    (0..periods.len()).find(|&at| {
        let (start, end) = periods[at];
        start >= end || at > 0 && start < periods[at - 1].1
    })
}

/// Every day of up to three periods with minutes up to 4, as each day of the week.
#[test]
fn every_tiny_day_is_read() {
    let mut seen = BTreeMap::new();
    for (at, periods) in lists_of_periods(3, 4).into_iter().enumerate() {
        let day = at % DAYS;
        let mut values = vec![0; 1 + day];
        values.push(periods.len() as u32);
        values.extend(periods.iter().flat_map(|&(start, end)| [start, end]));
        values.extend(vec![0; DAYS - 1 - day]);
        values.extend([1, 0, 1, 0, 0, 0, 0]);
        let answer = read(&numbers(&values));
        match first_fault(&periods) {
            Some(period) => assert_eq!(answer, refused(22, (2 + day + 2 * period) as u64)),
            None if periods.is_empty() => assert_eq!(answer, refused(22, 0)),
            None => {
                let found = answer.expect("a calendar");
                assert_eq!((found.times, found.groups), (periods.len(), 0));
            }
        }
        let number = answer.err().map_or(0, |refusal| refusal.number);
        *seen.entry(number).or_insert(0) += 1;
    }
    println!("{seen:?}");
    assert_eq!(seen.values().sum::<usize>(), 1 + 25 + 625 + 15_625);
    assert!(seen[&0] > 20);
}

/// All windows of some days with from and to up to `last`.
fn every_window(days: &[u32], last: u32) -> Vec<Window> {
    let ends = |day| (0..=last).flat_map(move |from| (0..=last).map(move |to| [day, from, to]));
    let all = days.iter().flat_map(|&day| ends(day));
    all.map(|[day, from, to]| Window { day, from, to })
        .collect()
}

/// What a window stands for is seen in the objective of an event at each time: each
/// window that has the time adds its own weight.
fn windows_are_their_periods(calendar: Calendar) -> usize {
    let instance = one_event(calendar);
    let file = encode(&instance);
    let found = read(&file).expect("a calendar");
    assert_eq!(
        (found.times, found.groups),
        (instance.times, instance.groups.len())
    );
    assert_eq!(Instance::read(&file).as_ref(), Ok(&instance));
    let spelled = encode(&spelled_out(&instance));
    assert_eq!(sizes(&file, Some(9)), sizes(&spelled, Some(9)));
    assert_eq!(text_size(&file), text_size(&spelled));
    let times = instance.times;
    for time in 0..times {
        let mut table = vec![0; 2 * times];
        (table[time], table[times + time]) = (1, 1);
        let with_time = |(group, _): &(usize, &Constraint)| instance.groups[*group].contains(&time);
        let charged = instance.constraints.iter().enumerate().filter(with_time);
        let objective = charged.map(|(_, one)| u64::from(one.weight)).sum();
        let answer = score(&file, &table);
        assert_eq!(
            answer.map(|score| score.objective),
            Ok(Objective(objective))
        );
        assert_eq!(answer, score(&spelled, &table));
    }
    instance.groups.len()
}

/// Every two days of up to two periods with minutes up to 3, with an empty day between
/// them: all windows of the three with minutes up to 4.
#[test]
fn every_window_of_tiny_days_is_their_periods() {
    let good = |periods: &Vec<(u32, u32)>| first_fault(periods).is_none();
    let lists: Vec<Vec<(u32, u32)>> = lists_of_periods(2, 3).into_iter().filter(good).collect();
    assert_eq!(lists.len(), 1 + 6 + 5);
    let mut windows = 0;
    for first in &lists {
        for last in &lists {
            let mut calendar = days([&[], first, &[], last, &[], &[], &[]]);
            calendar.windows = every_window(&[2, 3, 4], 4);
            if calendar.times() > 0 {
                windows += windows_are_their_periods(calendar);
            }
        }
    }
    println!("{windows} windows");
    assert_eq!(windows, (12 * 12 - 1) * 3 * 25);
}

/// Every day of up to three periods with minutes up to 5, on the week's last day after
/// two periods of the first.
#[test]
fn every_window_of_a_tiny_day_is_its_periods() {
    let good = |periods: &Vec<(u32, u32)>| first_fault(periods).is_none();
    let mut calendars = 0;
    for periods in lists_of_periods(3, 5).into_iter().filter(good) {
        let mut calendar = days([&[(0, 1), (2, 4)], &[], &[], &[], &[], &[], &periods]);
        calendar.windows = every_window(&[1, 7], 6);
        windows_are_their_periods(calendar);
        calendars += 1;
    }
    println!("{calendars} calendars");
    assert_eq!(calendars, 1 + 15 + 35 + 28);
}

/// Minutes at the ends of a day.
#[test]
fn every_window_at_the_ends_of_a_day() {
    let minutes = [0, 1, 2, 127, 128, 720, 1_438, 1_439, 1_440];
    let mut calendar = days([
        &[],
        &[(0, 1), (1, 128), (720, 1_439), (1_439, 1_440)],
        &[],
        &[],
        &[(0, 1_440)],
        &[],
        &[],
    ]);
    for day in 1..=7 {
        for from in minutes {
            let all = minutes.iter().map(|&to| Window { day, from, to });
            calendar.windows.extend(all);
        }
    }
    assert_eq!(windows_are_their_periods(calendar), 7 * 9 * 9);
}

/// A file with so many periods on each day, each of one minute, and the length of its
/// calendar.
fn of_counts(counts: [u32; DAYS]) -> (Vec<u8>, usize) {
    let mut values = vec![0];
    for count in counts {
        values.push(count);
        values.extend((0..count).flat_map(|at| [at, at + 1]));
    }
    let head = numbers(&values).len();
    values.extend([1, 0, 1, 0, 0, 0, 0]);
    (numbers(&values), head)
}

#[test]
fn periods_are_at_most_24_a_day_and_125_in_all() {
    let accepted = |counts| read(&of_counts(counts).0).map(|found| found.times);
    assert_eq!(accepted([24, 24, 24, 24, 24, 5, 0]), Ok(125));
    assert_eq!(accepted([0, 5, 24, 24, 24, 24, 24]), Ok(125));
    assert_eq!(accepted([24, 24, 24, 24, 24, 6, 0]), refused(22, 0));
    assert_eq!(accepted([24; DAYS]), refused(22, 0));
    assert_eq!(accepted([0; DAYS]), refused(22, 0));
    assert_eq!(accepted([0, 0, 0, 0, 0, 0, 1]), Ok(1));
    for day in 0..DAYS {
        let mut counts = [0; DAYS];
        counts[day] = 25;
        assert_eq!(accepted(counts), refused(22, 1 + day as u64));
        // A day's own fault comes before what is wrong with all of them.
        let mut counts = [24; DAYS];
        counts[day] = 25;
        assert_eq!(accepted(counts), refused(22, (1 + day * 49) as u64));
    }
    // After the last day, whatever follows it.
    let (file, head) = of_counts([24; DAYS]);
    assert_eq!(read(&file[..head]), refused(22, 0));
    assert_eq!(read(&file[..head - 1]), refused(1, head as u64 - 1));
    let (file, head) = of_counts([0; DAYS]);
    assert_eq!((read(&file[..head]), head), (refused(22, 0), 8));
}

/// One period, so many groups, windows and members of a list of groups of kind 8.
fn of_groups(groups: u32, windows: u32, listed: u32) -> Vec<u8> {
    let mut values = vec![0, 1, 0, 5, 0, 0, 0, 0, 0, 0, 1, 1, 1, 1, 1];
    values.push(groups);
    values.extend(vec![0; groups as usize]);
    values.push(windows);
    values.extend((0..windows).flat_map(|at| [1, at % 2, 5]));
    values.extend([1, 8, 0, 1, listed]);
    values.extend(1..=listed);
    values.extend([0, 0]);
    numbers(&values)
}

#[test]
fn groups_and_windows_are_at_most_1_024_each() {
    let count = |groups, windows, listed| {
        let file = of_groups(groups, windows, listed);
        read(&file).map(|found| found.groups)
    };
    assert_eq!(count(1_024, 1_024, 2_048), Ok(2_048));
    assert_eq!(count(0, 1_024, 1_024), Ok(1_024));
    assert_eq!(count(1_024, 0, 1_024), Ok(1_024));
    assert_eq!(count(1, 1_023, 1_024), Ok(1_024));
    // The count of windows stands after as many empty groups.
    assert_eq!(count(1_024, 1_025, 0), refused(22, 15 + 2 + 1_024));
    assert_eq!(count(0, 1_025, 0), refused(22, 16));
    assert_eq!(count(1_025, 0, 0), refused(2, 15));
    // As many as there are may be listed, and each is one of them.
    let one_more = of_groups(3, 4, 8);
    assert_eq!(read(&one_more).unwrap_err().number, 2);
    let mut file = of_groups(3, 4, 7);
    let last = file.len() - 3;
    assert_eq!(file[last], 7);
    file[last] = 8;
    assert_eq!(read(&file), refused(3, last as u64));
}

/// 255 groups and windows may be counted by kind 7, 256 are 4.
#[test]
fn windows_are_counted_in_lists() {
    for (groups, windows) in [(0, 255), (100, 155), (255, 0)] {
        let with = |windows: u32| {
            let mut file = of_groups(groups, windows, groups + windows);
            let kind = of_groups(groups, windows, 0).len() - 6;
            assert_eq!(file[kind], 8);
            file[kind] = 7;
            (read(&file), kind as u64)
        };
        assert!(with(windows).0.is_ok());
        let (answer, kind) = with(windows + 1);
        assert_eq!(answer, refused(4, kind));
    }
}

/// A hard kind 6 over a window: its list is as long as the window's periods.
#[test]
fn a_list_over_a_window_is_as_long_as_its_periods() {
    for seed in 0..300 {
        let random = &mut Random::new(seed);
        let times = 1 + random.below(125);
        let mut calendar = calendar(random, times);
        calendar.windows = vec![window(random, &calendar)];
        let periods = times_inside(&calendar.days, calendar.windows[0]).len() as u32;
        let mut instance = one_event(calendar);
        for (lo, accepted) in [(periods, true), (periods + 1, false)] {
            let range = Range { lo, hi: 255 };
            let kind = Kind::BusyLimit {
                resource: 0,
                group: 0,
                range,
            };
            instance.constraints = vec![Constraint { weight: 0, kind }];
            let answer = read(&encode(&instance));
            let number = answer.err().map_or(0, |refusal| refusal.number);
            assert_eq!(number, if accepted { 0 } else { 5 }, "seed {seed}");
        }
    }
}

/// Every operation answers alike for a file and for one that spells its windows out.
fn answers_alike(random: &mut Random, instance: &Instance) -> Result<Score, Refusal> {
    let files = [instance.clone(), spelled_out(instance)].map(|one| encode(&one));
    let [file, spelled] = &files;
    let summaries = [read(file), read(spelled)];
    assert_eq!(summaries[0], summaries[1]);
    assert!(summaries[0].is_ok());
    let table = timetable(random, instance);
    let other = damaged_table(random, &table);
    for table in [&table, &other] {
        assert_eq!(score(file, table), score(spelled, table));
        assert_eq!(
            same_sheet(file, &table[..], &other),
            same_sheet(spelled, &table[..], &other)
        );
    }
    let bound = random.below(6) as u64;
    for bound in [Some(bound), None] {
        assert_eq!(sizes(file, bound), sizes(spelled, bound));
    }
    texts_alike(random, &files);
    let model = model(instance, &table);
    let changed = damaged_table(random, &model);
    for model in [&model, &changed] {
        assert_eq!(decode(file, model), decode(spelled, model));
        let text = printed(random, model).text();
        let store = model.len();
        assert_eq!(
            solver_text(file, &text, store, store),
            solver_text(spelled, &text, store, store)
        );
    }
    proofs_alike(random, instance, &files, &model, bound);
    score(file, &table)
}

fn texts_alike(random: &mut Random, [file, spelled]: &[Vec<u8>; 2]) {
    let size = text_size(file);
    assert_eq!(size, text_size(spelled));
    let length = size.expect("a small formula");
    let mut outs = [(); 2].map(|()| vec![0xa5; length as usize]);
    let answers = [text(file, &mut outs[0]), text(spelled, &mut outs[1])];
    assert_eq!(answers[0], answers[1]);
    assert_eq!(outs[0], outs[1]);
    let short = lent(random, length) as usize;
    let mut outs = [(); 2].map(|()| vec![0xa5; short]);
    let answers = [text(file, &mut outs[0]), text(spelled, &mut outs[1])];
    assert_eq!(answers[0], answers[1]);
    assert_eq!(outs[0], outs[1]);
}

/// A refutation where there is one, else steps at random; the same stores for both.
fn proofs_alike(
    random: &mut Random,
    instance: &Instance,
    [file, spelled]: &[Vec<u8>; 2],
    model: &[u8],
    bound: u64,
) {
    let Ok(sizes) = reference::sizes(file, Some(bound)) else {
        return;
    };
    if sizes.variables > 400 {
        return;
    }
    let clauses = clause_list(instance, Some(bound));
    let proof = match solve(sizes.variables as usize, &clauses) {
        Verdict::Refutation(steps) => encode_steps(&steps),
        Verdict::Model(_) => proof(random, sizes.variables, sizes.clauses),
    };
    let ample = [
        sizes.words + proof.len() as u64,
        sizes.clauses + proof.len() as u64,
        sizes.variables,
    ];
    let [words, rows, bytes] = ample;
    assert_eq!(
        check(file, bound, &proof, words, rows, bytes),
        check(spelled, bound, &proof, words, rows, bytes)
    );
    assert_eq!(
        check_hard(file, &proof, ample),
        check_hard(spelled, &proof, ample)
    );
    assert_eq!(
        best(file, model, &proof, ample),
        best(spelled, model, &proof, ample)
    );
}

#[test]
fn files_answer_as_if_their_windows_were_spelled_out() {
    let (mut costs, mut windows) = (0, 0);
    for seed in 0..1_500 {
        let random = &mut Random::new(seed);
        let soft = random.pick(&[50, 90, 100]);
        let shape = match seed % 3 {
            0 => Shape::small(),
            _ => Shape::tiny(),
        };
        let instance = with_calendar(random, Shape { soft, ..shape });
        let scored = answers_alike(random, &instance).expect("a timetable");
        costs += usize::from(scored.objective > Objective(0));
        windows += instance.groups.len() - instance.time_groups().len();
    }
    println!("seeds 0..1_500: {windows} windows, {costs} timetables that cost something");
    assert!(costs > 500 && windows > 1_500);
}

/// Schools, and instances of up to 125 periods.
#[test]
fn large_files_score_as_if_their_windows_were_spelled_out() {
    let long = Shape {
        times: 100..=125,
        groups: 20..=60,
        ..Shape::small()
    };
    for seed in 0..60 {
        let random = &mut Random::new(seed);
        let shape = random.pick(&[0, 1]);
        let shape = [long.clone(), Shape::school()][shape].clone();
        let feasible = false;
        let instance = with_calendar(random, Shape { feasible, ..shape });
        let [file, spelled] = [instance.clone(), spelled_out(&instance)].map(|one| encode(&one));
        assert_eq!(read(&file), read(&spelled));
        assert_eq!(sizes(&file, Some(3)), sizes(&spelled, Some(3)));
        assert_eq!(text_size(&file), text_size(&spelled));
        for _ in 0..5 {
            let table = timetable(random, &instance);
            assert_eq!(score(&file, &table), score(&spelled, &table));
        }
    }
}

/// What is wrong with the constraints of a file is wrong with those of the other, so
/// many bytes further on.
#[test]
fn constraints_are_refused_as_if_windows_were_spelled_out() {
    let mut seen: BTreeMap<u32, usize> = BTreeMap::new();
    for seed in 0..6_000 {
        let random = &mut Random::new(seed);
        let instance = with_calendar(random, Shape::small());
        let mut without = instance.clone();
        without.constraints.clear();
        let heads = [without.clone(), spelled_out(&without)].map(|one| encode(&one).len() - 1);
        let file = encode(&instance);
        let rest = match random.chance(70) {
            true => damaged_numbers(random, &file[heads[0]..]),
            false => damaged_bytes(random, &file[heads[0]..]),
        };
        let spelled = encode(&spelled_out(&without));
        let answer = read(&[&file[..heads[0]], &rest].concat());
        let other = read(&[&spelled[..heads[1]], &rest].concat());
        let moved = other.map_err(|refusal| Refusal {
            value: refusal.value + heads[0] as u64 - heads[1] as u64,
            ..refusal
        });
        assert_eq!(answer, moved, "seed {seed}");
        let number = answer.err().map_or(0, |refusal| refusal.number);
        *seen.entry(number).or_default() += 1;
    }
    println!("seeds 0..6_000: {seen:?}");
    assert!([0, 1, 2, 3, 5, 6].iter().all(|number| seen[number] >= 20));
    assert!(!seen.contains_key(&22));
}

/// Each damaged calendar earns the refusal that is said of it, in every operation.
#[test]
fn damaged_calendars_are_refused() {
    for seed in 0..400 {
        let random = &mut Random::new(seed);
        let instance = with_calendar(random, Shape::small());
        for damaged in damaged_calendars(random, &instance) {
            let refusal = damaged.refusal;
            let file = &damaged.file;
            assert_eq!(read(file), Err(refusal), "seed {seed}, {}", damaged.name);
            assert_eq!(score(file, &[]), Err(refusal));
            assert_eq!(same_sheet(file, &[], &[]), Err(refusal));
            assert_eq!(sizes(file, Some(9_999)), Err(refusal));
            assert_eq!(text_size(file), Err(refusal));
            assert_eq!(text(file, &mut [0xa5; 3]), Err(refusal));
            assert_eq!(decode(file, &[]), Err(refusal));
            assert_eq!(solver_text(file, b"x", 1, 1), Err(refusal));
            assert_eq!(check(file, 9_999, &[], 1, 1, 1), Err(refusal));
            assert_eq!(check_hard(file, &[], [1; 3]), Err(refusal));
            assert_eq!(best(file, &[], &[], [1; 3]), Err(refusal));
        }
    }
}

/// Every prefix of a file, and every byte of its calendar and windows changed.
#[test]
fn every_prefix_and_every_byte_changed_is_read_alike() {
    let random = &mut Random::new(4);
    let mut calendar = days([
        &[(0, 1), (1, 45), (200, 1_440)],
        &[],
        &[(3, 4)],
        &[],
        &[],
        &[],
        &[(0, 300), (301, 302)],
    ]);
    calendar.windows = vec![window(random, &calendar), window(random, &calendar)];
    let file = encode(&one_event(calendar));
    for length in 0..=file.len() {
        let answer = read(&file[..length]);
        assert_eq!(answer.is_ok(), length == file.len());
        assert!(!answer.is_err_and(|refusal| refusal.number != 1));
    }
    for at in 0..file.len() {
        for byte in 0..=u8::MAX {
            let mut changed = file.clone();
            changed[at] = byte;
            let _ = read(&changed);
            changed[at] = file[at];
            changed.insert(at, byte);
            let _ = read(&changed);
        }
    }
}

/// Files of every sort: accepted ones, with and without a calendar, damaged once and
/// twice, and those at the limits.
fn drawn_files(seed: u64) -> Vec<Vec<u8>> {
    let random = &mut Random::new(seed);
    let plain = instance(random, &Shape::tiny());
    let mut files = vec![encode(&plain)];
    for shape in [Shape::tiny(), Shape::small()] {
        let instance = with_calendar(random, shape);
        files.push(encode(&instance));
        let damaged = damaged_calendars(random, &instance);
        files.extend(damaged.into_iter().map(|damaged| damaged.file));
    }
    let again = files.iter().map(|file| damaged_numbers(random, file));
    let again: Vec<Vec<u8>> = again.collect();
    files.extend(again);
    files
}

/// Files at the limits, each of few bytes more or less.
fn files_at_the_limits() -> Vec<Vec<u8>> {
    let mut files = vec![
        numbers(&[126]),
        vec![0x80, 0],
        of_counts([24, 24, 24, 24, 24, 5, 0]).0,
        of_counts([24, 24, 24, 24, 24, 6, 0]).0,
        of_counts([25, 0, 0, 0, 0, 0, 0]).0,
        // No period, and something wrong with what follows.
        numbers(&[0, 0, 0, 0, 0, 0, 0, 0, 0]),
        numbers(&[0, 0, 0, 0, 0, 0, 0, 0, 1, 0, 0]),
    ];
    let (all, head) = of_counts([24; DAYS]);
    files.push(all[..head].to_vec());
    files.push(all[..head - 1].to_vec());
    // An overlong 0 before a calendar that is good.
    let mut overlong = vec![0x80];
    overlong.extend(of_counts([1, 0, 0, 0, 0, 0, 0]).0);
    files.push(overlong);
    for windows in [1_024, 1_025] {
        for groups in [0, 1_024] {
            let file = of_groups(groups, windows, 0);
            let constraints = file.len() - 7;
            files.push([&file[..constraints], &[0]].concat());
        }
    }
    // Minutes at the ends of a day, of periods and of windows.
    for [start, end] in [
        [0, 1_440],
        [1_439, 1_440],
        [1_440, 1_441],
        [1_440, 5],
        [1_441, 5],
    ] {
        for [from, to] in [
            [0, 1_440],
            [1_440, 1_440],
            [1_440, 0],
            [1_441, 0],
            [0, 1_441],
        ] {
            let mut values = vec![0, 1, start, end, 0, 0, 0, 0, 0, 0, 1, 0, 1, 0, 0];
            values.extend([1, 1, from, to, 0]);
            files.push(numbers(&values));
        }
    }
    // A limit, then a bad number; an order, then a limit or a bad number.
    for second in [&[0x80][..], &[0xa1, 0x0b], &[5], &[0x80, 0]] {
        for start in [&[0xa0, 0x0b][..], &[0xa1, 0x0b], &[3], &[5], &[6]] {
            let period = [start, second].concat();
            files.push([&[0, 2, 0, 4], &period[..]].concat());
            files.push([&[0, 1, 0, 4, 1], &period[..]].concat());
        }
    }
    files
}

/// What the reference makes of a file, its groups spelled out.
fn right(file: &[u8]) -> Result<Instance, Refusal> {
    let instance = Instance::read(file)?;
    let calendar = None;
    Ok(Instance {
        calendar,
        ..instance
    })
}

/// Each mistake is seen in the files that are drawn or stand at the limits; the reader
/// without one reads as the reference does.
#[test]
fn readers_that_make_a_mistake_are_found() {
    let mut found: BTreeMap<String, usize> = BTreeMap::new();
    let mut files = files_at_the_limits();
    files.extend((0..300).flat_map(drawn_files));
    for file in &files {
        let right = right(file);
        assert_eq!(hasty_calendar::read(file, None), right, "{file:x?}");
        for &mistake in MISTAKES {
            let told = hasty_calendar::read(file, Some(mistake)) != right;
            *found.entry(format!("{mistake:?}")).or_default() += usize::from(told);
        }
        // The engine too.
        let _ = read(file);
    }
    println!("{} files, found by so many: {found:?}", files.len());
    for (mistake, count) in found {
        assert!(count > 0, "{mistake}");
    }
}

/// The answer of an operation on another file than the case's.
fn answer_of(case: &Case, file: &[u8]) -> Result<String, Refusal> {
    match case {
        Case::Read(_) => reference::read(file).map(cases::accepted),
        Case::Score(_, table) => reference::score(file, table).map(cases::scored),
        Case::SameSheet(_, first, second) => {
            reference::same_sheet(file, first, second).map(cases::compared)
        }
        Case::Sizing(_, bound) => reference::sizes(file, *bound).map(cases::sized),
        Case::Wcnf(_, length) => {
            let mut out = vec![0; *length];
            reference::text(file, &mut out).map(|length| cases::written(&out[..length]))
        }
        Case::TextProgram(_) => Ok(cases::printed(&reference::text_program(file))),
        Case::Decode(_, model) => {
            reference::decode(file, model).map(|(part, cost)| cases::decoded(part, cost))
        }
        Case::SolverText(_, text, [model, store]) => {
            let (model, part, cost) = reference::solver_text(file, text, *model, *store)?;
            Ok(cases::filled(&model, part, cost))
        }
        Case::Check(_, bound, proof, [words, rows, marks]) => {
            reference::check(file, *bound, proof, *words, *rows, *marks).map(cases::refuted)
        }
    }
}

/// The answer of a case by a reader with a mistake, or with none.
fn hasty_answer(case: &Case, mistake: Option<Mistake>) -> Result<String, Refusal> {
    if matches!(case, Case::TextProgram(input) if input.len() > reference::TEXT_PROGRAM_BYTES) {
        return answer_of(case, case.file()); // it is not read
    }
    match (hasty_calendar::spelled_out(case.file(), mistake), case) {
        (Ok(spelled), _) => answer_of(case, &spelled),
        (Err(Refusal { number, value }), Case::TextProgram(_)) => {
            Ok(cases::printed(format!("{number} {value}\n").as_bytes()))
        }
        (Err(refusal), _) => Err(refusal),
    }
}

/// The mistakes that no case of vectors/cases.txt tells from right; the others are found
/// by the cases too.
#[test]
fn mistakes_that_the_cases_let_pass() {
    let of_a_calendar = |case: &Case| match case.file().first() {
        Some(0 | 0x80) => true,
        _ => matches!(case, Case::Read(_)),
    };
    let all: Vec<(Case, &str)> = cases::all()
        .filter(|(case, _)| of_a_calendar(case))
        .collect();
    let found = |mistake: Option<Mistake>| {
        let wrong = |(case, expected): &(Case, &str)| {
            let answer = hasty_answer(case, mistake);
            answer.unwrap_or_else(cases::refused) != *expected
        };
        all.iter().any(wrong)
    };
    for (case, expected) in &all {
        let answer = hasty_answer(case, None);
        assert_eq!(answer.unwrap_or_else(cases::refused), *expected);
    }
    let mistakes = MISTAKES.iter().copied();
    let missed: Vec<Mistake> = mistakes.filter(|&mistake| !found(Some(mistake))).collect();
    println!("{} cases, not found: {missed:?}", all.len());
    let expected = [
        Mistake::LimitsAfterTheEnd,
        Mistake::NeighboursBeforeTheEnd,
        Mistake::OrderAfterTheDay,
        Mistake::StartOf1440RefusedAtOnce,
        Mistake::OnlyWithTheFirstPeriodCompared,
        Mistake::PeriodsThatStartInside,
        Mistake::TimesByTheClock,
        Mistake::WindowsBackwards,
    ];
    assert_eq!(missed, expected);
}
