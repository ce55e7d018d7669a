//! The generators give what their names say, and damaged inputs reach every
//! refusal of their place.

mod support;

use std::collections::BTreeMap;
use support::both::{
    check, decode, read, same_sheet, score, sizes, solver_text, text, text_program, text_size,
};
use testing::generate::{
    damaged_calendars, damaged_instance, damaged_numbers, damaged_table, damaged_text,
    damaged_texts, encode, instance, lent, model, number_starts, printed, proof, timetable,
    wrapped, Line, Printed, Random, Shape,
};
use testing::reference::{
    Calendar, Constraint, Infeasibility, Instance, Kind, Period, Range, Refusal, Sheet, Window,
    LARGEST_GAP, LAST_MINUTE,
};

/// How often each refusal was given; 0 stands for acceptance.
#[derive(Default, Debug)]
struct Seen(BTreeMap<u32, usize>);

impl Seen {
    fn count<T>(&mut self, answer: &Result<T, Refusal>) {
        let number = answer.as_ref().err().map_or(0, |refusal| refusal.number);
        *self.0.entry(number).or_default() += 1;
    }

    fn numbers(&self) -> Vec<u32> {
        self.0.keys().copied().collect()
    }

    fn times(&self, number: u32) -> usize {
        self.0.get(&number).copied().unwrap_or(0)
    }
}

fn shape(seed: u64) -> Shape {
    let shape = match seed % 3 {
        0 => Shape::tiny(),
        _ => Shape::small(),
    };
    Shape {
        feasible: seed.is_multiple_of(2),
        ..shape
    }
}

#[test]
fn equal_seeds_give_equal_inputs() {
    for seed in 0..20 {
        let draw = || {
            let mut random = Random::new(seed);
            let instance = instance(&mut random, &shape(seed));
            let table = timetable(&mut random, &instance);
            (
                encode(&instance),
                damaged_table(&mut random, &table),
                printed(&mut random, &table).text(),
                table,
                proof(&mut random, 10, 20),
            )
        };
        assert_eq!(draw(), draw(), "seed {seed}");
    }
}

#[test]
fn instances_are_accepted_and_read_back() {
    for seed in 0..500 {
        let mut random = Random::new(seed);
        let instance = instance(&mut random, &shape(seed));
        let file = encode(&instance);
        assert_eq!(Instance::read(&file), Ok(instance), "seed {seed}");
        assert!(number_starts(&file).len() <= file.len());
    }
}

/// What days and their periods are like: a name for each case.
fn cases_of_days(calendar: &Calendar) -> Vec<&'static str> {
    let mut cases = vec![match calendar.times() {
        1 => "one period",
        125 => "125 periods",
        _ => "several periods",
    }];
    for periods in &calendar.days {
        cases.push(match periods.len() {
            0 => "an empty day",
            24 => "a full day",
            _ => "a day",
        });
        for pair in periods.windows(2) {
            cases.push(match pair[0].end == pair[1].start {
                true => "no break",
                false => "a break",
            });
        }
        let begins = periods.first().is_some_and(|period| period.start == 0);
        let ends = periods
            .last()
            .is_some_and(|period| period.end == LAST_MINUTE);
        cases.extend(begins.then_some("from the first minute"));
        cases.extend(ends.then_some("to the last minute"));
    }
    cases
}

/// What windows are like: a name for each case.
fn cases_of_windows(calendar: &Calendar) -> Vec<&'static str> {
    let mut cases = vec![match calendar.windows.len() {
        0 => "no window",
        _ => "windows",
    }];
    for &window in &calendar.windows {
        let Window { day, from, to } = window;
        let periods = &calendar.days[day as usize - 1];
        let inside = calendar.group(window).len();
        cases.push(match inside {
            0 if periods.is_empty() => "of an empty day",
            0 => "of no period",
            1 => "of one period",
            all if all == periods.len() => "of all periods of several",
            _ => "of some periods",
        });
        cases.extend((from > to).then_some("from above to"));
        let cut = |period: &Period| {
            let overlaps = period.end > from && period.start < to;
            overlaps && (period.start < from || period.end > to)
        };
        cases.extend(periods.iter().any(cut).then_some("a period cut"));
        let first = periods.iter().any(|period| period.start == from);
        let last = periods.iter().any(|period| period.end == to);
        cases.extend((first && last && inside > 0).then_some("at a start and an end"));
    }
    cases
}

#[test]
fn calendars_of_every_sort_are_drawn() {
    let mut seen: BTreeMap<&str, usize> = BTreeMap::new();
    let long = Shape {
        times: 120..=125,
        ..Shape::small()
    };
    let mut with_calendar = 0;
    for seed in 0..4_000 {
        let mut random = Random::new(seed);
        let shape = match seed % 4 {
            0 => long.clone(),
            _ => shape(seed),
        };
        let feasible = false;
        let instance = instance(&mut random, &Shape { feasible, ..shape });
        let Some(calendar) = &instance.calendar else {
            continue;
        };
        with_calendar += 1;
        assert_eq!(calendar.times(), instance.times);
        let cases = [cases_of_days(calendar), cases_of_windows(calendar)];
        for case in cases.concat() {
            *seen.entry(case).or_default() += 1;
        }
    }
    println!("seeds 0..4_000: {with_calendar} calendars, {seen:?}");
    assert!((1_000..1_400).contains(&with_calendar));
    assert_eq!(seen.len(), 10 + 10);
    assert!(seen.values().all(|&count| count >= 20));
}

/// Each damaged calendar earns the refusal that is said of it, in each of these ways.
#[test]
fn damaged_calendars_reach_refusals_1_and_22() {
    let mut seen: BTreeMap<(u32, &str), usize> = BTreeMap::new();
    for seed in 0..400 {
        let mut random = Random::new(seed);
        let calendars = 50;
        let shape = shape(seed);
        let instance = instance(&mut random, &Shape { calendars, ..shape });
        let all = damaged_calendars(&mut random, &instance);
        assert_eq!(all.is_empty(), instance.calendar.is_none());
        for damaged in all {
            let case = (damaged.refusal.number, damaged.name);
            assert_eq!(
                read(&damaged.file),
                Err(damaged.refusal),
                "seed {seed}, {case:?}"
            );
            *seen.entry(case).or_default() += 1;
        }
    }
    println!("seeds 0..400: {seen:?}");
    let of = |number| seen.keys().filter(|(one, _)| *one == number).count();
    assert_eq!((of(1), of(22)), (8, 15));
    assert!(seen.values().all(|&count| count >= 20));
}

/// What instances have of kinds 9 and 10: a name for each case.
fn cases_of_lengths(instance: &Instance) -> Vec<&'static str> {
    let mut cases = Vec::new();
    for constraint in &instance.constraints {
        match constraint.kind {
            Kind::Distribute { event, length, .. } => {
                let duration = instance.events[event].duration;
                cases.extend((length == 1).then_some("length 1"));
                cases.extend((length == instance.times).then_some("length T"));
                cases.extend((length > duration).then_some("length above the duration"));
                cases.extend((1 < length && length < duration).then_some("length inside"));
            }
            Kind::Lengths {
                shortest, longest, ..
            } => {
                cases.extend((shortest == longest).then_some("one length"));
                cases.push(match (shortest, longest < instance.times) {
                    (1, true) => "shortest 1, longest below T",
                    (1, false) => "1 to T",
                    (_, true) => "shortest above 1, longest below T",
                    (_, false) => "shortest above 1, longest T",
                });
            }
            _ => continue,
        }
        cases.extend((instance.times == 1).then_some("T = 1"));
    }
    cases
}

/// Whether two subevents of several times each stand side by side.
fn side_by_side(instance: &Instance, table: &[u8]) -> bool {
    let half = table.len() / 2;
    (0..instance.events.len()).any(|event| {
        let row = event * instance.times..(event + 1) * instance.times;
        // From the second time of one on: taken, a start, taken again.
        let marks: Vec<u8> = row.map(|at| table[at] + table[half + at]).collect();
        marks.windows(3).any(|three| *three == [1, 2, 1])
    })
}

#[test]
fn lengths_of_every_sort_are_drawn() {
    let mut seen: BTreeMap<&str, usize> = BTreeMap::new();
    for seed in 0..2_000 {
        let mut random = Random::new(seed);
        let instance = instance(&mut random, &shape(seed));
        let mut cases = cases_of_lengths(&instance);
        let table = timetable(&mut random, &instance);
        cases.extend(side_by_side(&instance, &table).then_some("side by side"));
        for case in cases {
            *seen.entry(case).or_default() += 1;
        }
    }
    println!("seeds 0..2_000: {seen:?}");
    assert_eq!(seen.len(), 11);
    assert!(seen.values().all(|&count| count >= 20));
}

/// Which times lie outside a group.
fn times_outside(instance: &Instance, group: usize) -> &'static str {
    let outside: Vec<bool> = (0..instance.times)
        .map(|time| instance.outside(group, time))
        .collect();
    let adjacent = outside.windows(2).any(|two| two == [true, true]);
    match (outside.contains(&true), outside.contains(&false)) {
        (false, _) => "none",
        (_, false) => "all",
        _ if adjacent => "adjacent",
        _ => "scattered",
    }
}

/// What a subevent does that holds times of both sides of a group, and what comes
/// after a subevent that starts outside.
fn crossings(instance: &Instance, event: usize, group: usize, table: &[u8]) -> Vec<&'static str> {
    let sheet = Sheet::read(instance, table).expect("a timetable");
    let outside = |&time: &usize| instance.outside(group, time);
    let mut cases = Vec::new();
    for start in sheet.starts_of(event) {
        let end = start + sheet.length_from(event, start);
        let mut others = start + 1..end;
        match outside(&start) {
            true => {
                cases.extend(others.any(|time| !outside(&time)).then_some("runs in"));
                let next = end < instance.times && sheet.starts(event, end);
                cases.extend((next && !outside(&end)).then_some("then one inside"));
            }
            false => cases.extend(others.any(|time| outside(&time)).then_some("runs out")),
        }
    }
    cases
}

/// Kind 3, hard and soft, for each sort of duration and of group; each sort of time
/// in its list, and each way of a subevent across the group's borders.
#[test]
fn preferred_times_of_every_sort_are_drawn() {
    let mut lists: BTreeMap<(usize, &str, bool), usize> = BTreeMap::new();
    let mut seen: BTreeMap<&str, usize> = BTreeMap::new();
    for seed in 0..8_000 {
        let mut random = Random::new(seed);
        let instance = instance(&mut random, &shape(seed));
        let table = timetable(&mut random, &instance);
        for constraint in &instance.constraints {
            let Kind::PreferredTimes { event, group } = constraint.kind else {
                continue;
            };
            let duration = instance.events[event].duration.min(4);
            let outside = times_outside(&instance, group);
            let list = (duration, outside, constraint.weight == 0);
            *lists.entry(list).or_default() += 1;
            let mut cases = crossings(&instance, event, group, &table);
            for time in 0..instance.times {
                let reachable = instance.reachable(event, group, time);
                cases.push(match (instance.outside(group, time), reachable) {
                    (true, true) => "outside and reachable",
                    (true, false) => "outside alone",
                    (false, true) => "reachable alone",
                    (false, false) => "no member",
                });
            }
            for case in cases {
                *seen.entry(case).or_default() += 1;
            }
        }
    }
    println!("seeds 0..8_000: {lists:?}, {seen:?}");
    assert_eq!((lists.len(), seen.len()), (4 * 4 * 2, 7));
    let mut counts = lists.values().chain(seen.values());
    assert!(counts.all(|&count| count >= 20));
}

/// The refusals of one damaged field of kinds 9 and 10.
#[test]
fn damaged_lengths_are_refused() {
    let mut seen = BTreeMap::new();
    for seed in 0..5_000 {
        let mut random = Random::new(seed);
        let mut whole = instance(&mut random, &shape(seed));
        let of_lengths = |constraint: &Constraint| {
            matches!(
                constraint.kind,
                Kind::Distribute { .. } | Kind::Lengths { .. }
            )
        };
        whole.constraints.retain(of_lengths);
        let damaged = damaged_instance(&mut random, &whole);
        let changed = whole.constraints.iter().zip(&damaged.constraints);
        let Some((was, _)) = changed.clone().find(|(was, is)| was != is) else {
            continue;
        };
        let distribute = matches!(was.kind, Kind::Distribute { .. });
        if let Err(refusal) = read(&encode(&damaged)) {
            *seen.entry((distribute, refusal.number)).or_insert(0) += 1;
        }
    }
    println!("seeds 0..5_000: {seen:?}");
    for case in [(true, 2), (true, 5), (false, 2), (false, 5)] {
        assert!(seen.get(&case).is_some_and(|&count| count >= 20));
    }
}

/// How many of the gates F or G a gap has.
fn none_one_or_more(gates: usize) -> &'static str {
    match gates {
        0 => "none",
        1 => "one",
        _ => "more",
    }
}

/// What a timetable says of two events, and what their fields are.
fn cases_of_gaps(
    instance: &Instance,
    [first, second]: [usize; 2],
    gap: Range,
    table: &[u8],
) -> Vec<&'static str> {
    let sheet = Sheet::read(instance, table).expect("a timetable");
    let between = sheet.gap(first, second);
    let mut cases = vec![match between {
        ..=-2 => "negative, by more than 1",
        -1 => "negative, by 1",
        _ if between < i64::from(gap.lo) => "below lo",
        _ if between > i64::from(gap.hi) => "above hi",
        _ => "inside",
    }];
    cases.extend((gap.lo == gap.hi).then_some("lo is hi"));
    cases.extend((gap.hi == LARGEST_GAP).then_some("the largest hi"));
    cases.extend((gap.lo == LARGEST_GAP).then_some("the largest lo"));
    cases.extend((instance.times == 1).then_some("T = 1"));
    // The end of one subevent of the first event, or the start of one of the second,
    // would say something else.
    let several = |event| sheet.starts_of(event).count() > 1;
    cases.extend(several(first).then_some("several subevents first"));
    cases.extend(several(second).then_some("several subevents second"));
    let allowed = i64::from(gap.lo)..=i64::from(gap.hi);
    let ends = sheet.starts_of(first);
    let ends = ends.map(|start| (start + sheet.length_from(first, start)) as i64);
    let starts: Vec<i64> = sheet.starts_of(second).map(|start| start as i64).collect();
    let other = ends.flat_map(|end| starts.iter().map(move |start| start - end));
    let differs = |gap: i64| allowed.contains(&gap) != allowed.contains(&between);
    cases.extend(other.into_iter().any(differs).then_some("another subevent"));
    cases
}

/// Kind 11, hard and soft, in both orders of the events, with none, one and more of F
/// and of G; what can be asked of gaps, and each sort of gap.
#[test]
fn gaps_of_every_sort_are_drawn() {
    let mut lists: BTreeMap<(&str, &str, bool, bool), usize> = BTreeMap::new();
    let mut seen: BTreeMap<&str, usize> = BTreeMap::new();
    for seed in 0..6_000 {
        let mut random = Random::new(seed);
        let instance = instance(&mut random, &shape(seed));
        let table = timetable(&mut random, &instance);
        for constraint in &instance.constraints {
            let Kind::Precedence { first, second, gap } = constraint.kind else {
                continue;
            };
            let early = instance.times.saturating_sub(1 + gap.lo as usize);
            let late = instance.times.saturating_sub(2 + gap.hi as usize);
            let list = (
                none_one_or_more(early),
                none_one_or_more(late),
                first < second,
                constraint.weight == 0,
            );
            *lists.entry(list).or_default() += 1;
            for case in cases_of_gaps(&instance, [first, second], gap, &table) {
                *seen.entry(case).or_default() += 1;
            }
        }
    }
    println!("seeds 0..6_000: {lists:?}, {seen:?}");
    // Without F there is no G, and with one F neither.
    assert_eq!((lists.len(), seen.len()), (5 * 2 * 2, 12));
    let mut counts = lists.values().chain(seen.values());
    assert!(counts.all(|&count| count >= 20));
}

/// The refusals of damaged fields of kind 11: two events that are one are 19, with lo
/// above hi too, but 2 where a bound is above its limit.
#[test]
fn damaged_gaps_are_refused() {
    let mut seen: BTreeMap<(u32, &str), usize> = BTreeMap::new();
    for seed in 0..20_000 {
        let mut random = Random::new(seed);
        let mut whole = instance(&mut random, &shape(seed));
        let of_gaps = |constraint: &Constraint| matches!(constraint.kind, Kind::Precedence { .. });
        whole.constraints.retain(of_gaps);
        let damaged = damaged_instance(&mut random, &whole);
        let mut changed = whole.constraints.iter().zip(&damaged.constraints);
        let Some((_, now)) = changed.find(|(was, is)| was != is) else {
            continue;
        };
        let Kind::Precedence { first, second, gap } = now.kind else {
            continue;
        };
        let fields = match (first == second, gap.lo > gap.hi) {
            (true, true) => "one event, lo above hi",
            (true, false) => "one event",
            (false, true) => "lo above hi",
            (false, false) => "other",
        };
        if let Err(refusal) = read(&encode(&damaged)) {
            *seen.entry((refusal.number, fields)).or_default() += 1;
        }
    }
    println!("seeds 0..20_000: {seen:?}");
    for case in [
        (2, "one event, lo above hi"),
        (2, "other"),
        (3, "other"),
        (5, "lo above hi"),
        (19, "one event"),
        (19, "one event, lo above hi"),
    ] {
        assert!(
            seen.get(&case).is_some_and(|&count| count >= 20),
            "{case:?}"
        );
    }
    assert!(!seen.contains_key(&(5, "one event, lo above hi")));
}

#[test]
fn timetables_are_accepted_and_models_decode_to_their_score() {
    let mut kept = 0;
    for seed in 0..500 {
        let mut random = Random::new(seed);
        let instance = instance(&mut random, &shape(seed));
        let file = encode(&instance);
        for _ in 0..5 {
            let table = timetable(&mut random, &instance);
            let scored = score(&file, &table).unwrap();
            assert_eq!(same_sheet(&file, &table, &table), Ok(true));
            let model = model(&instance, &table);
            assert_eq!(
                model.len() as u64,
                sizes(&file, None).unwrap().variables,
                "seed {seed}"
            );
            let decoded = decode(&file, &model);
            if scored.infeasibility == Infeasibility(0) {
                kept += 1;
                assert_eq!(decoded, Ok((&table[..], scored.objective)), "seed {seed}");
            } else {
                assert_eq!(decoded.unwrap_err().number, 13, "seed {seed}");
            }
        }
    }
    println!("seeds 0..500: {kept} of 2,500 timetables keep the hard constraints");
    assert!(kept > 300);
}

#[test]
fn damaged_files_reach_refusals_1_to_6_19_and_22() {
    let mut seen = Seen::default();
    let long_lists = Shape {
        times: 100..=125,
        events: 2..=5,
        constraints: 5..=9,
        ..Shape::small()
    };
    for seed in 0..2_000 {
        let mut random = Random::new(seed);
        let shape = match seed % 10 {
            0 => long_lists.clone(),
            _ => shape(seed),
        };
        let instance = instance(&mut random, &shape);
        for _ in 0..10 {
            let file = match random.below(3) {
                0 => encode(&damaged_instance(&mut random, &instance)),
                1 => damaged_numbers(&mut random, &encode(&instance)),
                _ => {
                    let once = damaged_numbers(&mut random, &encode(&instance));
                    damaged_numbers(&mut random, &once)
                }
            };
            let answer = read(&file);
            seen.count(&answer);
            if let Err(refusal) = answer {
                assert!(refusal.value <= file.len() as u64);
                assert_eq!(score(&file, &[]), Err(refusal));
                assert_eq!(sizes(&file, Some(9_999)), Err(refusal));
                assert_eq!(decode(&file, &[]), Err(refusal));
                assert_eq!(solver_text(&file, b"x", 0, 0), Err(refusal));
                assert_eq!(check(&file, 9_999, &[], 0, 0, 0), Err(refusal));
                assert_eq!(text(&file, &mut []), Err(refusal));
                let printed = format!("{} {}\n", refusal.number, refusal.value);
                assert_eq!(text_program(&file), printed.as_bytes());
            }
        }
    }
    println!("seeds 0..2_000: {seen:?}");
    for number in (0..=6).chain([19, 22]) {
        assert!(seen.times(number) >= 20, "refusal {number}");
    }
}

#[test]
fn damaged_timetables_reach_refusals_10_to_12() {
    let mut seen = Seen::default();
    for seed in 0..500 {
        let mut random = Random::new(seed);
        let instance = instance(&mut random, &shape(seed));
        let file = encode(&instance);
        let table = timetable(&mut random, &instance);
        for _ in 0..10 {
            let damaged = damaged_table(&mut random, &table);
            let answer = score(&file, &damaged);
            seen.count(&answer);
            if let Err(refusal) = answer {
                assert_eq!(same_sheet(&file, &damaged, &[]), Err(refusal));
                assert_eq!(same_sheet(&file, &table, &damaged), Err(refusal));
            }
        }
    }
    println!("seeds 0..500: {seen:?}");
    assert_eq!(seen.numbers(), [0, 10, 11, 12]);
}

#[test]
fn damaged_models_reach_refusals_10_11_and_13() {
    let mut seen = Seen::default();
    for seed in (0..500).step_by(2) {
        let mut random = Random::new(seed);
        let instance = instance(&mut random, &shape(seed));
        let file = encode(&instance);
        let table = timetable(&mut random, &instance);
        let model = model(&instance, &table);
        for _ in 0..10 {
            let damaged = damaged_table(&mut random, &model);
            seen.count(&decode(&file, &damaged));
        }
    }
    println!("seeds 0..500: {seen:?}");
    assert_eq!(seen.numbers(), [0, 10, 11, 13]);
}

/// An instance of which many models are accepted, and a model.
fn instance_with_model(random: &mut Random, seed: u64) -> (Instance, Vec<u8>) {
    let soft = random.pick(&[60, 100]);
    let instance = instance(
        random,
        &Shape {
            soft,
            ..shape(seed)
        },
    );
    let model = model(&instance, &timetable(random, &instance));
    (instance, model)
}

/// How a text is printed: a name for each thing that can be seen in it.
fn forms(printed: &Printed) -> Vec<&'static str> {
    let of_values = |line: &&Line| matches!(line, Line::Values { .. });
    let values: Vec<&Line> = printed.lines.iter().filter(of_values).collect();
    let zero = |line: &&Line| line.words().iter().any(|word| word.bytes == b"0");
    let closing = values.iter().position(zero);
    let filled = values.iter().filter(|line| !line.words().is_empty());
    let late = closing.is_some_and(|line| line + 1 < values.len());
    let mut forms = vec![
        match closing {
            None => "without a 0",
            Some(line) if values[line].words().len() == 1 => "the 0 in a line of its own",
            Some(_) => "the 0 behind a literal",
        },
        match filled.count() {
            1 => "one line",
            _ => "several lines",
        },
        match printed.ended {
            true => "the last line ended",
            false => "the last line not ended",
        },
    ];
    forms.extend(late.then_some("a v alone after the 0"));
    forms.extend(forms_of_lines(printed));
    forms
}

/// What can be seen in its lines, one by one, and in its first literal.
fn forms_of_lines(printed: &Printed) -> Vec<&'static str> {
    let first = printed.words().next().expect("a literal");
    let mut forms = Vec::new();
    forms.extend((first != b"1" && first != b"-1").then_some("another order"));
    for line in &printed.lines {
        let Line::Values { words, after } = line else {
            forms.push("other lines");
            continue;
        };
        forms.extend(words.is_empty().then_some("a v alone"));
        forms.extend((*after > 0).then_some("spaces at a line's end"));
        let several = words.iter().any(|word| word.before > 1);
        forms.extend(several.then_some("several spaces"));
    }
    forms
}

/// A model reads back from each of its texts; every sort of text is drawn.
#[test]
fn texts_of_every_form_are_drawn() {
    let mut seen: BTreeMap<&str, usize> = BTreeMap::new();
    for seed in 0..400 {
        let mut random = Random::new(seed);
        let (instance, model) = instance_with_model(&mut random, seed);
        let file = encode(&instance);
        let decoded = decode(&file, &model).map(|(part, cost)| (model.clone(), part.len(), cost));
        for _ in 0..3 {
            let printed = printed(&mut random, &model);
            let text = printed.text();
            let answer = solver_text(&file, &text, model.len(), model.len());
            assert_eq!(answer, decoded, "seed {seed}");
            for form in forms(&printed) {
                *seen.entry(form).or_default() += 1;
            }
        }
        let width = 2 + random.below(90);
        let text = wrapped(&model, width);
        let longest = text.split(|&byte| byte == b'\n').map(<[u8]>::len).max();
        // A line of one literal may be longer.
        assert!(longest <= Some(width.max(10)), "seed {seed}");
        let answer = solver_text(&file, &text, model.len(), model.len());
        assert_eq!(answer, decoded, "seed {seed}");
    }
    println!("seeds 0..400: {seen:?}");
    assert_eq!(seen.len(), 13);
    assert!(seen.values().all(|&count| count >= 20));
}

/// Each damaged text earns the refusal that is said of it, in each of these ways.
#[test]
fn damaged_texts_reach_refusals_20_and_21() {
    let mut seen: BTreeMap<(u32, &str), usize> = BTreeMap::new();
    for seed in 0..300 {
        let mut random = Random::new(seed);
        let (instance, model) = instance_with_model(&mut random, seed);
        let file = encode(&instance);
        for damaged in damaged_texts(&mut random, &model) {
            let answer = solver_text(&file, &damaged.text, model.len(), model.len());
            let shown = damaged.text.escape_ascii();
            assert_eq!(
                answer,
                Err(damaged.refusal),
                "seed {seed}, {}: {shown}",
                damaged.name
            );
            *seen
                .entry((damaged.refusal.number, damaged.name))
                .or_default() += 1;
        }
    }
    println!("seeds 0..300: {seen:?}");
    let of = |number| seen.keys().filter(|(one, _)| *one == number).count();
    assert_eq!((of(20), of(21)), (20, 7));
    assert!(seen.values().all(|&count| count >= 20));
}

/// Lengths of a lent model and a store that fit or not, and models with a byte
/// changed, beside texts that are damaged or not.
#[test]
fn texts_of_solvers_reach_refusals_9_10_13_20_and_21() {
    let mut seen = Seen::default();
    for seed in 0..300 {
        let mut random = Random::new(seed);
        let (instance, model) = instance_with_model(&mut random, seed);
        let file = encode(&instance);
        let variables = model.len();
        let mut changed = model.clone();
        changed[random.below(variables)] ^= 1;
        let mut texts = Vec::new();
        for model in [model, changed] {
            texts.push(printed(&mut random, &model).text());
            texts.push(damaged_text(&mut random, &model).text);
        }
        for text in &texts {
            let fits = solver_text(&file, text, variables, variables);
            seen.count(&fits);
            assert_eq!(solver_text(&file, text, variables, variables + 7), fits);
            for _ in 0..2 {
                let [lent_model, store] =
                    [(); 2].map(|()| lent(&mut random, variables as u64) as usize);
                let answer = solver_text(&file, text, lent_model, store);
                seen.count(&answer);
                let number = answer.err().map_or(0, |refusal| refusal.number);
                assert_eq!(number == 9, store < variables);
                assert_eq!(number == 10, store >= variables && lent_model != variables);
            }
        }
    }
    println!("seeds 0..300: {seen:?}");
    for number in [0, 9, 10, 13, 20, 21] {
        assert!(seen.times(number) >= 20, "refusal {number}");
    }
}

#[test]
fn random_proofs_reach_refusals_14_to_18() {
    let mut seen = Seen::default();
    // In a small formula a random hint is often a unit.
    let shape = Shape {
        constraints: 0..=1,
        ..Shape::tiny()
    };
    for seed in 0..1_000 {
        let mut random = Random::new(seed);
        let instance = instance(&mut random, &shape);
        let file = encode(&instance);
        let bound = random.below(5) as u64;
        let sizes = sizes(&file, Some(bound)).unwrap();
        for _ in 0..20 {
            let mut proof = proof(&mut random, sizes.variables, sizes.clauses);
            if random.chance(50) {
                proof = damaged_numbers(&mut random, &proof);
            }
            let words = lent(&mut random, sizes.words);
            let rows = lent(&mut random, sizes.clauses);
            let bytes = lent(&mut random, sizes.variables);
            let answer = check(&file, bound, &proof, words, rows, bytes);
            let fits = words >= sizes.words && rows >= sizes.clauses && bytes >= sizes.variables;
            assert_eq!(answer.is_err_and(|refusal| refusal.number == 9), !fits);
            seen.count(&answer);
        }
    }
    println!("seeds 0..1_000: {seen:?}");
    for number in [9, 14, 15, 16, 17, 18] {
        assert!(seen.times(number) >= 5, "refusal {number}");
    }
}

#[test]
fn text_fits_its_size_exactly() {
    for seed in 0..200 {
        let mut random = Random::new(seed);
        let file = encode(&instance(&mut random, &shape(seed)));
        let length = text_size(&file).unwrap() as usize;
        let mut out = vec![0xa5; length + 2];
        assert_eq!(text(&file, &mut out), Ok(length));
        assert_eq!(out[length - 3..], *b" 0\n\xa5\xa5");
        let mut exact = vec![0xa5; length];
        assert_eq!(text(&file, &mut exact), Ok(length));
        assert_eq!(exact, out[..length]);
        let mut short = vec![0xa5; length - 1];
        let refusal = Refusal {
            number: 9,
            value: 0,
        };
        assert_eq!(text(&file, &mut short), Err(refusal));
        assert!(short.iter().all(|&byte| byte == 0xa5));
        let printed = text_program(&file);
        if length <= 65_536 {
            assert_eq!(printed, out[..length]);
        } else {
            assert_eq!(printed, b"9 0\n");
        }
    }
}
