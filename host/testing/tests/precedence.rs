//! Kind 11 on every tiny instance of two events: all numbers of times up to 5, all
//! durations, every lo and hi that matter, both orders of the events, hard and soft.
//! Gaps are told from the rows here, beside the reference and the engine, and unit
//! propagation goes over the clauses of the text.

mod support;

use std::collections::BTreeMap;
use support::both::{
    best, check, check_hard, decode, read, same_sheet, score, sizes, text, text_size,
};
use support::models::{
    events_with, models_match, models_match_among, subevents, timetables, Models, Values,
};
use support::{numbers, refused};
use testing::generate::{encode, model, timetable, Random};
use testing::reference::{
    Constraint, Infeasibility, Instance, Kind, Literal, Objective, Range, Refusal,
};

const MOST_TIMES: usize = 5;
/// The largest lo and hi.
const LARGEST_GAP: u32 = 124;
/// Up to so many times every assignment of Y and S is tried, and up to so many every
/// timetable; then those without two subevents side by side.
const ALL_ASSIGNMENTS: usize = 3;
const ALL_TIMETABLES: usize = 4;
/// The weight of soft constraints; 0 means hard.
const WEIGHTS: [u32; 2] = [0, 3];
const ORDERS: [[usize; 2]; 2] = [[0, 1], [1, 0]];

/// Every lo and hi that matter in so many times, the first that changes nothing more,
/// and the largest.
fn gaps(times: usize) -> Vec<Range> {
    let bounds: Vec<u32> = (0..times as u32).chain([LARGEST_GAP]).collect();
    let pairs = bounds.iter().flat_map(|&lo| {
        let above = bounds.iter().filter(move |&&hi| hi >= lo);
        above.map(move |&hi| Range { lo, hi })
    });
    pairs.collect()
}

/// Two events of these durations, one before the other.
fn before(
    times: usize,
    durations: [usize; 2],
    [first, second]: [usize; 2],
    gap: Range,
    weight: u32,
) -> Instance {
    let kind = Kind::Precedence { first, second, gap };
    let constraint = Constraint { weight, kind };
    events_with(times, &durations, Vec::new(), constraint)
}

/// Every instance over `times` times and one weight.
fn instances(times: usize, weight: u32) -> impl Iterator<Item = Instance> {
    let durations = (1..=times).flat_map(move |one| (1..=times).map(move |other| [one, other]));
    durations.flat_map(move |durations| {
        ORDERS.into_iter().flat_map(move |order| {
            let gaps = gaps(times).into_iter();
            gaps.map(move |gap| before(times, durations, order, gap, weight))
        })
    })
}

/// The fields of the only constraint.
fn fields(instance: &Instance) -> ([usize; 2], Range) {
    match instance.constraints[0].kind {
        Kind::Precedence { first, second, gap } => ([first, second], gap),
        _ => unreachable!("no other kind is tried"),
    }
}

/// How many times lie after all times of the first event and before all of the
/// second; none unless all of the second lie after all of the first.
fn times_between(times: usize, table: &[u8], [first, second]: [usize; 2]) -> Option<usize> {
    let taken = |event: usize| (0..times).filter(move |time| table[event * times + time] == 1);
    let after_first = |time: usize| taken(first).all(|taken| taken < time);
    let before_second = |time: usize| taken(second).all(|taken| time < taken);
    let between = (0..times).filter(|&time| after_first(time) && before_second(time));
    taken(second).all(after_first).then(|| between.count())
}

fn deviation(instance: &Instance, table: &[u8]) -> u64 {
    let (events, gap) = fields(instance);
    let allowed = gap.lo as usize..=gap.hi as usize;
    let kept = times_between(instance.times, table, events).is_some_and(|n| allowed.contains(&n));
    u64::from(!kept)
}

/// Whether each subevent ends where the next time is not taken.
fn apart(instance: &Instance, table: &[u8]) -> bool {
    let (taken, starts) = table.split_at(table.len() / 2);
    let begins = |at: usize| at.is_multiple_of(instance.times) || taken[at - 1] == 0;
    (0..starts.len()).all(|at| starts[at] == 0 || begins(at))
}

#[test]
fn models_and_timetables_match_one_to_one() {
    let (mut tried, mut tables) = (0, 0);
    for times in 1..=MOST_TIMES {
        for weight in WEIGHTS {
            for instance in instances(times, weight) {
                let deviation = |table: &[u8]| deviation(&instance, table);
                tried += 1;
                if times <= ALL_ASSIGNMENTS {
                    tables += models_match(&instance, deviation);
                    continue;
                }
                let mut few = timetables(&instance);
                if times > ALL_TIMETABLES {
                    few.retain(|table| apart(&instance, table));
                }
                tables += models_match_among(&instance, few, deviation);
            }
        }
    }
    println!("{tried} instances, {tables} timetables");
    assert_eq!(tried, 4 * (3 + 4 * 6 + 9 * 10 + 16 * 15 + 25 * 21));
    // Of one event there are 33 rows in four times, and 31 rows apart in five.
    let all = [1, 4, 12, 33, 31].map(|rows: usize| rows * rows);
    let pairs = [3, 6, 10, 15, 21];
    let expected: usize = all
        .iter()
        .zip(pairs)
        .map(|(all, pairs)| 4 * all * pairs)
        .sum();
    assert_eq!(tables, expected);
}

/// What the constraint adds to the formula beside a counter of one cell and its unit:
/// variables, clauses and words.
fn added(times: usize, gap: Range) -> [u64; 3] {
    let with = before(times, [1, 1], [0, 1], gap, 0);
    let without = Instance {
        constraints: Vec::new(),
        ..with.clone()
    };
    let [with, without] = [with, without].map(|instance| {
        let sizes = sizes(&encode(&instance), Some(0)).expect("a small formula");
        [sizes.variables, sizes.clauses, sizes.words]
    });
    let counter = [1, 2 + 1, 4 + 1];
    [0, 1, 2].map(|at| with[at] - without[at] - counter[at])
}

/// Inputs of the gates F, P, G, Q and O.
fn gates(times: usize, gap: Range) -> Vec<usize> {
    let [lo, hi] = [gap.lo, gap.hi].map(|bound| bound as usize);
    let early = (1..=times).filter(|time| time + lo < times).count();
    let late = (1..=times).filter(|time| time + hi + 1 < times).count();
    let mut gates = Vec::new();
    gates.extend((1..=early).map(|time| if time == 1 { lo + 1 } else { 2 }));
    gates.extend((2..=early).map(|_| 2));
    gates.extend((1..=late).map(|time| if time == late { times - late } else { 2 }));
    gates.extend((1..=late).map(|_| 2));
    let times_too_late = times - early;
    gates.push(times_too_late + early.min(1) + early.saturating_sub(1) + late);
    let expected = match early {
        0 => 1,
        _ => 2 * early + 2 * late,
    };
    assert_eq!(gates.len(), expected, "{times} times, {gap:?}");
    gates
}

/// A gate of k inputs has k + 1 clauses and 3 × k + 1 words.
#[test]
fn there_are_fewer_than_four_gates_for_each_time() {
    for times in [1, 2, 3, 4, 5, 6, 7, 40, 124, 125] {
        for lo in 0..=LARGEST_GAP {
            for hi in lo..=LARGEST_GAP {
                let gap = Range { lo, hi };
                let gates = gates(times, gap);
                assert!(gates.len() < 4 * times);
                let clauses: usize = gates.iter().map(|inputs| inputs + 1).sum();
                let words: usize = gates.iter().map(|inputs| 3 * inputs + 1).sum();
                let expected = [gates.len(), clauses, words].map(|size| size as u64);
                assert_eq!(added(times, gap), expected, "{times} times, {gap:?}");
            }
        }
    }
}

#[test]
fn forty_times_have_the_sizes_that_were_measured() {
    for (lo, hi, sizes) in [
        (0, 124, [78, 271, 657]),
        (0, 4, [146, 513, 1_247]),
        (2, 2, [146, 515, 1_253]),
    ] {
        assert_eq!(added(40, Range { lo, hi }), sizes);
    }
}

/// Two events of duration 1, before the fields of a kind 11.
fn start(times: u32, weight: u32) -> [u32; 11] {
    [times, 2, 0, 1, 0, 1, 0, 0, 1, 11, weight]
}

fn answer(numbers_of_file: &[u32]) -> Option<(u32, u64)> {
    let answer = read(&numbers(numbers_of_file));
    answer.err().map(|refusal| (refusal.number, refusal.value))
}

/// What a kind 11 with these fields earns where there are two events: 3 and 2 at the
/// number, in the order of the file; then 19 and then 5, with the kind.
fn expected([first, second, lo, hi]: [u32; 4]) -> Option<(u32, u64)> {
    let event = 1..=2;
    if !event.contains(&first) {
        Some((3, 11))
    } else if !event.contains(&second) {
        Some((3, 12))
    } else if lo > LARGEST_GAP {
        Some((2, 13))
    } else if hi > LARGEST_GAP {
        Some((2, 14))
    } else if first == second {
        Some((19, 9))
    } else {
        (lo > hi).then_some((5, 9))
    }
}

/// Events and bounds from 0 to beyond their limits.
#[test]
fn fields_are_refused_by_their_limits() {
    let events = (0..=3).flat_map(|first| (0..=3).map(move |second| [first, second]));
    let bounds = [0, 1, 2, 3, 5, 123, 124, 125, 126, 127, 128, 255, 256];
    let mut seen = BTreeMap::new();
    for [first, second] in events {
        for lo in bounds {
            for hi in bounds {
                let fields = [first, second, lo, hi];
                let wanted = expected(fields);
                for times in 1..=MOST_TIMES as u32 {
                    let file = [&start(times, 0)[..], &fields].concat();
                    assert_eq!(answer(&file), wanted, "{times} times, {fields:?}");
                }
                *seen.entry(wanted).or_insert(0) += 1;
            }
        }
    }
    println!("{seen:?}");
    let wanted = [(2, 13), (2, 14), (3, 11), (3, 12), (5, 9), (19, 9)];
    assert!(seen.keys().flatten().eq(&wanted));
    assert!(seen.values().all(|&count| count >= 20));
}

/// A file that ends inside is 1 at its end; bytes after it are looked at last, and so is
/// the next constraint. The weight stands before all of these.
#[test]
fn the_end_of_a_constraint_is_in_its_place() {
    for (fields, end) in [
        ([1, 2, 0, 0], None),
        ([2, 1, 0, 124], None),
        ([1, 1, 0, 0], Some((19, 9))),
        ([2, 2, 1, 0], Some((19, 9))),
        ([1, 2, 1, 0], Some((5, 9))),
    ] {
        let file = [&start(4, 1)[..], &fields].concat();
        assert_eq!(answer(&file), end);
        let bytes = numbers(&file);
        for length in 0..bytes.len() {
            assert_eq!(read(&bytes[..length]), refused(1, length as u64));
        }
        let longer = |more: &[u32]| [&file[..], more].concat();
        let left = end.or(Some((6, bytes.len() as u64)));
        assert_eq!(answer(&longer(&[0])), left);
        let mut two = longer(&[12]);
        two[8] = 2;
        let after = end.or(Some((2, bytes.len() as u64)));
        assert_eq!(answer(&two), after);
        let with_weight = |weight| answer(&[&start(4, weight)[..], &fields].concat());
        assert_eq!(with_weight(1_000), end);
        assert_eq!(with_weight(1_001), Some((2, 10)));
    }
    // The only event is both of them; a second one is not there.
    let alone = |second| answer(&[4, 1, 0, 1, 0, 0, 1, 11, 0, 1, second, 1, 0]);
    assert_eq!(alone(1), Some((19, 7)));
    assert_eq!(alone(2), Some((3, 10)));
}

/// Every refusal of the file comes before those of a bound, a timetable, a model, an
/// output and stores.
#[test]
fn every_operation_refuses_two_events_that_are_one() {
    let file = numbers(&[&start(4, 1)[..], &[2, 2, 1, 0]].concat());
    let refusal = Refusal {
        number: 19,
        value: 9,
    };
    assert_eq!(sizes(&file, Some(9_999)), Err(refusal));
    assert_eq!(score(&file, &[7]), Err(refusal));
    assert_eq!(same_sheet(&file, &[7], &[7]), Err(refusal));
    assert_eq!(text_size(&file), Err(refusal));
    assert_eq!(text(&file, &mut []), Err(refusal));
    assert_eq!(decode(&file, &[7]), Err(refusal));
    assert_eq!(check(&file, 9_999, &[7], 0, 0, 0), Err(refusal));
    assert_eq!(check_hard(&file, &[7], [0; 3]), Err(refusal));
    assert_eq!(best(&file, &[7], &[7], [0; 3]), Err(refusal));
}

/// The subevents of two events, and the bounds of their gap. A subevent is its first
/// and its last time.
struct Asked {
    times: i64,
    first: Vec<[i64; 2]>,
    second: Vec<[i64; 2]>,
    /// Whether the first event stands before the second in the file.
    ascending: bool,
    lo: i64,
    hi: i64,
}

impl Asked {
    fn of(instance: &Instance, table: &[u8]) -> Asked {
        let ([first, second], gap) = fields(instance);
        let (taken, starts) = table.split_at(table.len() / 2);
        let of = |event: usize| {
            let row = event * instance.times..(event + 1) * instance.times;
            let rows = [&taken[row.clone()], &starts[row]].concat();
            let ends = |(start, length)| [start, start + length - 1].map(|time| time as i64);
            subevents(&rows).into_iter().map(ends).collect::<Vec<_>>()
        };
        Asked {
            times: instance.times as i64,
            first: of(first),
            second: of(second),
            ascending: first < second,
            lo: i64::from(gap.lo),
            hi: i64::from(gap.hi),
        }
    }

    fn outside(&self, gap: i64) -> u64 {
        u64::from(gap < self.lo || gap > self.hi)
    }

    /// From the last time of the first event to the first time of the second.
    fn gap(&self) -> i64 {
        self.second[0][0] - self.first[self.first.len() - 1][1] - 1
    }
}

/// A charge of two events.
type Charge = fn(&Asked) -> u64;

/// What a reader in a hurry would charge.
const HASTY: [(&str, Charge); 10] = [
    ("the first subevent of the first event", |asked| {
        asked.outside(asked.second[0][0] - asked.first[0][1] - 1)
    }),
    ("the last subevent of the second event", |asked| {
        let last = asked.second[asked.second.len() - 1];
        asked.outside(last[0] - asked.first[asked.first.len() - 1][1] - 1)
    }),
    ("some subevent of each", |asked| {
        let after = |one: &[i64; 2]| {
            let mut gaps = asked.second.iter().map(|other| other[0] - one[1] - 1);
            gaps.any(|gap| asked.outside(gap) == 0)
        };
        u64::from(!asked.first.iter().any(after))
    }),
    ("hi lowered to the list's length", |asked| {
        let gap = asked.gap();
        u64::from(gap < asked.lo || gap > asked.hi.min(1))
    }),
    ("by the distance", |asked| {
        let gap = asked.gap();
        ((asked.lo - gap).max(gap - asked.hi)).max(0) as u64
    }),
    ("a negative gap is none", |asked| {
        asked.outside(asked.gap().max(0))
    }),
    ("a negative gap by its size", |asked| {
        asked.outside(asked.gap().abs())
    }),
    ("not less 1", |asked| asked.outside(asked.gap() + 1)),
    ("from start to start", |asked| {
        let start = asked.first[asked.first.len() - 1][0];
        asked.outside(asked.second[0][0] - start - 1)
    }),
    ("the lower event first", |asked| {
        let last = asked.second[asked.second.len() - 1][1];
        match asked.ascending {
            true => asked.outside(asked.gap()),
            false => asked.outside(asked.first[0][0] - last - 1),
        }
    }),
];

/// Each hasty charge is told from the right one by timetables of up to four times.
#[test]
fn no_hasty_charge_is_the_score() {
    let mut wrong = [0; HASTY.len()];
    for times in 1..=ALL_TIMETABLES {
        for instance in instances(times, 1) {
            let file = encode(&instance);
            for table in timetables(&instance) {
                let asked = Asked::of(&instance, &table);
                assert!(asked.gap() <= asked.times - 2);
                let right = score(&file, &table).expect("a timetable").objective.0;
                assert_eq!(right, asked.outside(asked.gap()), "{instance:?}, {table:?}");
                for (wrong, (_, charge)) in wrong.iter_mut().zip(HASTY) {
                    *wrong += u64::from(charge(&asked) != right);
                }
            }
        }
    }
    for ((name, _), count) in HASTY.iter().zip(wrong) {
        println!("{name}: {count}");
        assert!(count >= 10, "{name}");
    }
}

/// What a reader in a hurry would refuse, or not refuse, of four times.
#[test]
fn no_hasty_refusal_is_given() {
    let read_with = |fields: [u32; 4]| answer(&[&start(4, 1)[..], &fields].concat());
    // 19 as soon as the second event is read.
    assert_eq!(read_with([1, 1, 125, 0]), Some((2, 13)));
    assert_eq!(read_with([1, 1, 0, 125]), Some((2, 14)));
    let cut = numbers(&[&start(4, 1)[..], &[1, 1]].concat());
    assert_eq!(read(&cut), refused(1, 13));
    // 5 before 19.
    assert_eq!(read_with([2, 2, 1, 0]), Some((19, 9)));
    // 5 for lo above the list's length, 2 for a bound above the number of times.
    assert_eq!(read_with([1, 2, 2, 2]), None);
    assert_eq!(read_with([1, 2, 5, 124]), None);
    // 3 for events that do not ascend.
    assert_eq!(read_with([2, 1, 0, 0]), None);
    // 255 as the limit of lo and hi; lo above a lowered hi.
    assert_eq!(read_with([1, 2, 0, 255]), Some((2, 14)));
    assert_eq!(read_with([1, 2, 3, 2]), Some((5, 9)));
}

/// The hard clauses of a file's text, which has no other lines.
fn clauses_of_text(file: &[u8]) -> (Vec<Vec<Literal>>, usize) {
    let length = text_size(file).expect("a small formula");
    let mut out = vec![0; length as usize];
    text(file, &mut out).expect("room for the text");
    let text = String::from_utf8(out).expect("digits and spaces");
    let mut lines = text.lines().map(|line| {
        let words = line.split(' ').filter_map(|word| word.parse().ok());
        words.collect::<Vec<i64>>()
    });
    let head = lines.next().expect("a header");
    let [variables, clauses, top] = head[..] else {
        panic!("three numbers");
    };
    let clause = |line: Vec<i64>| -> Vec<Literal> {
        assert_eq!((line[0], line[line.len() - 1]), (top, 0), "a hard line");
        let literals = line[1..line.len() - 1].iter().map(|&literal| {
            let positive = Literal::positive(literal.unsigned_abs() as u32);
            match literal > 0 {
                true => positive,
                false => !positive,
            }
        });
        literals.collect()
    };
    let all: Vec<Vec<Literal>> = lines.map(clause).collect();
    assert_eq!(all.len() as i64, clauses);
    (all, variables as usize)
}

/// Two events with a formula: what follows for them by unit propagation. Times count
/// from 1.
struct Propagation {
    times: usize,
    models: Models,
}

impl Propagation {
    fn over(instance: &Instance) -> Propagation {
        let (clauses, variables) = clauses_of_text(&encode(instance));
        Propagation {
            times: instance.times,
            models: Models::over(clauses, variables),
        }
    }

    fn takes(&self, event: usize, time: usize) -> Literal {
        Literal::positive((event * self.times + time) as u32)
    }

    /// The values that follow from these literals; none if they cannot all hold.
    fn from(&self, literals: &[Literal]) -> Option<Values> {
        self.models.propagated(literals.iter().copied())
    }

    /// Whether it follows that the event takes no time, or every time, of `times`.
    fn follows(
        &self,
        values: &Option<Values>,
        event: usize,
        mut times: impl Iterator<Item = usize>,
        taken: bool,
    ) -> bool {
        values.as_ref().is_none_or(|values| {
            times.all(|time| {
                let variable = self.takes(event, time).variable();
                values[variable as usize - 1] == Some(taken)
            })
        })
    }
}

/// Hard, it propagates as a planner would.
#[test]
fn a_time_that_is_taken_clears_those_of_the_other_event() {
    let (mut open, mut cleared, mut without) = (0, 0, 0);
    for times in 1..=MOST_TIMES {
        for instance in instances(times, 0) {
            let ([first, second], gap) = fields(&instance);
            let lo = gap.lo as usize;
            let hard = Propagation::over(&instance);
            let free = Propagation::over(&Instance {
                constraints: Vec::new(),
                ..instance.clone()
            });
            // From the start: the last lo + 1 times for the first event, the first
            // lo + 1 for the second.
            let none = hard.from(&[]);
            open += usize::from(none.is_some());
            let last = (1..=times).filter(|time| time + lo >= times);
            assert!(hard.follows(&none, first, last, false), "{instance:?}");
            let begin = 1..=times.min(lo + 1);
            assert!(hard.follows(&none, second, begin, false), "{instance:?}");
            for time in 1..=times {
                // What the first event takes clears the second up to there plus lo.
                let clears = (1..=times).filter(|other| *other <= time + lo);
                let takes = [hard.takes(first, time)];
                let given = hard.from(&takes);
                assert!(
                    hard.follows(&given, second, clears.clone(), false),
                    "{instance:?}"
                );
                let unknown = free.from(&takes);
                without += usize::from(!free.follows(&unknown, second, clears, false));
                cleared += usize::from(given.is_some());
                // And the other way round.
                let clears = (1..=times).filter(|other| time <= other + lo);
                let given = hard.from(&[hard.takes(second, time)]);
                assert!(hard.follows(&given, first, clears, false), "{instance:?}");
            }
        }
    }
    println!("{open} instances are open at the start; {cleared} times can be taken");
    println!("{without} times would not clear others without the constraint");
    assert!(open > 100 && cleared > 500 && without > 5_000);
}

/// A first event that has ended makes the second begin after hi times at the latest.
#[test]
fn an_event_that_has_ended_makes_the_other_begin() {
    let mut begun = 0;
    for times in 1..=MOST_TIMES {
        for instance in instances(times, 0) {
            let ([first, second], gap) = fields(&instance);
            let hard = Propagation::over(&instance);
            for end in (1..times).filter(|end| end + (gap.hi as usize) < times) {
                let latest = end + gap.hi as usize + 1;
                let over = (end + 1..=times).map(|time| !hard.takes(first, time));
                let open = (1..latest).map(|time| !hard.takes(second, time));
                let literals: Vec<Literal> = over.chain(open).collect();
                let given = hard.from(&literals);
                begun += usize::from(given.is_some());
                let latest = [latest].into_iter();
                assert!(hard.follows(&given, second, latest, true), "{instance:?}");
            }
        }
    }
    println!("{begun} times the second event begins");
    assert!(begun > 100);
}

/// As many times as there can be, with bounds at their limits: models decode to the
/// score, and the formula is the same for a proof.
#[test]
fn the_largest_number_of_times() {
    let mut random = Random::new(1);
    for (lo, hi) in [
        (0, 0),
        (0, 124),
        (0, 122),
        (0, 123),
        (1, 60),
        (122, 122),
        (123, 123),
        (124, 124),
    ] {
        for order in ORDERS {
            let instance = before(125, [1 + random.below(40), 2], order, Range { lo, hi }, 3);
            let file = encode(&instance);
            let variables = sizes(&file, Some(2)).expect("a formula").variables;
            for _ in 0..20 {
                let table = timetable(&mut random, &instance);
                let cost = 3 * deviation(&instance, &table);
                let scored = score(&file, &table).expect("a timetable");
                assert_eq!(scored.infeasibility, Infeasibility(0));
                assert_eq!(scored.objective, Objective(cost));
                let model = model(&instance, &table);
                assert_eq!(decode(&file, &model), Ok((&table[..], Objective(cost))));
            }
            let ample = 1_000_000;
            assert_eq!(
                check(&file, 2, &[], ample, ample, variables),
                refused(18, 0)
            );
            let length = text_size(&file).expect("a formula") as usize;
            assert_eq!(text(&file, &mut vec![0; length]), Ok(length));
        }
    }
}
