//! What the import makes of a constraint in XHSTT, against its definition: a small archive
//! under one constraint after another, each of its timetables priced by the engine and by
//! the format's formulas.
#![cfg(feature = "engine")]

use timetable::engine;
use timetable::import::{xhstt, xml, Fate, Fault, Imported};
use timetable::instance::{self, Kind};

const WEEK: &str = include_str!("import/week.xml");
const TIMES: usize = 6;
const DAYS: [std::ops::Range<usize>; 2] = [0..3, 3..6];
/// How long the second event of the week lasts; the others last one time.
const LONG: usize = 2;
/// The events of each, from 0.
const ADA: &[usize] = &[0, 2];
const CLASS_A: &[usize] = &[0, 1];

/// The parts of each event: where each starts and how long it lasts.
type Table = [Vec<(usize, usize)>; 3];
type Deviation = fn(&Table) -> usize;

fn archive(constraints: &str) -> String {
    WEEK.replace("<!-- constraints -->", constraints)
}

/// The archive with a second event that lasts so long.
fn lasting(long: usize, text: &str) -> String {
    let [was, is] = [LONG, long].map(|long| format!("<Duration>{long}</Duration>\n"));
    assert_eq!(text.matches(&was).count(), 1);
    text.replace(&was, &is)
}

fn import(text: &str) -> Result<Imported, Fault> {
    xhstt::import(&xml::read(text.as_bytes())?, None)
}

/// A constraint that applies to what `applies` names.
fn constraint(name: &str, required: bool, cost: &str, applies: &str, fields: &str) -> String {
    format!(
        "<{name} Id=\"x\"><Name>x</Name><Required>{required}</Required><Weight>7</Weight>\
         <CostFunction>{cost}</CostFunction><AppliesTo>{applies}</AppliesTo>{fields}</{name}>"
    )
}

const EVENTS: &str = "<EventGroups><EventGroup Reference=\"AllEvents\"/></EventGroups>";
const SINGLES: &str = "<EventGroups><EventGroup Reference=\"Singles\"/></EventGroups>";
const TEACHER: &str = "<Resources><Resource Reference=\"T1\"/></Resources>";
const CLASSES: &str = "<ResourceGroups><ResourceGroup Reference=\"Classes\"/></ResourceGroups>";
const DAY_GROUPS: &str =
    "<TimeGroups><TimeGroup Reference=\"Mo\"/><TimeGroup Reference=\"Tu\"/></TimeGroups>";

fn range(least: usize, most: usize) -> String {
    format!("<Minimum>{least}</Minimum><Maximum>{most}</Maximum>")
}

/// Every way to place an event from a time on: its first part, then the rest.
fn ways(duration: usize, from: usize) -> Vec<Vec<(usize, usize)>> {
    if duration == 0 {
        return vec![Vec::new()];
    }
    let mut all = Vec::new();
    for start in from..TIMES {
        for length in 1..=duration.min(TIMES - start) {
            for rest in ways(duration - length, start + length) {
                all.push([vec![(start, length)], rest].concat());
            }
        }
    }
    all
}

/// Every timetable of the week with a second event that lasts so long.
fn tables(long: usize) -> Vec<Table> {
    let [one, two, three] = [1, long, 1].map(|duration| ways(duration, 0));
    let mut all = Vec::new();
    for a in &one {
        for b in &two {
            all.extend(three.iter().map(|c| [a.clone(), b.clone(), c.clone()]));
        }
    }
    all
}

fn timetable(table: &Table) -> Vec<u8> {
    let mut taken = vec![0; table.len() * TIMES];
    let mut begun = taken.clone();
    for (event, parts) in table.iter().enumerate() {
        for &(start, duration) in parts {
            begun[event * TIMES + start] = 1;
            taken[event * TIMES + start..][..duration].fill(1);
        }
    }
    [taken, begun].concat()
}

/// How many of the events take place at a time.
fn on_at(table: &Table, events: &[usize], time: usize) -> usize {
    let on = |&&event: &&usize| {
        let mut parts = table[event].iter();
        parts.any(|&(start, duration)| (start..start + duration).contains(&time))
    };
    events.iter().filter(on).count()
}

fn busy(table: &Table, events: &[usize], times: std::ops::Range<usize>) -> Vec<usize> {
    times
        .filter(|&time| on_at(table, events, time) > 0)
        .collect()
}

fn outside(count: usize, least: usize, most: usize) -> usize {
    least.saturating_sub(count) + count.saturating_sub(most)
}

fn starts(table: &Table, events: &[usize], times: std::ops::Range<usize>) -> usize {
    let parts = events.iter().flat_map(|&event| &table[event]);
    parts.filter(|(start, _)| times.contains(start)).count()
}

/// Judges a constraint on the week as required and as a linear wish.
fn judge(name: &str, applies: &str, fields: &str, deviation: Deviation) {
    judge_with(LONG, name, applies, fields, deviation);
}

/// The same, where the second event lasts so long: its deviation, priced.
fn judge_with(long: usize, name: &str, applies: &str, fields: &str, deviation: Deviation) {
    for required in [true, false] {
        let text = archive(&constraint(name, required, "Linear", applies, fields));
        let text = lasting(long, &text);
        let imported = import(&text).unwrap_or_else(|fault| panic!("{fault}\n{text}"));
        assert!(imported.remarks.is_empty(), "{:?}", imported.remarks);
        let bytes = instance::write(&imported.school.instance);
        let mut seen = [false; 2];
        for table in tables(long) {
            let score = engine::score(&bytes, &timetable(&table)).expect("a timetable");
            let expected = deviation(&table);
            let said = match required {
                true => (score.infeasibility.0 > 0) == (expected > 0) && score.objective.0 == 0,
                // The only weight is reduced to 1.
                false => score.objective.0 == expected as u64 && score.infeasibility.0 == 0,
            };
            assert!(said, "{table:?} {expected} {score:?}\n{text}");
            seen[usize::from(expected > 0)] = true;
        }
        assert_eq!(seen, [true, true], "always kept, or never\n{text}");
    }
}

#[test]
fn an_archive_without_further_constraints_is_carried_whole() {
    let imported = import(WEEK).unwrap();
    let school = imported.school;
    let counts = school.instance.counts();
    assert_eq!((counts.times, counts.events, counts.resources), (6, 3, 3));
    assert_eq!(school.names.days[1].name.as_deref(), Some("Tuesday"));
    assert_eq!((imported.carried, imported.remarks.len()), (1, 0));
}

#[test]
fn constraints_on_events() {
    let amounts = |least: usize, most: usize| {
        format!(
            "<MinimumDuration>1</MinimumDuration><MaximumDuration>2</MaximumDuration>\
             <MinimumAmount>{least}</MinimumAmount><MaximumAmount>{most}</MaximumAmount>"
        )
    };
    judge("SplitEventsConstraint", EVENTS, &amounts(1, 1), |table| {
        table.iter().map(|parts| outside(parts.len(), 1, 1)).sum()
    });
    let long = "<Events><Event Reference=\"E2\"/></Events>";
    judge("SplitEventsConstraint", long, &amounts(2, 2), |table| {
        outside(table[1].len(), 2, 2)
    });
    let each = |id: &str, least, most| {
        format!(
            "<TimeGroup Reference=\"{id}\">{}</TimeGroup>",
            range(least, most)
        )
    };
    let groups = format!(
        "<TimeGroups>{}{}</TimeGroups>",
        each("Mo", 0, 1),
        each("Tu", 2, 3)
    );
    judge("SpreadEventsConstraint", EVENTS, &groups, |table| {
        outside(starts(table, &[0, 1, 2], 0..3), 0, 1)
            + outside(starts(table, &[0, 1, 2], 3..6), 2, 3)
    });
}

/// The lengths of the events' parts that start at none of the times, summed.
fn late(table: &Table, times: &[usize]) -> usize {
    let parts = table.iter().flatten();
    let late = parts.filter(|(start, _)| !times.contains(start));
    late.map(|(_, length)| length).sum()
}

/// A part costs its length where it starts outside, whichever of its times lie inside.
#[test]
fn preferred_times() {
    let name = "PreferTimesConstraint";
    let early = "<TimeGroups><TimeGroup Reference=\"Early\"/></TimeGroups>\
                 <Times><Time Reference=\"Mo3\"/></Times>";
    judge(name, EVENTS, early, |table| late(table, &[0, 2, 3]));
    judge_with(3, name, EVENTS, early, |table| late(table, &[0, 2, 3]));
    judge_with(4, name, EVENTS, early, |table| late(table, &[0, 2, 3]));
    let wish = archive(&constraint(name, false, "Linear", EVENTS, early));
    let bytes = instance::write(&import(&wish).unwrap().school.instance);
    let cost = |double: &[(usize, usize)]| {
        let table = timetable(&[vec![(0, 1)], double.to_vec(), vec![(0, 1)]]);
        engine::score(&bytes, &table)
            .expect("a timetable")
            .objective
            .0
    };
    assert_eq!(cost(&[(0, 2)]), 0, "it starts inside and runs out");
    assert_eq!(cost(&[(1, 2)]), 2, "it starts outside and runs in");
    assert_eq!(cost(&[(0, 1), (1, 1)]), 1, "two parts, one of them outside");
    assert_eq!(cost(&[(1, 1), (2, 1)]), 1, "two parts, one of them inside");
}

/// Of parts of one length: all of events of length 1, nothing of events that have none.
#[test]
fn preferred_times_of_one_length() {
    let name = "PreferTimesConstraint";
    let early = "<TimeGroups><TimeGroup Reference=\"Early\"/></TimeGroups>";
    let of = |length: usize| format!("{early}<Duration>{length}</Duration>");
    judge(name, SINGLES, &of(1), |table| {
        let late = |event: &&usize| ![0, 3].contains(&table[**event][0].0);
        ADA.iter().filter(late).count()
    });
    let fates = |applies: &str, length: usize| {
        let text = archive(&constraint(name, true, "Linear", applies, &of(length)));
        let imported = import(&text).unwrap();
        let constraints = imported.school.instance.constraints.len();
        let (weaker, dropped) = (Fate::Weakened, Fate::Dropped);
        (imported.count(weaker), imported.count(dropped), constraints)
    };
    for length in [0, 2, 6] {
        assert_eq!(fates(SINGLES, length), (0, 0, 0), "no part has it");
    }
    assert_eq!(fates(EVENTS, 1), (1, 0, 2), "the long event's are not told");
    assert_eq!(
        fates(LONG_EVENT, 2),
        (0, 1, 0),
        "it may have two of length 1"
    );
    assert_eq!(fates(LONG_EVENT, 3), (0, 0, 0));
}

/// The second event's parts whose length is wanted.
fn parts(table: &Table, wanted: fn(usize) -> bool) -> usize {
    let lengths = table[1].iter().map(|&(_, length)| length);
    lengths.filter(|&length| wanted(length)).count()
}

const LONG_EVENT: &str = "<Events><Event Reference=\"E2\"/></Events>";

#[test]
fn numbers_of_parts_of_one_length() {
    let name = "DistributeSplitEventsConstraint";
    let of =
        |length: usize, least, most| format!("<Duration>{length}</Duration>{}", range(least, most));
    judge(name, EVENTS, &of(2, 0, 0), |table| {
        parts(table, |length| length == 2)
    });
    judge_with(4, name, LONG_EVENT, &of(2, 1, 1), |table| {
        outside(parts(table, |length| length == 2), 1, 1)
    });
    judge_with(4, name, LONG_EVENT, &of(1, 2, 3), |table| {
        outside(parts(table, |length| length == 1), 2, 3)
    });
    judge_with(3, name, LONG_EVENT, &of(3, 1, 9), |table| {
        outside(parts(table, |length| length == 3), 1, 9)
    });
}

/// Two doubles and a single: by the numbers of parts, then by their lengths.
#[test]
fn lengths_of_parts() {
    let name = "SplitEventsConstraint";
    let fields = |shortest: usize, longest: usize, least: usize, most: usize| {
        format!(
            "<MinimumDuration>{shortest}</MinimumDuration>\
             <MaximumDuration>{longest}</MaximumDuration>\
             <MinimumAmount>{least}</MinimumAmount><MaximumAmount>{most}</MaximumAmount>"
        )
    };
    judge_with(3, name, EVENTS, &fields(1, 2, 1, 3), |table| {
        parts(table, |length| length > 2)
    });
    judge_with(3, name, LONG_EVENT, &fields(2, 3, 0, 9), |table| {
        parts(table, |length| length < 2)
    });
    judge_with(4, name, LONG_EVENT, &fields(2, 3, 2, 2), |table| {
        parts(table, |length| length != 2 && length != 3) + outside(table[1].len(), 2, 2)
    });
    // How far a part lies outside is not charged.
    let fate = |required, fields: &str| {
        let text = archive(&constraint(name, required, "Linear", LONG_EVENT, fields));
        let imported = import(&lasting(5, &text)).unwrap();
        imported.count(Fate::Weakened)
    };
    assert_eq!(fate(true, &fields(1, 2, 1, 5)), 0);
    assert_eq!(fate(false, &fields(1, 2, 1, 5)), 1);
    assert_eq!(fate(false, &fields(1, 4, 1, 5)), 0);
    assert_eq!(fate(false, &fields(2, 5, 1, 5)), 0);
    assert_eq!(fate(false, &fields(3, 5, 1, 5)), 1);
}

#[test]
fn constraints_on_resources() {
    judge("AvoidClashesConstraint", CLASSES, "", |table| {
        (0..TIMES)
            .map(|time| on_at(table, CLASS_A, time).saturating_sub(1))
            .sum()
    });
    let times = "<TimeGroups><TimeGroup Reference=\"Early\"/></TimeGroups>";
    judge("AvoidUnavailableTimesConstraint", TEACHER, times, |table| {
        [0, 3]
            .iter()
            .filter(|&&time| on_at(table, ADA, time) > 0)
            .count()
    });
    let idle = format!("{DAY_GROUPS}{}", range(0, 0));
    judge("LimitIdleTimesConstraint", TEACHER, &idle, |table| {
        let gaps = |day: std::ops::Range<usize>| match busy(table, ADA, day)[..] {
            [first, .., last] => last - first - 1,
            _ => 0,
        };
        DAYS.map(gaps).iter().sum()
    });
    let days = format!("{DAY_GROUPS}{}", range(0, 1));
    judge("ClusterBusyTimesConstraint", CLASSES, &days, |table| {
        let days = DAYS.map(|day| usize::from(!busy(table, CLASS_A, day).is_empty()));
        outside(days.iter().sum(), 0, 1)
    });
    let hours = format!("{DAY_GROUPS}{}", range(2, 2));
    judge(
        "LimitBusyTimesConstraint",
        "<Resources><Resource Reference=\"C1\"/></Resources>",
        &hours,
        |table| {
            let charged = |day: std::ops::Range<usize>| match busy(table, CLASS_A, day).len() {
                0 => 0,
                count => outside(count, 2, 2),
            };
            DAYS.map(charged).iter().sum()
        },
    );
}

/// As a rule, events of one length are together; as a wish that is weakened.
#[test]
fn linked_events() {
    let link = |required| constraint("LinkEventsConstraint", required, "Linear", SINGLES, "");
    let imported = import(&archive(&link(true))).unwrap();
    assert!(imported.remarks.is_empty());
    let bytes = instance::write(&imported.school.instance);
    for table in tables(LONG) {
        let score = engine::score(&bytes, &timetable(&table)).expect("a timetable");
        assert_eq!(score.infeasibility.0 == 0, table[0] == table[2]);
    }
    assert_eq!(
        import(&archive(&link(false)))
            .unwrap()
            .count(Fate::Weakened),
        1
    );
}

/// A pair of events, from 0, so far apart as the limits say.
fn event_pair([first, second]: [usize; 2], limits: &str) -> String {
    format!(
        "<EventPair><FirstEvent Reference=\"E{}\"/><SecondEvent Reference=\"E{}\"/>{limits}\
         </EventPair>",
        first + 1,
        second + 1
    )
}

/// Formulas 24 to 26: how far the times between two events lie outside.
fn misplaced(table: &Table, [first, second]: [usize; 2], least: usize, most: usize) -> usize {
    let parts = table[first].iter();
    let end = parts.map(|&(start, length)| start + length).max();
    let begin = table[second].iter().map(|&(start, _)| start).min();
    let between = begin.expect("a part") as isize - end.expect("a part") as isize;
    let below = (least as isize - between).max(0);
    (below + (between - most as isize).max(0)) as usize
}

/// Each timetable's price under an order of pairs, with what each pair deviates.
fn ordered(
    required: bool,
    cost: &str,
    pairs: &[([usize; 2], usize, usize)],
) -> Vec<(u64, Vec<usize>)> {
    let written = pairs.iter().map(|&(pair, least, most)| {
        let mut limits = String::new();
        if least > 0 {
            limits += &format!("<MinSeparation>{least}</MinSeparation>");
        }
        if most < TIMES {
            limits += &format!("<MaxSeparation>{most}</MaxSeparation>");
        }
        event_pair(pair, &limits)
    });
    let applies = format!("<EventPairs>{}</EventPairs>", written.collect::<String>());
    let name = "OrderEventsConstraint";
    let text = archive(&constraint(name, required, cost, &applies, ""));
    let imported = import(&text).unwrap_or_else(|fault| panic!("{fault}\n{text}"));
    let exact = required || ["Step", "SumSteps"].contains(&cost);
    assert_eq!(imported.remarks.len(), usize::from(!exact), "{cost}");
    assert_eq!(imported.count(Fate::Dropped), 0, "{cost}");
    let bytes = instance::write(&imported.school.instance);
    let priced = tables(LONG).into_iter().map(|table| {
        let score = engine::score(&bytes, &timetable(&table)).expect("a timetable");
        let each = pairs.iter();
        let each = each.map(|&(pair, least, most)| misplaced(&table, pair, least, most));
        (score.infeasibility.0 + score.objective.0, each.collect())
    });
    priced.collect()
}

/// A pair is kept or not, as a rule and as a step; other wishes are weakened to that.
#[test]
fn ordered_events() {
    let most = TIMES;
    for pair in [[0, 1], [1, 0], [2, 0]] {
        for (least, most) in [(0, most), (0, 0), (1, most), (1, 2), (2, 2), (3, 4)] {
            for (required, cost) in [(true, "Linear"), (false, "Step"), (false, "SumSteps")] {
                let mut seen = [false; 2];
                for (price, each) in ordered(required, cost, &[(pair, least, most)]) {
                    assert_eq!(price, u64::from(each[0] > 0), "{pair:?} {least} {most}");
                    seen[price as usize] = true;
                }
                assert_eq!(seen, [true, true], "{pair:?} {least} {most}");
            }
            for (cost, power) in [("Linear", 1), ("Quadratic", 2)] {
                for (price, each) in ordered(false, cost, &[(pair, least, most)]) {
                    assert!(
                        price <= each[0].pow(power) as u64,
                        "{pair:?} {least} {most}"
                    );
                    assert_eq!(price > 0, each[0] > 0, "{pair:?} {least} {most}");
                }
            }
        }
    }
    let pairs = [([0, 1], 0, most), ([1, 2], 1, 3), ([2, 0], 0, most)];
    for (price, each) in ordered(false, "Step", &pairs) {
        let broken = each.iter().filter(|&&deviation| deviation > 0);
        assert_eq!(
            price,
            broken.count() as u64,
            "each pair is charged by itself"
        );
    }
}

/// Separations of any size, and pairs that no timetable can keep.
#[test]
fn limits_of_ordered_events() {
    let applies = |pair: &str| format!("<EventPairs>{pair}</EventPairs>");
    let order = |required, pair: &str| {
        let name = "OrderEventsConstraint";
        import(&archive(&constraint(
            name,
            required,
            "Linear",
            &applies(pair),
            "",
        )))
    };
    let written = |limits: &str| {
        let imported = order(true, &event_pair([0, 1], limits)).unwrap();
        assert!(imported.remarks.is_empty());
        imported.school.instance.constraints[0].kind.clone()
    };
    let kind = |lo, hi| Kind::Precedence {
        first: 0,
        second: 1,
        lo,
        hi,
    };
    let limits = |least: usize, most: usize| {
        format!("<MinSeparation>{least}</MinSeparation><MaxSeparation>{most}</MaxSeparation>")
    };
    assert_eq!(written(""), kind(0, 124));
    assert_eq!(written(&limits(2, 6)), kind(2, 6));
    assert_eq!(written(&limits(125, 4_000_000_000)), kind(124, 124));
    let told = |pair: &str| {
        let imported = order(true, pair).unwrap();
        let told = imported.remarks.iter().map(ToString::to_string);
        told.collect::<Vec<_>>().join(";")
    };
    let dropped = "51: dropped: OrderEventsConstraint 'x'";
    assert_eq!(
        told(&event_pair([0, 1], &limits(3, 2))),
        format!("{dropped}: its least is above its most")
    );
    assert_eq!(
        told(&event_pair([1, 1], "")),
        format!("{dropped}: its two events are one")
    );
    assert_eq!(told(""), "", "no pair is asked for");
    assert!(order(false, "").unwrap().remarks.is_empty());
    let fault = |pair: &str| order(true, pair).err().map(|fault| fault.message);
    let half = "<EventPair><FirstEvent Reference=\"E1\"/></EventPair>";
    assert_eq!(
        fault(half),
        Some("EventPair has no SecondEvent".to_string())
    );
    assert_eq!(
        fault(&event_pair([0, 8], "")),
        Some("there is no event 'E9'".to_string())
    );
}

#[test]
fn a_preassigned_time_is_kept() {
    for long in [LONG, 3, 5] {
        let lasts = format!("<Duration>{long}</Duration>");
        let fixed = format!("{lasts}<Time Reference=\"Mo2\"/>");
        let fixed = lasting(long, WEEK).replace(&lasts, &fixed);
        let imported = import(&fixed).unwrap();
        let bytes = instance::write(&imported.school.instance);
        for table in tables(long) {
            let score = engine::score(&bytes, &timetable(&table)).expect("a timetable");
            assert_eq!(score.infeasibility.0 == 0, table[1] == [(1, long)]);
        }
    }
}

#[test]
fn what_is_not_carried_is_told() {
    let fates = |text: &str| {
        let imported = import(&archive(text)).unwrap();
        (
            imported.count(Fate::Weakened),
            imported.count(Fate::Dropped),
        )
    };
    let clash = |cost| constraint("AvoidClashesConstraint", false, cost, CLASSES, "");
    assert_eq!(fates(&clash("Linear")), (0, 0));
    assert_eq!(fates(&clash("Quadratic")), (1, 0));
    assert_eq!(fates(&clash("Step")), (0, 1), "linear would cost more");
    let prefer = constraint("PreferResourcesConstraint", true, "Linear", EVENTS, "");
    assert_eq!(fates(&prefer), (0, 1));
    let unknown = constraint("OrderResourcesConstraint", true, "Linear", "", "");
    assert_eq!(fates(&unknown), (0, 1));
    let open = WEEK.replace(
        "<!-- open -->",
        "<Resource><Role>Room</Role><ResourceType Reference=\"Room\"/></Resource>",
    );
    let told: Vec<String> = import(&open)
        .unwrap()
        .remarks
        .iter()
        .map(ToString::to_string)
        .collect();
    assert_eq!(
        told,
        ["45: dropped: Event 'E3': a resource is left to choose"]
    );
}

#[test]
fn faults_are_told_with_their_line() {
    let cases = [
        (
            WEEK.replace("<Required>true", "<Required>false"),
            "39: no required AssignTimeConstraint places event 'E1'; the engine places every event",
        ),
        (
            WEEK.replace("<Day Reference=\"Tu\"/>", "<Day Reference=\"We\"/>"),
            "16: there is no group 'We'",
        ),
        (
            WEEK.replace("<Duration>2", "<Duration>7"),
            "42: a duration of 7",
        ),
        (WEEK.replace("Id=\"E3\"", "Id=\"E1\""), "45: a second 'E1'"),
        (
            WEEK.replace("<Weight>1<", "<Weight>1001<"),
            "50: a weight of 1001",
        ),
    ];
    for (text, told) in cases {
        assert_eq!(
            import(&text)
                .err()
                .map(|fault| fault.to_string())
                .as_deref(),
            Some(told)
        );
    }
    let root = xml::read(WEEK.as_bytes()).unwrap();
    assert!(xhstt::import(&root, Some("Other")).is_err());
    assert!(xhstt::import(&root, Some("Week")).is_ok());
}

#[test]
fn a_timetable_is_written_back() {
    let table: Table = [vec![(0, 1)], vec![(1, 1), (2, 1)], vec![(5, 1)]];
    let once = xhstt::with_solution(WEEK.as_bytes(), None, &timetable(&table), "cost < 1").unwrap();
    let twice = xhstt::with_solution(once.as_bytes(), None, &timetable(&table), "again").unwrap();
    let root = xml::read(twice.as_bytes()).unwrap();
    let groups = &root.child("SolutionGroups").unwrap().children;
    let ids: Vec<_> = groups
        .iter()
        .map(|group| group.attribute("Id").unwrap())
        .collect();
    assert_eq!(ids, ["Timetable1", "Timetable2"]);
    let solution = groups[0].child("Solution").unwrap();
    assert_eq!(solution.attribute("Reference"), Some("Week"));
    let events = &solution.child("Events").unwrap().children;
    let parts: Vec<_> = events
        .iter()
        .map(|event| {
            let time = event
                .child("Time")
                .and_then(|time| time.attribute("Reference"));
            (
                event.attribute("Reference").unwrap(),
                event.field("Duration"),
                time.unwrap(),
            )
        })
        .collect();
    assert_eq!(
        parts,
        [
            ("E1", "1", "Mo1"),
            ("E2", "1", "Mo2"),
            ("E2", "1", "Mo3"),
            ("E3", "1", "Tu3")
        ]
    );
    assert!(import(&twice).is_ok());
    assert!(xhstt::with_solution(WEEK.as_bytes(), None, &[0; 7], "").is_err());
}

#[test]
fn no_damage_panics() {
    let text = archive(&constraint(
        "AvoidClashesConstraint",
        false,
        "Linear",
        CLASSES,
        "",
    ));
    let bytes = text.as_bytes();
    for cut in (0..bytes.len()).step_by(7) {
        let _ = xml::read(&bytes[..cut]);
        for byte in [b'<', b'9', b'0', b'&', 0xff] {
            let mut damaged = bytes.to_vec();
            damaged[cut] = byte;
            if let Ok(root) = xml::read(&damaged) {
                let _ = xhstt::import(&root, None);
            }
        }
    }
}
