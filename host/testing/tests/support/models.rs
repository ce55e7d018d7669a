//! All assignments of tiny instances, and the models that extend one.

use super::both::{decode, score, sizes};
use testing::generate::{encode, model};
use testing::prover::clause_list;
use testing::reference::{Constraint, Event, Infeasibility, Instance, Literal, Objective, Score};

/// One event and one constraint on it.
pub fn one_event(
    times: usize,
    duration: usize,
    groups: Vec<Vec<usize>>,
    constraint: Constraint,
) -> Instance {
    events_with(times, &[duration], groups, constraint)
}

/// Events of these durations and one constraint on them.
pub fn events_with(
    times: usize,
    durations: &[usize],
    groups: Vec<Vec<usize>>,
    constraint: Constraint,
) -> Instance {
    let event = |&duration: &usize| Event {
        duration,
        resources: Vec::new(),
    };
    Instance {
        times,
        resources: 0,
        calendar: None,
        events: durations.iter().map(event).collect(),
        groups,
        constraints: vec![constraint],
    }
}

/// The subevents of the only event, each a start and a length: each start begins
/// one, and each other taken time makes the last one longer.
pub fn subevents(table: &[u8]) -> Vec<(usize, usize)> {
    let (taken, starts) = table.split_at(table.len() / 2);
    let mut subevents: Vec<(usize, usize)> = Vec::new();
    for (time, (&taken, &start)) in taken.iter().zip(starts).enumerate() {
        match (taken, start) {
            (1, 1) => subevents.push((time, 1)),
            (1, _) => subevents.last_mut().expect("a start before it").1 += 1,
            _ => {}
        }
    }
    subevents
}

/// A timetable has one model if it keeps the only constraint or that is soft, and
/// the model costs what the timetable does; nothing else has a model. How far a
/// timetable deviates is said by `deviation`. Gives the number of timetables.
pub fn models_match(instance: &Instance, deviation: impl Fn(&[u8]) -> u64) -> usize {
    models_match_among(instance, assignments(instance), deviation)
}

/// The same of some assignments of Y and S.
pub fn models_match_among(
    instance: &Instance,
    tables: impl IntoIterator<Item = Vec<u8>>,
    deviation: impl Fn(&[u8]) -> u64,
) -> usize {
    let file = encode(instance);
    let weight = instance.constraints[0].weight;
    let variables = sizes(&file, None).unwrap().variables as usize;
    let models = Models::of(instance, variables);
    let mut timetables = 0;
    for table in tables {
        let found = models.extending(&table);
        let Ok(scored) = score(&file, &table) else {
            assert!(found.is_empty(), "{instance:?}, {table:?}");
            continue;
        };
        timetables += 1;
        let deviation = deviation(&table);
        let (broken, cost) = match weight {
            0 => (deviation, 0),
            _ => (0, u64::from(weight) * deviation),
        };
        let expected = Score {
            infeasibility: Infeasibility(broken),
            objective: Objective(cost),
        };
        assert_eq!(scored, expected, "{instance:?}, {table:?}");
        let extended = model(instance, &table);
        if broken > 0 {
            assert!(found.is_empty(), "{instance:?}, {table:?}");
            assert_eq!(decode(&file, &extended).unwrap_err().number, 13);
            continue;
        }
        assert_eq!(found, [extended], "{instance:?}, {table:?}");
        assert_eq!(decode(&file, &found[0]), Ok((&table[..], Objective(cost))));
    }
    timetables
}

/// All assignments of Y and S, timetables or not.
pub fn assignments(instance: &Instance) -> impl Iterator<Item = Vec<u8>> {
    let length = 2 * instance.events.len() * instance.times;
    (0..1u32 << length).map(move |bits| (0..length).map(|at| (bits >> at & 1) as u8).collect())
}

/// All timetables: the products of each event's rows.
pub fn timetables(instance: &Instance) -> Vec<Vec<u8>> {
    let times = instance.times;
    let rows = |duration: usize| -> Vec<(u32, u32)> {
        let mut rows = Vec::new();
        for taken in (0..1u32 << times).filter(|y| y.count_ones() as usize == duration) {
            let begins = taken & !(taken << 1);
            let starts = (0..1u32 << times).filter(|s| s & !taken == 0 && begins & !s == 0);
            rows.extend(starts.map(|starts| (taken, starts)));
        }
        rows
    };
    let mut sheets: Vec<Vec<(u32, u32)>> = vec![Vec::new()];
    for event in &instance.events {
        let rows = rows(event.duration);
        let longer = |sheet: &Vec<(u32, u32)>| -> Vec<Vec<(u32, u32)>> {
            let longer = rows.iter().map(|&row| [&sheet[..], &[row]].concat());
            longer.collect()
        };
        sheets = sheets.iter().flat_map(longer).collect();
    }
    let bits = |row: u32| (0..times).map(move |time| (row >> time & 1) as u8);
    sheets
        .iter()
        .map(|sheet| {
            let taken = sheet.iter().flat_map(|&(taken, _)| bits(taken));
            let starts = sheet.iter().flat_map(|&(_, starts)| bits(starts));
            taken.chain(starts).collect()
        })
        .collect()
}

/// The cost of a timetable that keeps every hard constraint.
pub fn feasible_cost(file: &[u8], table: &[u8]) -> Option<u64> {
    match score(file, table) {
        Ok(score) if score.infeasibility == Infeasibility(0) => Some(score.objective.0),
        Ok(_) => None,
        Err(refusal) => {
            assert_eq!(refusal.number, 12);
            None
        }
    }
}

/// The value of each variable, where it has one.
pub type Values = Vec<Option<bool>>;

/// Finds the models of a formula that extend a given assignment.
pub struct Models {
    clauses: Vec<Vec<Literal>>,
    /// For each literal code, the clauses that hold the literal.
    occurrences: Vec<Vec<usize>>,
    variables: usize,
}

impl Models {
    pub fn of(instance: &Instance, variables: usize) -> Models {
        Models::over(clause_list(instance, None), variables)
    }

    pub fn over(clauses: Vec<Vec<Literal>>, variables: usize) -> Models {
        let mut occurrences = vec![Vec::new(); 2 * (variables + 1)];
        for (index, clause) in clauses.iter().enumerate() {
            for literal in clause {
                occurrences[literal.code() as usize].push(index);
            }
        }
        Models {
            clauses,
            occurrences,
            variables,
        }
    }

    /// All models whose first bytes are `table`.
    pub fn extending(&self, table: &[u8]) -> Vec<Vec<u8>> {
        let literals = table.iter().enumerate().map(|(at, &byte)| {
            let positive = Literal::positive(at as u32 + 1);
            if byte == 1 {
                positive
            } else {
                !positive
            }
        });
        let mut found = Vec::new();
        if let Some(values) = self.propagated(literals) {
            self.extend(values, &mut found);
        }
        found
    }

    /// What follows from these literals by unit propagation alone; none if a clause
    /// becomes false.
    pub fn propagated(&self, literals: impl IntoIterator<Item = Literal>) -> Option<Values> {
        let units = self.clauses.iter().filter(|clause| clause.len() == 1);
        let pending = units.map(|clause| clause[0]).chain(literals).collect();
        self.propagate(vec![None; self.variables], pending)
    }

    /// The models that agree with `values`, from which nothing more follows: tries
    /// both values of an open variable.
    fn extend(&self, values: Values, found: &mut Vec<Vec<u8>>) {
        match values.iter().position(|value| value.is_none()) {
            None => found.push(values.iter().map(|v| u8::from(*v == Some(true))).collect()),
            Some(at) => {
                let literal = Literal::positive(at as u32 + 1);
                for literal in [literal, !literal] {
                    if let Some(values) = self.propagate(values.clone(), vec![literal]) {
                        self.extend(values, found);
                    }
                }
            }
        }
    }

    /// Makes the literals `pending` true, and all that follows.
    fn propagate(&self, mut values: Values, mut pending: Vec<Literal>) -> Option<Values> {
        while let Some(literal) = pending.pop() {
            let wanted = Some(!literal.is_negated());
            let value = &mut values[literal.variable() as usize - 1];
            if *value == wanted {
                continue;
            }
            if value.is_some() {
                return None;
            }
            *value = wanted;
            for &index in &self.occurrences[(!literal).code() as usize] {
                let value = |literal: &Literal| {
                    let value: Option<bool> = values[literal.variable() as usize - 1];
                    value.map(|value| value != literal.is_negated())
                };
                let clause = &self.clauses[index];
                if clause.iter().any(|literal| value(literal) == Some(true)) {
                    continue;
                }
                let mut open = clause.iter().filter(|literal| value(literal).is_none());
                match (open.next(), open.next()) {
                    (None, _) => return None,
                    (Some(&literal), None) => pending.push(literal),
                    _ => {}
                }
            }
        }
        Some(values)
    }
}
