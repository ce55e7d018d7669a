//! The formula: hard clauses, soft units and the tail for a bound.
//!
//! `walk` and `walk_with_tail` hand every clause to a `Sink`, in order of ids.
//! `Sizes` counts the same clauses by arithmetic, so that an oversized formula
//! is refused at once.

use super::instance::{Instance, Kind, Range};
use super::refusal::refuse;
use std::iter;
use std::ops::{Not, RangeInclusive};
use timetable::engine::{FormulaSize, Refusal};

pub const LARGEST_BOUND: u64 = 4_095;
pub const LARGEST_FORMULA: u64 = 8_000_000;

/// A variable or its negation, held as its code in proofs: 2v or 2v + 1.
#[derive(Clone, Copy, Debug, PartialEq, Eq, PartialOrd, Ord, Hash)]
pub struct Literal(u32);

impl Literal {
    pub fn positive(variable: u32) -> Literal {
        Literal(2 * variable)
    }

    /// The literal with this code. Codes 0 and 1 are no literals.
    pub fn from_code(code: u32) -> Option<Literal> {
        (code >= 2).then_some(Literal(code))
    }

    pub fn code(self) -> u32 {
        self.0
    }

    /// The variable of this literal, from 1.
    pub fn variable(self) -> u32 {
        self.0 / 2
    }

    pub fn is_negated(self) -> bool {
        self.0 % 2 == 1
    }
}

impl Not for Literal {
    type Output = Literal;

    fn not(self) -> Literal {
        Literal(self.0 ^ 1)
    }
}

/// A consumer of the formula. Literals stand by ascending variable.
pub trait Sink {
    fn hard(&mut self, clause: &[Literal]);
    fn soft(&mut self, weight: u32, unit: Literal);
}

/// Hands over hard clauses and soft units without the tail. The sizes must
/// have been checked.
pub fn walk<S: Sink>(instance: &Instance, sink: &mut S) {
    Writer::new(sink).formula(instance);
}

/// Hands over hard clauses and soft units, then the tail for `bound`. The
/// sizes must have been checked.
pub fn walk_with_tail<S: Sink>(instance: &Instance, bound: u64, sink: &mut S) {
    let mut units = Units {
        sink,
        units: Vec::new(),
    };
    let mut writer = Writer::new(&mut units);
    writer.formula(instance);
    let last = writer.last;
    let Units { sink, units } = units;
    let mut writer = Writer { sink, last };
    writer.tail(&units, bound);
}

/// A sink that passes everything on and keeps the soft units for the tail.
struct Units<'a, S> {
    sink: &'a mut S,
    units: Vec<(Literal, u32)>,
}

impl<S: Sink> Sink for Units<'_, S> {
    fn hard(&mut self, clause: &[Literal]) {
        self.sink.hard(clause);
    }

    fn soft(&mut self, weight: u32, unit: Literal) {
        self.units.push((unit, weight));
        self.sink.soft(weight, unit);
    }
}

/// How the units of a counted list treat counts below lo.
#[derive(Clone, Copy, PartialEq, Eq)]
enum Low {
    Counted,
    /// Kind 6: count 0 deviates by 0.
    UnlessZero,
}

impl Low {
    fn of(kind: &Kind) -> Low {
        match kind {
            Kind::BusyLimit { .. } => Low::UnlessZero,
            _ => Low::Counted,
        }
    }
}

struct Writer<'a, S> {
    sink: &'a mut S,
    /// The last variable in use.
    last: u32,
}

impl<'a, S: Sink> Writer<'a, S> {
    fn new(sink: &'a mut S) -> Self {
        Writer { sink, last: 0 }
    }

    /// The first of `count` new variables.
    fn fresh(&mut self, count: u32) -> u32 {
        let first = self.last + 1;
        self.last += count;
        first
    }

    fn formula(&mut self, instance: &Instance) {
        let variables = Variables {
            times: instance.times,
            events: instance.events.len(),
        };
        self.fresh((2 * instance.events.len() * instance.times) as u32);
        self.starts(instance, &variables);
        self.uses(instance, &variables);
        self.durations(instance, &variables);
        for constraint in &instance.constraints {
            self.constraint(instance, &variables, constraint.weight, &constraint.kind);
        }
    }

    /// A start is taken; a taken time after a time not taken is a start.
    fn starts(&mut self, instance: &Instance, variables: &Variables) {
        for event in 0..instance.events.len() {
            for time in 0..instance.times {
                let y = variables.y(event, time);
                let s = variables.s(event, time);
                self.sink.hard(&[y, !s]);
                if time == 0 {
                    self.sink.hard(&[!y, s]);
                } else {
                    self.sink.hard(&[variables.y(event, time - 1), !y, s]);
                }
            }
        }
    }

    /// X(r, t) is the OR of Y of the events of r.
    fn uses(&mut self, instance: &Instance, variables: &Variables) {
        for resource in 0..instance.resources {
            let events = instance.events_of(resource);
            for time in 0..instance.times {
                let list: Vec<Literal> = events.iter().map(|&e| variables.y(e, time)).collect();
                let x = self.or_gate(&list);
                debug_assert!(x == variables.x(resource, time));
            }
        }
    }

    fn durations(&mut self, instance: &Instance, variables: &Variables) {
        for (event, fields) in instance.events.iter().enumerate() {
            let list: Vec<Literal> = (0..instance.times)
                .map(|time| variables.y(event, time))
                .collect();
            let duration = fields.duration as u32;
            let range = Range {
                lo: duration,
                hi: duration,
            };
            self.counted(&list, range, 0, Low::Counted);
        }
    }

    fn constraint(&mut self, instance: &Instance, variables: &Variables, weight: u32, kind: &Kind) {
        let members = |group: &usize| &instance.groups[*group];
        let x_in = |resource: &usize, group: &usize| -> Vec<Literal> {
            let times = members(group).iter();
            times.map(|&time| variables.x(*resource, time)).collect()
        };
        let list: Vec<Literal> = match kind {
            Kind::Clash { resource } => {
                let events = instance.events_of(*resource);
                for time in 0..instance.times {
                    let list: Vec<Literal> = events.iter().map(|&e| variables.y(e, time)).collect();
                    self.counted(&list, kind.range(), weight, Low::Counted);
                }
                return;
            }
            Kind::Unavailable { resource, group }
            | Kind::BusyLimit {
                resource, group, ..
            } => x_in(resource, group),
            Kind::PreferredTimes { event, group } => {
                self.held_gates(instance, variables, *event, *group)
            }
            Kind::Split { event, .. } => variables.starts(*event),
            Kind::Spread { events, group, .. } => {
                let starts = |&event| members(group).iter().map(move |&t| variables.s(event, t));
                events.iter().flat_map(starts).collect()
            }
            Kind::Cluster {
                resource, groups, ..
            } => groups
                .iter()
                .map(|group| self.or_gate(&x_in(resource, group)))
                .collect(),
            Kind::Idle {
                resource, groups, ..
            } => {
                let mut idle = Vec::new();
                for group in groups {
                    let x = x_in(resource, group);
                    for member in 1..x.len().saturating_sub(1) {
                        idle.push(self.idle_gate(&x, member));
                    }
                }
                idle
            }
            Kind::Distribute { event, length, .. } => {
                self.starts_by_length(variables, *event, |writer, start, going| {
                    writer.length_gate(start, going, *length)
                })
            }
            Kind::Lengths {
                event,
                shortest,
                longest,
            } => self.starts_by_length(variables, *event, |writer, start, going| {
                writer.outside_gate(start, going, *shortest, *longest)
            }),
            Kind::Precedence { first, second, gap } => {
                vec![self.gap_gates(variables, [*first, *second], *gap)]
            }
        };
        self.counted(&list, kind.range(), weight, Low::of(kind));
    }

    /// A new variable that is the OR of `list`.
    fn or_gate(&mut self, list: &[Literal]) -> Literal {
        let o = Literal::positive(self.fresh(1));
        for &l in list {
            self.sink.hard(&[!l, o]);
        }
        let mut clause = Vec::with_capacity(list.len() + 1);
        clause.extend_from_slice(list);
        clause.push(!o);
        self.sink.hard(&clause);
        o
    }

    /// A new variable that is the AND of `list`.
    fn and_gate(&mut self, list: &[Literal]) -> Literal {
        let o = Literal::positive(self.fresh(1));
        for &l in list {
            self.sink.hard(&[l, !o]);
        }
        let mut clause: Vec<Literal> = list.iter().map(|&l| !l).collect();
        clause.push(o);
        self.sink.hard(&clause);
        o
    }

    /// A new variable that is true if `member` is idle among the members `x`.
    fn idle_gate(&mut self, x: &[Literal], member: usize) -> Literal {
        let g = self.or_gate(&x[..member]);
        let h = self.or_gate(&x[member + 1..]);
        self.and_gate(&[!x[member], g, h])
    }

    /// Whether the subevent of the time before goes on at `time`: M(t).
    fn going_gate(&mut self, variables: &Variables, event: usize, time: usize) -> Literal {
        self.and_gate(&[variables.y(event, time), !variables.s(event, time)])
    }

    /// For each time that a subevent that starts outside `group` can hold, whether
    /// one does: S where it must start there, C where it must go on, else D.
    fn held_gates(
        &mut self,
        instance: &Instance,
        variables: &Variables,
        event: usize,
        group: usize,
    ) -> Vec<Literal> {
        let mut held: Vec<Literal> = Vec::new();
        for time in 0..instance.times {
            let outside = instance.outside(group, time);
            let start = variables.s(event, time);
            if instance.reachable(event, group, time) {
                // What reaches a time reaches the one before, or starts there.
                let before = *held.last().expect("the time before");
                let going = self.going_gate(variables, event, time);
                let carried = self.and_gate(&[before, going]);
                held.push(match outside {
                    true => self.or_gate(&[start, carried]),
                    false => carried,
                });
            } else if outside {
                held.push(start);
            }
        }
        held
    }

    /// For each time but the first, and for the one after the last, whether the
    /// subevent before it goes on there: M(2), .., M(T + 1).
    fn going_gates(&mut self, variables: &Variables, event: usize) -> Vec<Literal> {
        let mut going: Vec<Literal> = (1..variables.times)
            .map(|time| self.going_gate(variables, event, time))
            .collect();
        going.push(self.or_gate(&[]));
        going
    }

    /// A gate for each start, made of its S and of the M of the times after it.
    fn starts_by_length(
        &mut self,
        variables: &Variables,
        event: usize,
        gate: impl Fn(&mut Self, Literal, &[Literal]) -> Literal,
    ) -> Vec<Literal> {
        let going = self.going_gates(variables, event);
        let starts = variables.starts(event);
        let later = (0..variables.times).map(|time| &going[time..]);
        let starts = starts.into_iter().zip(later);
        starts
            .map(|(start, going)| gate(self, start, going))
            .collect()
    }

    /// Whether a subevent of `length` begins at `start`; `going` are the M of the
    /// times after it.
    fn length_gate(&mut self, start: Literal, going: &[Literal], length: usize) -> Literal {
        let mut list = vec![start];
        list.extend(going.iter().take(length - 1));
        list.extend(going.get(length - 1).map(|&after| !after));
        self.and_gate(&list)
    }

    /// Whether a subevent shorter than `shortest` or longer than `longest` begins
    /// at `start`; `going` are the M of the times after it.
    fn outside_gate(
        &mut self,
        start: Literal,
        going: &[Literal],
        shortest: usize,
        longest: usize,
    ) -> Literal {
        let longer = going.iter().take(longest).copied();
        if shortest == 1 {
            let list: Vec<Literal> = iter::once(start).chain(longer).collect();
            return self.and_gate(&list);
        }
        let within: Vec<Literal> = longer.skip(shortest - 1).collect();
        let q = self.and_gate(&within);
        let ends = going.iter().take(shortest - 1).map(|&m| !m);
        let list: Vec<Literal> = ends.chain([q]).collect();
        let w = self.or_gate(&list);
        self.and_gate(&[start, w])
    }

    /// ORs of which the first is of `first`, and each other one of a literal of `more`
    /// and of the OR before it.
    fn or_chain(&mut self, first: &[Literal], more: impl Iterator<Item = Literal>) -> Vec<Literal> {
        let mut last = self.or_gate(first);
        let mut chain = vec![last];
        for literal in more {
            last = self.or_gate(&[literal, last]);
            chain.push(last);
        }
        chain
    }

    /// Whether the gap between two events lies outside `gap`: F, P, G, Q and O. Times
    /// count from 1 here.
    fn gap_gates(
        &mut self,
        variables: &Variables,
        [first, second]: [usize; 2],
        gap: Range,
    ) -> Literal {
        let times = variables.times;
        let Ends { early, late } = Ends::of(times, gap);
        let (lo, hi) = (gap.lo as usize, gap.hi as usize);
        let taking = |event: usize, times: RangeInclusive<usize>| -> Vec<Literal> {
            times.map(|time| variables.y(event, time - 1)).collect()
        };
        // F(t), at index t − 1: the second event has begun by t + lo.
        let begun = match early {
            0 => Vec::new(),
            _ => {
                let more = taking(second, lo + 2..=lo + early);
                self.or_chain(&taking(second, 1..=lo + 1), more.into_iter())
            }
        };
        // P(t) for t from 2 on: the first event takes t, and F(t).
        let soon: Vec<Literal> = (2..=early)
            .map(|t| self.and_gate(&[variables.y(first, t - 1), begun[t - 1]]))
            .collect();
        // G(t), at index late − t: the first event goes on after t.
        let lasting = match late {
            0 => Vec::new(),
            _ => {
                let more = taking(first, 2..=late);
                self.or_chain(&taking(first, late + 1..=times), more.into_iter().rev())
            }
        };
        // Q(t): the second event has not begun by t + hi + 1, and not G(t).
        let tardy: Vec<Literal> = (1..=late)
            .map(|t| self.and_gate(&[!begun[t + hi - lo], !lasting[late - t]]))
            .collect();
        let mut list = taking(first, early + 1..=times);
        list.extend(begun.first());
        list.extend(soon.into_iter().chain(tardy));
        self.or_gate(&list)
    }

    /// A counter over `inputs`, literals with weights. Gives the variable
    /// before c(n, 1). The inputs' variables are below the counter's.
    fn counter(&mut self, inputs: impl Iterator<Item = (Literal, u32)>, columns: u32) -> u32 {
        let mut above = None;
        for (x, weight) in inputs {
            let row = self.fresh(columns) - 1;
            for j in 1..=columns {
                let c = Literal::positive(row + j);
                // In row 1, a is false, and b is false unless j ≤ weight;
                // b is true where j ≤ weight.
                match above {
                    None if j <= weight => {
                        self.sink.hard(&[!x, c]);
                        self.sink.hard(&[x, !c]);
                    }
                    None => {
                        self.sink.hard(&[x, !c]);
                        self.sink.hard(&[!c]);
                    }
                    Some(above) if j <= weight => {
                        let a = Literal::positive(above + j);
                        self.sink.hard(&[!a, c]);
                        self.sink.hard(&[!x, c]);
                        self.sink.hard(&[x, a, !c]);
                    }
                    Some(above) => {
                        let a = Literal::positive(above + j);
                        let b = Literal::positive(above + j - weight);
                        self.sink.hard(&[!a, c]);
                        self.sink.hard(&[!x, !b, c]);
                        self.sink.hard(&[x, a, !c]);
                        self.sink.hard(&[b, a, !c]);
                    }
                }
            }
            above = Some(row);
        }
        above.unwrap_or(0)
    }

    /// A counted list: its counter, then its units.
    fn counted(&mut self, list: &[Literal], range: Range, weight: u32, low: Low) {
        let n = list.len() as u32;
        let (lo, hi) = (range.lo, range.hi.min(n));
        let hard = weight == 0;
        let columns = if hard { n.min(hi + 1) } else { n };
        let last_row = self.counter(list.iter().map(|&x| (x, 1)), columns);
        let c = |j| Literal::positive(last_row + j);

        match low {
            Low::Counted if hard => {
                if lo >= 1 {
                    self.sink.hard(&[c(lo)]);
                }
            }
            Low::Counted => {
                for j in 1..=lo {
                    self.sink.soft(weight, c(j));
                }
            }
            Low::UnlessZero => {
                for j in 2..=lo {
                    let v = self.and_gate(&[c(1), !c(j)]);
                    if hard {
                        self.sink.hard(&[!v]);
                    } else {
                        self.sink.soft(weight, !v);
                    }
                }
            }
        }
        if hard {
            if hi < n {
                self.sink.hard(&[!c(hi + 1)]);
            }
        } else {
            for j in hi + 1..=n {
                self.sink.soft(weight, !c(j));
            }
        }
    }

    /// The falsified weight is at most `bound`.
    fn tail(&mut self, units: &[(Literal, u32)], bound: u64) {
        if units.is_empty() {
            return;
        }
        let columns = bound as u32 + 1;
        let inputs = units.iter().map(|&(unit, weight)| (!unit, weight));
        let last_row = self.counter(inputs, columns);
        self.sink.hard(&[!Literal::positive(last_row + columns)]);
    }
}

/// The last times of a first event that can matter for the bounds of a gap.
struct Ends {
    /// After it there are lo times and one more.
    early: usize,
    /// After it there are hi + 1 times and one more.
    late: usize,
}

impl Ends {
    fn of(times: usize, gap: Range) -> Ends {
        Ends {
            early: times.saturating_sub(1 + gap.lo as usize),
            late: times.saturating_sub(2 + gap.hi as usize),
        }
    }
}

/// The numbers of Y, S and X.
struct Variables {
    times: usize,
    events: usize,
}

impl Variables {
    fn y(&self, event: usize, time: usize) -> Literal {
        Literal::positive((event * self.times + time + 1) as u32)
    }

    fn s(&self, event: usize, time: usize) -> Literal {
        Literal::positive(((self.events + event) * self.times + time + 1) as u32)
    }

    /// S at every time.
    fn starts(&self, event: usize) -> Vec<Literal> {
        (0..self.times).map(|time| self.s(event, time)).collect()
    }

    fn x(&self, resource: usize, time: usize) -> Literal {
        Literal::positive(((2 * self.events + resource) * self.times + time + 1) as u32)
    }
}

/// Variables, hard clauses and their literals (words), with the tail's if a
/// bound was given; the number of soft units; 1 + the sum of their weights.
#[derive(Clone, Copy, Debug, PartialEq, Eq)]
pub struct Sizes {
    pub variables: u64,
    pub clauses: u64,
    pub words: u64,
    pub soft: u64,
    pub top: u64,
}

/// The sizes of the formula, or 1 to 8, 19, 22. 7 and the tail only with a bound.
pub fn sizes(file: &[u8], bound: Option<u64>) -> Result<Sizes, Refusal> {
    Sizes::of(&Instance::read(file)?, bound)
}

impl Sizes {
    pub fn formula(&self) -> FormulaSize {
        FormulaSize {
            variables: self.variables,
            clauses: self.clauses,
            words: self.words,
        }
    }

    /// The sizes of the formula of `instance`, or 7 or 8.
    pub fn of(instance: &Instance, bound: Option<u64>) -> Result<Sizes, Refusal> {
        if let Some(bound) = bound.filter(|&bound| bound > LARGEST_BOUND) {
            return refuse(7, bound);
        }
        let mut measure = Measure::default();
        measure.formula(instance);
        if let Some(bound) = bound {
            measure.tail(bound);
        }
        if measure.variables > LARGEST_FORMULA {
            return refuse(8, 0);
        }
        Ok(Sizes {
            variables: measure.variables,
            clauses: measure.clauses,
            words: measure.words,
            soft: measure.units.iter().map(|&(units, _)| units).sum(),
            top: 1 + measure
                .units
                .iter()
                .map(|&(units, weight)| units * weight)
                .sum::<u64>(),
        })
    }
}

/// Counts what `Writer` hands over. The largest count is about 10^13.
#[derive(Default)]
struct Measure {
    variables: u64,
    clauses: u64,
    words: u64,
    /// Numbers of soft units with their weight, in the order of the units.
    units: Vec<(u64, u64)>,
}

impl Measure {
    fn clauses(&mut self, count: u64, literals: u64) {
        self.clauses += count;
        self.words += count * literals;
    }

    /// An OR or an AND.
    fn gate(&mut self, inputs: u64) {
        self.variables += 1;
        self.clauses(inputs, 2);
        self.clauses(1, inputs + 1);
    }

    /// Rows of a counter that have the same weight.
    fn counter_rows(&mut self, rows: u64, weight: u64, columns: u64, first: bool) {
        let within = weight.min(columns);
        let beyond = columns - within;
        let (first, later) = if first && rows > 0 {
            (1, rows - 1)
        } else {
            (0, rows)
        };
        self.variables += rows * columns;
        self.clauses(first * within * 2, 2);
        self.clauses(first * beyond, 2);
        self.clauses(first * beyond, 1);
        self.clauses(later * within * 2, 2);
        self.clauses(later * within, 3);
        self.clauses(later * beyond, 2);
        self.clauses(later * beyond * 3, 3);
    }

    fn counted(&mut self, length: usize, range: Range, weight: u32, low: Low) {
        let n = length as u64;
        let lo = u64::from(range.lo);
        let hi = u64::from(range.hi).min(n);
        let hard = weight == 0;
        let columns = if hard { n.min(hi + 1) } else { n };
        self.counter_rows(n, 1, columns, true);
        let low_units = match low {
            Low::Counted if hard => lo.min(1),
            Low::Counted => lo,
            Low::UnlessZero => {
                let gates = lo.saturating_sub(1);
                for _ in 0..gates {
                    self.gate(2);
                }
                gates
            }
        };
        if hard {
            self.clauses(low_units + (n - hi).min(1), 1);
        } else {
            self.units.push((low_units + n - hi, u64::from(weight)));
        }
    }

    fn formula(&mut self, instance: &Instance) {
        let times = instance.times as u64;
        let events = instance.events.len() as u64;
        self.variables += 2 * events * times;
        self.clauses(events * times, 2); // (Y, not S)
        self.clauses(events, 2); // (not Y, S) at time 1
        self.clauses(events * (times - 1), 3);
        for resource in 0..instance.resources {
            let users = instance.events_of(resource).len() as u64;
            for _ in 0..times {
                self.gate(users);
            }
        }
        for event in &instance.events {
            let duration = event.duration as u32;
            let range = Range {
                lo: duration,
                hi: duration,
            };
            self.counted(instance.times, range, 0, Low::Counted);
        }
        for constraint in &instance.constraints {
            let kind = &constraint.kind;
            match kind {
                Kind::PreferredTimes { event, group } => {
                    self.held_gates(instance, *event, *group);
                }
                Kind::Cluster { groups, .. } => {
                    for &group in groups {
                        self.gate(instance.groups[group].len() as u64);
                    }
                }
                Kind::Idle { groups, .. } => {
                    for &group in groups {
                        self.idle_gates(instance.groups[group].len() as u64);
                    }
                }
                Kind::Distribute { length, .. } => self.length_gates(instance.times, *length),
                Kind::Lengths {
                    shortest, longest, ..
                } => self.outside_gates(instance.times, *shortest, *longest),
                Kind::Precedence { gap, .. } => self.gap_gates(instance.times, *gap),
                _ => {}
            }
            let lists = match kind {
                Kind::Clash { .. } => times,
                _ => 1,
            };
            let length = instance.list_length(kind);
            for _ in 0..lists {
                self.counted(length, kind.range(), constraint.weight, Low::of(kind));
            }
        }
    }

    /// The gates G, H and I of a group's members but first and last.
    fn idle_gates(&mut self, members: u64) {
        for earlier in 1..members.saturating_sub(1) {
            self.gate(earlier);
            self.gate(members - 1 - earlier);
            self.gate(3);
        }
    }

    /// The gates M and C of each time that is reachable, and D if it is outside.
    fn held_gates(&mut self, instance: &Instance, event: usize, group: usize) {
        let reachable = |&time: &usize| instance.reachable(event, group, time);
        for time in (0..instance.times).filter(reachable) {
            for _ in 0..2 + usize::from(instance.outside(group, time)) {
                self.gate(2);
            }
        }
    }

    /// The gates M of an event.
    fn going_gates(&mut self, times: usize) {
        for _ in 1..times {
            self.gate(2);
        }
        self.gate(0);
    }

    /// The gates K of starts of `length`.
    fn length_gates(&mut self, times: usize, length: usize) {
        self.going_gates(times);
        for after in (1..=times).rev() {
            self.gate(1 + after.min(length) as u64);
        }
    }

    /// The gates K of starts of a length outside, or Q, W and K of each.
    fn outside_gates(&mut self, times: usize, shortest: usize, longest: usize) {
        if shortest == 1 {
            return self.length_gates(times, longest);
        }
        self.going_gates(times);
        for after in (1..=times).rev() {
            let ends = after.min(shortest - 1);
            self.gate((after.min(longest) - ends) as u64);
            self.gate(1 + ends as u64);
            self.gate(2);
        }
    }

    /// The gates F, P, G, Q and O of a gap.
    fn gap_gates(&mut self, times: usize, gap: Range) {
        let Ends { early, late } = Ends::of(times, gap);
        if early > 0 {
            self.gate(u64::from(gap.lo) + 1);
        }
        if late > 0 {
            self.gate((times - late) as u64);
        }
        // F after the first, P, G after the first, Q.
        for _ in 0..2 * early.saturating_sub(1) + late.saturating_sub(1) + late {
            self.gate(2);
        }
        self.gate((times + late) as u64);
    }

    fn tail(&mut self, bound: u64) {
        let mut first = true;
        let units = std::mem::take(&mut self.units);
        for &(rows, weight) in units.iter().filter(|(rows, _)| *rows > 0) {
            self.counter_rows(rows, weight, bound + 1, first);
            first = false;
        }
        if !first {
            self.clauses(1, 1);
        }
        self.units = units;
    }
}
