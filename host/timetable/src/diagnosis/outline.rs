//! The outline of a formula: its pieces in the order of their clauses, with how
//! many variables and clauses each has. So a clause's id can be told in words,
//! and a formula that is too large can be counted.

use crate::instance::{Constraint, Instance, Kind, Range, Reach};

/// How much a piece brings in.
#[derive(Clone, Copy, Debug, Default, PartialEq, Eq)]
pub struct Size {
    pub variables: u64,
    pub clauses: u64,
}

/// The pieces of the hard clauses, and the weights of the soft units.
pub struct Outline {
    pieces: Vec<Piece>,
    weights: Vec<u32>,
}

/// Some clauses of one purpose. Events, times, resources, groups and
/// constraints are indices from 0.
#[derive(Clone, Copy, Debug, PartialEq, Eq)]
pub struct Piece {
    pub owner: Owner,
    pub purpose: Purpose,
}

/// What a piece belongs to: the blocks of the formula.
#[derive(Clone, Copy, Debug, PartialEq, Eq)]
pub enum Owner {
    /// Block 1: what a timetable is.
    Starts { event: usize },
    /// Block 2: when a resource is used.
    Uses { resource: usize },
    /// Block 3: how many times an event takes.
    Duration { event: usize },
    /// Block 4.
    Constraint { index: usize },
}

#[derive(Clone, Copy, Debug, PartialEq, Eq)]
pub enum Purpose {
    /// The two clauses of a time in block 1.
    Start { time: usize },
    /// A variable that is the OR of so many literals; of a time or of a group.
    AnyOf { place: Place, inputs: usize },
    /// The three variables of one member of a group, for kind 8.
    Idle { time: usize, members: usize },
    /// The variable that says whether the subevent before goes on at this time,
    /// for kinds 3, 9 and 10; after the last time it has no inputs.
    GoesOn { time: usize, inputs: usize },
    /// The variable that says whether a subevent that started outside of the group
    /// goes on at this time, for kind 3.
    Carried { time: usize },
    /// The variable that says whether such a subevent starts or goes on at this
    /// time, for kind 3.
    Held { time: usize },
    /// The variable of a start at this time with a counted length, for kinds 9
    /// and 10: the AND of so many literals.
    Counted { time: usize, inputs: usize },
    /// The three variables of a start at this time, for kind 10 with a shortest
    /// above 1: `longer` and `shorter` are how many later times the first two look at.
    Outside {
        time: usize,
        longer: usize,
        shorter: usize,
    },
    /// The variable that says whether the second event has begun by this time, for
    /// kind 11: the OR of so many literals.
    Begun { time: usize, inputs: usize },
    /// The variable that says whether the first event takes this time and the second
    /// has begun too soon after it, for kind 11.
    TooSoon { time: usize },
    /// The variable that says whether the first event goes on after this time, for
    /// kind 11: the OR of so many literals.
    Lasting { time: usize, inputs: usize },
    /// The variable that says whether the first event is over by this time and the
    /// second has not begun soon enough after it, for kind 11.
    TooLate { time: usize },
    /// The variable that says whether the gap lies outside, for kind 11: the OR of so
    /// many literals.
    GapOutside { inputs: usize },
    /// A counter, of one time for kind 1.
    Counter {
        time: Option<usize>,
        rows: usize,
        columns: usize,
    },
    /// The variable for a count from 1 to j − 1, for kind 6.
    Shortage { j: usize },
    /// The unit that holds the count up to lo, or that forbids a shortage.
    AtLeast { time: Option<usize>, lo: usize },
    /// The unit that holds the count down to hi.
    AtMost { time: Option<usize>, hi: usize },
}

#[derive(Clone, Copy, Debug, PartialEq, Eq)]
pub enum Place {
    Time(usize),
    Group(usize),
}

impl Purpose {
    pub fn size(self) -> Size {
        let (variables, clauses) = match self {
            Purpose::Start { .. } => (2, 2),
            Purpose::AnyOf { inputs, .. } => (1, inputs + 1),
            Purpose::Idle { members, .. } => (3, members + 5),
            Purpose::GoesOn { inputs, .. }
            | Purpose::Counted { inputs, .. }
            | Purpose::Begun { inputs, .. }
            | Purpose::Lasting { inputs, .. }
            | Purpose::GapOutside { inputs } => (1, inputs + 1),
            Purpose::Carried { .. }
            | Purpose::Held { .. }
            | Purpose::TooSoon { .. }
            | Purpose::TooLate { .. } => (1, 3),
            Purpose::Outside {
                longer, shorter, ..
            } => (3, longer + shorter + 6),
            Purpose::Counter { rows: 0, .. } => (0, 0),
            Purpose::Counter { rows, columns, .. } => {
                (rows * columns, 2 * columns + (rows - 1) * (4 * columns - 1))
            }
            Purpose::Shortage { .. } => (1, 3),
            Purpose::AtLeast { .. } | Purpose::AtMost { .. } => (0, 1),
        };
        Size {
            variables: variables as u64,
            clauses: clauses as u64,
        }
    }
}

/// A clause of the formula: its piece, and its place in it from 0.
#[derive(Clone, Copy, Debug, PartialEq, Eq)]
pub struct Clause {
    pub piece: Piece,
    pub place: u64,
}

impl Outline {
    pub fn of(instance: &Instance) -> Outline {
        let mut outline = Outline {
            pieces: Vec::new(),
            weights: Vec::new(),
        };
        outline.starts(instance);
        outline.uses(instance);
        for (event, fields) in instance.events.iter().enumerate() {
            let range = Range {
                lo: fields.duration,
                hi: fields.duration,
            };
            let owner = Owner::Duration { event };
            outline.counted(owner, None, instance.times, range, 0);
        }
        for (index, constraint) in instance.constraints.iter().enumerate() {
            outline.constraint(instance, index, constraint);
        }
        outline
    }

    /// The size of the hard clauses.
    pub fn size(&self) -> Size {
        self.pieces.iter().fold(Size::default(), |sum, piece| {
            let size = piece.purpose.size();
            Size {
                variables: sum.variables + size.variables,
                clauses: sum.clauses + size.clauses,
            }
        })
    }

    /// The size of the tail for `bound`.
    pub fn tail(&self, bound: u64) -> Size {
        let columns = bound + 1;
        let Some((_, further)) = self.weights.split_first() else {
            return Size::default();
        };
        // In a further row, b is constant in the columns up to the weight.
        let constant = |&weight: &u32| columns.min(u64::from(weight));
        let further = further.iter().map(|weight| 4 * columns - constant(weight));
        Size {
            variables: self.weights.len() as u64 * columns,
            clauses: 2 * columns + further.sum::<u64>() + 1,
        }
    }

    /// The hard clause `id`, from 1.
    pub fn clause(&self, id: u64) -> Option<Clause> {
        let mut place = id.checked_sub(1)?;
        for &piece in &self.pieces {
            let clauses = piece.purpose.size().clauses;
            if place < clauses {
                return Some(Clause { piece, place });
            }
            place -= clauses;
        }
        None
    }

    fn starts(&mut self, instance: &Instance) {
        for event in 0..instance.events.len() {
            for time in 0..instance.times {
                self.push(Owner::Starts { event }, Purpose::Start { time });
            }
        }
    }

    fn uses(&mut self, instance: &Instance) {
        for resource in 0..instance.resources {
            let inputs = instance.counted_length(&Kind::Clash { resource });
            for time in 0..instance.times {
                let place = Place::Time(time);
                self.push(Owner::Uses { resource }, Purpose::AnyOf { place, inputs });
            }
        }
    }

    fn constraint(&mut self, instance: &Instance, index: usize, constraint: &Constraint) {
        let owner = Owner::Constraint { index };
        let Constraint { weight, kind } = constraint;
        let length = instance.counted_length(kind);
        match kind {
            Kind::Clash { .. } => {
                for time in 0..instance.times {
                    self.counted(owner, Some(time), length, kind.range(), *weight);
                }
                return;
            }
            Kind::PreferredTimes { event, group } => {
                for reach in instance.reach(*event, *group) {
                    self.held(owner, reach);
                }
            }
            Kind::BusyLimit { .. } => {
                return self.busy_limit(owner, length, kind.range(), *weight);
            }
            Kind::Cluster { groups, .. } => {
                for &group in groups {
                    let inputs = instance.groups[group].len();
                    let place = Place::Group(group);
                    self.push(owner, Purpose::AnyOf { place, inputs });
                }
            }
            Kind::Idle { groups, .. } => {
                for &group in groups {
                    let group = &instance.groups[group];
                    for &time in group.iter().skip(1).take(group.len().saturating_sub(2)) {
                        let members = group.len();
                        self.push(owner, Purpose::Idle { time, members });
                    }
                }
            }
            Kind::Distribute { length, .. } => self.lengths(owner, instance.times, 1, *length),
            Kind::Lengths {
                shortest, longest, ..
            } => self.lengths(owner, instance.times, *shortest, *longest),
            Kind::Precedence { lo, hi, .. } => self.precedence(owner, instance.times, *lo, *hi),
            _ => {}
        }
        self.counted(owner, None, length, kind.range(), *weight);
    }

    /// What kind 3 brings in for a time before its counter: nothing where a subevent
    /// can only start.
    fn held(&mut self, owner: Owner, reach: Reach) {
        let time = reach.time;
        if reach.reachable {
            self.push(owner, Purpose::GoesOn { time, inputs: 2 });
            self.push(owner, Purpose::Carried { time });
        }
        if reach.reachable && reach.outside {
            self.push(owner, Purpose::Held { time });
        }
    }

    /// What kinds 9 and 10 bring in before their counter. A start of one length
    /// looks at as many times as one longer than `longest`.
    fn lengths(&mut self, owner: Owner, times: usize, shortest: usize, longest: usize) {
        for time in 1..=times {
            let inputs = if time < times { 2 } else { 0 };
            self.push(owner, Purpose::GoesOn { time, inputs });
        }
        for time in 0..times {
            let after = |length: usize| length.min(times - time);
            let shorter = after(shortest - 1);
            let purpose = match shortest {
                1 => Purpose::Counted {
                    time,
                    inputs: 1 + after(longest),
                },
                _ => Purpose::Outside {
                    time,
                    longer: after(longest) - shorter,
                    shorter,
                },
            };
            self.push(owner, purpose);
        }
    }

    /// What kind 11 brings in before its counter. `early` is how many of the times leave
    /// `lo` and one more after them, `late` how many leave more than `hi` and one more.
    fn precedence(&mut self, owner: Owner, times: usize, lo: usize, hi: usize) {
        let early = times.saturating_sub(1 + lo);
        let late = times.saturating_sub(2 + hi);
        for time in 0..early {
            let inputs = if time == 0 { lo + 1 } else { 2 };
            let time = time + lo;
            self.push(owner, Purpose::Begun { time, inputs });
        }
        for time in 1..early {
            self.push(owner, Purpose::TooSoon { time });
        }
        for time in (0..late).rev() {
            let inputs = if time + 1 == late { times - late } else { 2 };
            self.push(owner, Purpose::Lasting { time, inputs });
        }
        for time in 0..late {
            self.push(owner, Purpose::TooLate { time });
        }
        // One for each time: F for the first, P up to `early`, then the time itself; and each Q.
        let inputs = times + late;
        self.push(owner, Purpose::GapOutside { inputs });
    }

    /// A counter with its bounds; `weight` is 0 if they are hard.
    fn counted(
        &mut self,
        owner: Owner,
        time: Option<usize>,
        rows: usize,
        range: Range,
        weight: u32,
    ) {
        let Range { lo, hi } = range;
        let hi = hi.min(rows);
        self.counter(owner, time, rows, hi, weight);
        if weight == 0 && lo >= 1 {
            self.push(owner, Purpose::AtLeast { time, lo });
        }
        if weight > 0 {
            self.soft(lo, weight);
        }
        self.at_most(owner, time, rows, hi, weight);
    }

    fn busy_limit(&mut self, owner: Owner, rows: usize, range: Range, weight: u32) {
        let Range { lo, hi } = range;
        let hi = hi.min(rows);
        self.counter(owner, None, rows, hi, weight);
        for j in 2..=lo {
            self.push(owner, Purpose::Shortage { j });
            match weight {
                0 => self.push(owner, Purpose::AtLeast { time: None, lo: j }),
                _ => self.soft(1, weight),
            }
        }
        self.at_most(owner, None, rows, hi, weight);
    }

    fn counter(&mut self, owner: Owner, time: Option<usize>, rows: usize, hi: usize, weight: u32) {
        let columns = match weight {
            0 => rows.min(hi + 1),
            _ => rows,
        };
        let counter = Purpose::Counter {
            time,
            rows,
            columns,
        };
        self.push(owner, counter);
    }

    fn at_most(&mut self, owner: Owner, time: Option<usize>, rows: usize, hi: usize, weight: u32) {
        match weight {
            0 if hi < rows => self.push(owner, Purpose::AtMost { time, hi }),
            0 => {}
            _ => self.soft(rows - hi, weight),
        }
    }

    fn soft(&mut self, units: usize, weight: u32) {
        self.weights.extend(std::iter::repeat_n(weight, units));
    }

    fn push(&mut self, owner: Owner, purpose: Purpose) {
        self.pieces.push(Piece { owner, purpose });
    }
}
