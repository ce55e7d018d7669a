//! Unit propagation with two watched literals a clause, needed clauses first.
//!
//! A clause's watched literals are its first two. A literal's list holds the
//! clauses that watch it, each with another of its literals: where that one is
//! true, the clause need not be looked at.

use super::arena::{Arena, Place};
use crate::solver::literal::Literal;
use std::mem;

#[derive(Clone, Copy, Debug, PartialEq, Eq)]
pub enum Value {
    Open,
    True,
    False,
}

#[derive(Clone, Copy)]
struct Watch {
    place: Place,
    blocker: Literal,
}

type Lists = Vec<Vec<Watch>>;

/// How a visit to one list ended.
enum Visit {
    Done,
    Unit,
    Conflict(Place),
}

pub struct Propagation {
    pub arena: Arena,
    /// The literals that hold, in the order in which they were set.
    pub trail: Vec<Literal>,
    /// The value of each literal.
    values: Vec<Value>,
    /// For each variable the clause that set it, and its place on the trail.
    reasons: Vec<Place>,
    positions: Vec<u32>,
    /// The watch lists of needed clauses, and of the others.
    core: Lists,
    others: Lists,
}

impl Propagation {
    pub fn new(variables: u32) -> Propagation {
        let variables = variables as usize + 1;
        Propagation {
            arena: Arena::default(),
            trail: Vec::new(),
            values: vec![Value::Open; 2 * variables],
            reasons: vec![Place::NONE; variables],
            positions: vec![0; variables],
            core: (0..2 * variables).map(|_| Vec::new()).collect(),
            others: (0..2 * variables).map(|_| Vec::new()).collect(),
        }
    }

    pub fn variables(&self) -> usize {
        self.reasons.len() - 1
    }

    pub fn value(&self, literal: Literal) -> Value {
        self.values[literal.index()]
    }

    /// The clause that set `variable`, or none for an assumption.
    pub fn reason(&self, variable: u32) -> Place {
        self.reasons[variable as usize]
    }

    /// The place of `variable` on the trail.
    pub fn position(&self, variable: u32) -> usize {
        self.positions[variable as usize] as usize
    }

    /// Sets an open literal true.
    pub fn assign(&mut self, literal: Literal, reason: Place) {
        self.values[literal.index()] = Value::True;
        self.values[(!literal).index()] = Value::False;
        self.reasons[literal.variable() as usize] = reason;
        self.positions[literal.variable() as usize] = self.trail.len() as u32;
        self.trail.push(literal);
    }

    /// Opens the literals of the trail from `length` on.
    pub fn undo(&mut self, length: usize) {
        for literal in self.trail.drain(length..) {
            self.values[literal.index()] = Value::Open;
            self.values[(!literal).index()] = Value::Open;
        }
    }

    /// Puts a clause of two or more literals on the lists of its first two.
    pub fn attach(&mut self, place: Place) {
        let [first, second] = [0, 1].map(|at| self.arena.literal(place, at));
        for (literal, blocker) in [(first, second), (second, first)] {
            self.others[literal.index()].push(Watch { place, blocker });
        }
    }

    /// Takes a clause that nothing needs yet off the lists of its first two.
    pub fn detach(&mut self, place: Place) {
        for at in [0, 1] {
            let list = &mut self.others[self.arena.literal(place, at).index()];
            if let Some(found) = list.iter().rposition(|watch| watch.place == place) {
                list.swap_remove(found);
            }
        }
    }

    /// Propagates the trail from `start` on, and gives a clause whose literals
    /// are all false if there is one. Before another clause than the needed
    /// ones is looked at, these have set all that they can.
    pub fn propagate(&mut self, start: usize) -> Option<Place> {
        let mut in_core = start;
        let mut in_others = start;
        let mut next = 0; // in the list of others at hand
        loop {
            while let Some(&literal) = self.trail.get(in_core) {
                in_core += 1;
                if let Some(conflict) = self.visit_core(!literal) {
                    return Some(conflict);
                }
            }
            let &literal = self.trail.get(in_others)?;
            match self.visit_others(!literal, &mut next) {
                Visit::Conflict(conflict) => return Some(conflict),
                Visit::Unit => {}
                Visit::Done => {
                    in_others += 1;
                    next = 0;
                }
            }
        }
    }

    /// Looks at the needed clauses that watch `falsified`.
    fn visit_core(&mut self, falsified: Literal) -> Option<Place> {
        let mut list = mem::take(&mut self.core[falsified.index()]);
        let mut next = 0;
        let mut conflict = None;
        while next < list.len() && conflict.is_none() {
            match self.look_at(&mut list[next], falsified) {
                Look::Keep | Look::Unit => next += 1,
                Look::Drop => drop(list.swap_remove(next)),
                Look::Conflict => conflict = Some(list[next].place),
            }
        }
        self.core[falsified.index()] = list;
        conflict
    }

    /// Looks at the other clauses that watch `falsified`, from `next` on, until
    /// one sets a literal. One that is needed by now changes its list.
    fn visit_others(&mut self, falsified: Literal, next: &mut usize) -> Visit {
        let mut list = mem::take(&mut self.others[falsified.index()]);
        let mut visit = Visit::Done;
        while *next < list.len() && matches!(visit, Visit::Done) {
            let look = self.look_at(&mut list[*next], falsified);
            let watch = list[*next];
            match look {
                Look::Keep => {}
                Look::Unit => visit = Visit::Unit,
                Look::Conflict => visit = Visit::Conflict(watch.place),
                Look::Drop => {
                    list.swap_remove(*next);
                    continue;
                }
            }
            if self.arena.is_core(watch.place) {
                self.core[falsified.index()].push(watch);
                list.swap_remove(*next);
            } else {
                *next += 1;
            }
        }
        self.others[falsified.index()] = list;
        visit
    }

    /// Looks at a clause one of whose watched literals is `falsified`.
    fn look_at(&mut self, watch: &mut Watch, falsified: Literal) -> Look {
        if self.value(watch.blocker) == Value::True {
            return Look::Keep;
        }
        let place = watch.place;
        if self.arena.is_gone(place) {
            return Look::Drop;
        }
        if self.arena.literal(place, 0) == falsified {
            self.arena.swap(place, 0, 1);
        }
        let other = self.arena.literal(place, 0);
        if self.value(other) == Value::True {
            watch.blocker = other;
            return Look::Keep;
        }
        for at in 2..self.arena.length(place) {
            let literal = self.arena.literal(place, at);
            if self.value(literal) != Value::False {
                self.arena.swap(place, 1, at);
                let lists = match self.arena.is_core(place) {
                    true => &mut self.core,
                    false => &mut self.others,
                };
                lists[literal.index()].push(Watch {
                    place,
                    blocker: other,
                });
                return Look::Drop;
            }
        }
        if self.value(other) == Value::False {
            return Look::Conflict;
        }
        self.assign(other, place);
        Look::Unit
    }
}

/// What a look at a clause did.
enum Look {
    /// The clause keeps its watch.
    Keep,
    /// The clause watches another literal, or is gone.
    Drop,
    /// The clause set its one open literal.
    Unit,
    /// All its literals are false.
    Conflict,
}
