//! A small prover: conflict-driven search that finds a model of clauses, or
//! emits a refutation as steps of a bound proof.

use crate::generate::Random;
use crate::reference::{walk, walk_with_tail, Instance, Literal, Sink};
use crate::steps::Step;

/// The hard clauses, with the tail's if a bound is given; the clause at index i
/// has id i + 1.
pub fn clause_list(instance: &Instance, bound: Option<u64>) -> Vec<Vec<Literal>> {
    struct List(Vec<Vec<Literal>>);

    impl Sink for List {
        fn hard(&mut self, clause: &[Literal]) {
            self.0.push(clause.to_vec());
        }

        fn soft(&mut self, _weight: u32, _unit: Literal) {}
    }

    let mut list = List(Vec::new());
    match bound {
        Some(bound) => walk_with_tail(instance, bound, &mut list),
        None => walk(instance, &mut list),
    }
    list.0
}

pub enum Verdict {
    /// The values of variables 1, 2, ...
    Model(Vec<bool>),
    /// Steps that end with the empty clause.
    Refutation(Vec<Step>),
}

/// Finds a model of `clauses` or refutes them. The clause at index i has id i + 1.
pub fn solve(variables: usize, clauses: &[Vec<Literal>]) -> Verdict {
    let (mut search, mut conflict) = Search::of(variables, clauses);
    let mut steps = Vec::new();
    loop {
        match conflict.take().or_else(|| search.propagate()) {
            Some(index) => {
                conflict = search.learn(index, &mut steps);
                if search.refuted {
                    return Verdict::Refutation(steps);
                }
            }
            None => match (1..=variables).find(|&v| search.holds[v].is_none()) {
                Some(variable) => search.decide(Literal::positive(variable as u32)),
                None => {
                    let values = search.holds[1..].iter().map(|value| *value == Some(true));
                    return Verdict::Model(values.collect());
                }
            },
        }
    }
}

/// The clauses that a search learns which decides the first `decided` variables
/// at random, until they have so many hints or one is empty.
pub fn lemmas(
    random: &mut Random,
    [variables, decided]: [usize; 2],
    clauses: &[Vec<Literal>],
    hints: usize,
) -> Vec<Step> {
    let (mut search, mut conflict) = Search::of(variables, clauses);
    let mut steps = Vec::new();
    let mut given = 0;
    while given < hints && !search.refuted {
        if let Some(index) = conflict.take().or_else(|| search.propagate()) {
            conflict = search.learn(index, &mut steps);
            given += steps.last().map_or(0, |step| step.hints().len());
            continue;
        }
        let from = random.below(decided);
        let all = (0..decided).map(|at| 1 + (from + at) % decided);
        match all
            .chain(1..=variables)
            .find(|&v| search.holds[v].is_none())
        {
            Some(variable) => {
                let literal = Literal::positive(variable as u32);
                search.decide(if random.chance(50) { literal } else { !literal });
            }
            None => search.backtrack(0), // a model
        }
    }
    steps
}

/// The state of the search. Arrays over variables have an unused entry 0.
struct Search {
    clauses: Vec<Vec<Literal>>,
    /// For each literal code, the clauses that hold the literal.
    occurrences: Vec<Vec<usize>>,
    holds: Vec<Option<bool>>,
    levels: Vec<usize>,
    reasons: Vec<Option<usize>>,
    /// True literals in the order they were set.
    trail: Vec<Literal>,
    /// The length of the trail before each decision.
    decisions: Vec<usize>,
    propagated: usize,
    /// Whether the empty clause was learned.
    refuted: bool,
}

struct Learned {
    literals: Vec<Literal>,
    hints: Vec<u32>,
    /// The level at which the learned clause has one open literal.
    level: usize,
}

impl Search {
    /// A search over `clauses`, with the index of a false one if there is one.
    fn of(variables: usize, clauses: &[Vec<Literal>]) -> (Search, Option<usize>) {
        let mut search = Search {
            clauses: Vec::new(),
            occurrences: vec![Vec::new(); 2 * (variables + 1)],
            holds: vec![None; variables + 1],
            levels: vec![0; variables + 1],
            reasons: vec![None; variables + 1],
            trail: Vec::new(),
            decisions: Vec::new(),
            propagated: 0,
            refuted: false,
        };
        let mut conflict = None;
        for clause in clauses {
            conflict = conflict.or(search.add(clause.clone()));
        }
        (search, conflict)
    }

    /// Learns a clause from the false one at `index`. Gives the new clause's
    /// index if it is false too.
    fn learn(&mut self, index: usize, steps: &mut Vec<Step>) -> Option<usize> {
        let learned = self.analyze(index);
        steps.push(Step::Add {
            id: self.clauses.len() as u32 + 1,
            literals: learned.literals.clone(),
            hints: learned.hints,
        });
        self.refuted = learned.literals.is_empty();
        if self.refuted {
            return None;
        }
        self.backtrack(learned.level);
        self.add(learned.literals)
    }

    fn value(&self, literal: Literal) -> Option<bool> {
        self.holds[literal.variable() as usize].map(|value| value != literal.is_negated())
    }

    fn set(&mut self, literal: Literal, reason: Option<usize>) {
        let variable = literal.variable() as usize;
        self.holds[variable] = Some(!literal.is_negated());
        self.levels[variable] = self.decisions.len();
        self.reasons[variable] = reason;
        self.trail.push(literal);
    }

    fn decide(&mut self, literal: Literal) {
        self.decisions.push(self.trail.len());
        self.set(literal, None);
    }

    /// Adds a clause and visits it. Gives its index if it is false.
    fn add(&mut self, clause: Vec<Literal>) -> Option<usize> {
        let index = self.clauses.len();
        for literal in &clause {
            self.occurrences[literal.code() as usize].push(index);
        }
        self.clauses.push(clause);
        self.visit(index)
    }

    /// Sets the only open literal of a clause whose others are false. Gives
    /// the index if all are false.
    fn visit(&mut self, index: usize) -> Option<usize> {
        let mut open = None;
        for &literal in &self.clauses[index] {
            match self.value(literal) {
                Some(false) => {}
                None if open.is_none() => open = Some(literal),
                _ => return None,
            }
        }
        match open {
            Some(literal) => {
                self.set(literal, Some(index));
                None
            }
            None => Some(index),
        }
    }

    /// Unit propagation. Gives a clause whose literals are all false.
    fn propagate(&mut self) -> Option<usize> {
        while let Some(&literal) = self.trail.get(self.propagated) {
            self.propagated += 1;
            let code = (!literal).code() as usize;
            for position in 0..self.occurrences[code].len() {
                let index = self.occurrences[code][position];
                if let Some(conflict) = self.visit(index) {
                    return Some(conflict);
                }
            }
        }
        None
    }

    /// Learns the clause of the first unique implication point. Literals set
    /// without a decision are resolved away. The hints are the reasons used,
    /// in the order of the trail, then the false clause.
    fn analyze(&self, conflict: usize) -> Learned {
        let current = self.decisions.len();
        let mut seen = vec![false; self.holds.len()];
        let mut unresolved = 0; // seen at the current level, not yet passed
        let mut literals = Vec::new();
        let mut hints = vec![conflict as u32 + 1];
        let mut level = 0;
        let mut clause = &self.clauses[conflict];
        let mut trail = self.trail.iter().rev();
        loop {
            for literal in clause {
                let variable = literal.variable() as usize;
                if !seen[variable] {
                    seen[variable] = true;
                    unresolved += usize::from(self.levels[variable] == current);
                }
            }
            let reason = loop {
                let Some(&literal) = trail.next() else {
                    hints.reverse();
                    return Learned {
                        literals,
                        hints,
                        level,
                    };
                };
                let variable = literal.variable() as usize;
                if !seen[variable] {
                    continue;
                }
                let at = self.levels[variable];
                let kept = at > 0 && (at < current || unresolved == 1);
                unresolved -= usize::from(at == current);
                match self.reasons[variable] {
                    Some(reason) if !kept => break reason,
                    _ => literals.push(!literal),
                }
                if at < current {
                    level = level.max(at);
                }
            };
            hints.push(reason as u32 + 1);
            clause = &self.clauses[reason];
        }
    }

    fn backtrack(&mut self, level: usize) {
        if let Some(&length) = self.decisions.get(level) {
            for literal in self.trail.drain(length..) {
                self.holds[literal.variable() as usize] = None;
            }
            self.decisions.truncate(level);
        }
        self.propagated = self.propagated.min(self.trail.len());
    }
}
