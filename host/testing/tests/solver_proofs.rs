//! Refutations of random instances, spelt as solvers spell them, turned back
//! into steps: the engine accepts what comes out. Damaged ones never panic, and
//! what comes out of them is judged by the engine.
#![cfg(feature = "engine")]

use testing::generate::{damaged_bytes, encode, instance, Random, Shape};
use testing::prover::{clause_list, solve, Verdict};
use testing::reference::{Instance, Literal};
use testing::steps::{with_deletions, Step};
use timetable::engine;
use timetable::number::write_number;
use timetable::solver::formula::Formula;
use timetable::solver::proofs::{self, Form, Quiet, Steps};
use timetable::solver::{answers, dimacs, Fault};

/// An instance at a bound that nothing keeps, with a refutation.
struct Refuted {
    file: Vec<u8>,
    bound: u64,
    clauses: Vec<Vec<Literal>>,
    steps: Vec<Step>,
}

/// The refuted ones among `cases` random instances.
fn refuted(seed: u64, cases: usize) -> Vec<Refuted> {
    let mut random = Random::new(seed);
    let mut all = Vec::new();
    for case in 0..cases {
        let shape = match case % 3 {
            0 => Shape::small(),
            _ => Shape::tiny(),
        };
        let instance = instance(&mut random, &shape);
        let bound = random.below(6) as u64;
        let clauses = clause_list(&instance, Some(bound));
        let variables = variables(&clauses);
        if let Verdict::Refutation(steps) = solve(variables, &clauses) {
            all.push(Refuted {
                file: encode(&instance),
                bound,
                clauses,
                steps,
            });
        }
    }
    all
}

fn variables(clauses: &[Vec<Literal>]) -> usize {
    let largest = |clause: &Vec<Literal>| clause.iter().map(|l| l.variable()).max();
    clauses.iter().filter_map(largest).max().unwrap_or(0) as usize
}

impl Refuted {
    fn formula(&self) -> Formula {
        Formula::at_bound(&self.file, self.bound).expect("a formula")
    }

    fn turned(&self, proof: &[u8]) -> Result<Steps, Fault> {
        let formula = self.formula();
        proofs::steps(&formula, proof, &mut Quiet)
    }

    /// Turns a proof and has the engine accept it.
    fn accepted(&self, proof: &[u8], form: Form) -> Steps {
        assert_eq!(Form::of(proof), form);
        let steps = self.turned(proof).expect("a proof that can be turned");
        let checked = engine::check(&self.file, self.bound, &steps.bytes);
        assert!(checked.is_ok(), "{checked:?}");
        steps
    }

    /// The literals of the clause with this id.
    fn literals(&self, id: u32) -> &[Literal] {
        let added = |step: &'_ &Step| matches!(step, Step::Add { id: known, .. } if *known == id);
        match self.clauses.get(id as usize - 1) {
            Some(clause) => clause,
            None => match self.steps.iter().find(added) {
                Some(Step::Add { literals, .. }) => literals,
                _ => panic!("no clause has id {id}"),
            },
        }
    }

    /// The refutation as DRAT steps: whether each deletes, and its literals in
    /// an order of their own.
    fn drat(&self, random: &mut Random) -> Vec<(bool, Vec<Literal>)> {
        let mut all = Vec::new();
        for step in with_deletions(self.clauses.len(), &self.steps) {
            match step {
                Step::Add { literals, .. } => all.push((false, literals)),
                Step::Delete { ids } => {
                    all.extend(ids.iter().map(|&id| (true, self.literals(id).to_vec())));
                }
            }
            if random.chance(20) {
                let clause = &self.clauses[random.below(self.clauses.len())];
                all.push((false, clause.clone())); // one that is there already
            }
        }
        for (_, literals) in &mut all {
            for at in 1..literals.len() {
                literals.swap(at, random.below(at + 1));
            }
        }
        all
    }
}

fn signed(literal: Literal) -> String {
    let sign = if literal.is_negated() { "-" } else { "" };
    format!("{sign}{} ", literal.variable())
}

fn drat_text(steps: &[(bool, Vec<Literal>)]) -> Vec<u8> {
    let mut text = String::new();
    for (deletes, literals) in steps {
        text += if *deletes { "d " } else { "" };
        text.extend(literals.iter().map(|&literal| signed(literal)));
        text += "0\n";
    }
    text.into_bytes()
}

fn drat_binary(steps: &[(bool, Vec<Literal>)]) -> Vec<u8> {
    let mut bytes = Vec::new();
    for (deletes, literals) in steps {
        bytes.push(if *deletes { b'd' } else { b'a' });
        for literal in literals {
            write_number(literal.code(), &mut bytes);
        }
        bytes.push(0);
    }
    bytes
}

/// Hints as a solver may give them: some twice, some out of order, some more.
fn loose(random: &mut Random, hints: &[u32], clauses: usize) -> Vec<u32> {
    let mut loose = hints.to_vec();
    if random.chance(50) {
        loose.reverse();
    }
    if random.chance(50) {
        loose.push(1 + random.below(clauses) as u32);
        loose.push(hints[0]);
    }
    loose
}

fn lrat_text(random: &mut Random, clauses: usize, steps: &[Step]) -> Vec<u8> {
    let mut text = String::from("c made for a test\n");
    let mut last = clauses as u32;
    for step in steps {
        let ids = match step {
            Step::Add {
                id,
                literals,
                hints,
            } => {
                last = *id;
                text += &format!("{id} ");
                text.extend(literals.iter().map(|&literal| signed(literal)));
                text += "0 ";
                loose(random, hints, clauses)
            }
            Step::Delete { ids } => {
                text += &format!("{last} d ");
                ids.clone()
            }
        };
        text.extend(ids.iter().map(|id| format!("{id} ")));
        text += "0\n";
    }
    text.into_bytes()
}

/// Binary LRAT; the ids of added clauses, hints and deletions are times these.
fn lrat_binary(random: &mut Random, clauses: usize, steps: &[Step], times: [u32; 3]) -> Vec<u8> {
    let mut bytes = Vec::new();
    for step in steps {
        let (ids, times) = match step {
            Step::Add {
                id,
                literals,
                hints,
            } => {
                bytes.push(b'a');
                write_number(id * times[0], &mut bytes);
                for literal in literals {
                    write_number(literal.code(), &mut bytes);
                }
                bytes.push(0);
                (loose(random, hints, clauses), times[1])
            }
            Step::Delete { ids } => {
                bytes.push(b'd');
                (ids.clone(), times[2])
            }
        };
        for id in ids {
            write_number(id * times, &mut bytes);
        }
        bytes.push(0);
    }
    bytes
}

#[test]
fn the_clauses_are_those_of_the_reference() {
    let mut random = Random::new(1);
    let same = |instance: &Instance, bound: Option<u64>| {
        let file = encode(instance);
        let formula = match bound {
            Some(bound) => Formula::at_bound(&file, bound),
            None => Formula::of(&file),
        };
        let formula = formula.expect("a formula");
        let codes: Vec<Vec<u32>> = formula
            .clauses
            .iter()
            .map(|clause| clause.iter().map(|literal| literal.code()).collect())
            .collect();
        let expected: Vec<Vec<u32>> = clause_list(instance, bound)
            .iter()
            .map(|clause| clause.iter().map(|literal| literal.code()).collect())
            .collect();
        assert_eq!(codes, expected);
        let text = String::from_utf8(dimacs::text(&formula)).expect("text");
        assert_eq!(text.lines().count(), 1 + expected.len());
    };
    for case in 0..120 {
        let shape = [Shape::tiny(), Shape::small()][case % 2].clone();
        let instance = instance(&mut random, &shape);
        same(&instance, None);
        for bound in [0, 1 + random.below(9), 40] {
            same(&instance, Some(bound as u64));
        }
    }
}

#[test]
fn proofs_without_hints_are_turned() {
    let mut random = Random::new(2);
    let all = refuted(3, 150);
    assert!(all.len() > 40, "{} refuted", all.len());
    let mut longest = 0;
    for refuted in &all {
        let drat = refuted.drat(&mut random);
        let text = refuted.accepted(&drat_text(&drat), Form::DratText);
        let binary = refuted.accepted(&drat_binary(&drat), Form::DratBinary);
        assert_eq!(text, binary);
        longest = longest.max(text.kept);
    }
    assert!(longest > 50, "the longest proof keeps {longest} clauses");
    println!(
        "{} refutations, the longest of {longest} clauses",
        all.len()
    );
}

#[test]
fn proofs_with_hints_are_turned() {
    let mut random = Random::new(4);
    for refuted in &refuted(5, 90) {
        let clauses = refuted.clauses.len();
        let steps = with_deletions(clauses, &refuted.steps);
        let text = lrat_text(&mut random, clauses, &steps);
        let kept = refuted.accepted(&text, Form::LratText);
        assert_eq!(kept.lemmas, refuted.steps.len());
        for numbering in 0..8 {
            let times = [4, 1, 2].map(|bit| if numbering & bit != 0 { 2 } else { 1 });
            let binary = lrat_binary(&mut random, clauses, &steps, times);
            let turned = refuted.turned(&binary).expect("a proof that can be turned");
            let checked = engine::check(&refuted.file, refuted.bound, &turned.bytes);
            assert!(checked.is_ok(), "numbering {times:?}: {checked:?}");
        }
    }
}

#[test]
fn what_does_not_follow_is_refused_by_name() {
    // The tail at bound 4 allows every timetable of file A, which costs 4.
    let file = [1, 1, 0, 1, 0, 1, 0, 1, 3, 4, 1, 1];
    let formula = Formula::at_bound(&file, 4).expect("a formula");
    let said = |proof: &[u8]| match proofs::steps(&formula, proof, &mut Quiet) {
        Err(Fault::Other(words)) => words,
        other => panic!("{other:?}"),
    };
    for rat in [
        &b"-1 0\n0\n"[..],
        b"-4 -9 0\n-4 0\n0\n",
        b"10 0\n0\n",
        b"a\x03\0a\0",
        b"19 10 0 0\n",
        b"19 -1 0 -3 4 0\n20 0 19 5 0\n",
    ] {
        let words = said(rat);
        assert!(words.contains("RAT"), "{words}");
    }
    let open = said(b"19 -1 0 3 0\n20 0 19 5 0\n");
    assert!(open.contains("does not follow by its hints"), "{open}");
    let cut = said(b"d 1 2 0\n");
    assert!(cut.contains("no conflict"), "{cut}");
    let cut = said(b"19 3 0 5 0\n");
    assert!(cut.contains("no empty clause"), "{cut}");
    let again = said(b"5 3 0 5 0\n");
    assert!(again.contains("there is already"), "{again}");
}

#[test]
fn damaged_proofs_never_panic_and_never_prove_too_much() {
    let mut random = Random::new(6);
    let all = refuted(7, 60);
    // The same instances at a bound that some timetable keeps.
    let kept: Vec<Option<u64>> = all.iter().map(kept_bound).collect();
    assert!(kept.iter().any(Option::is_some));
    let mut turned = 0;
    for case in 0..3_000 {
        let refuted = &all[case % all.len()];
        let clauses = refuted.clauses.len();
        let drat = refuted.drat(&mut random);
        let proof = match case % 4 {
            0 => drat_text(&drat),
            1 => drat_binary(&drat),
            2 => lrat_text(&mut random, clauses, &refuted.steps),
            _ => lrat_binary(&mut random, clauses, &refuted.steps, [1, 1, 1]),
        };
        let damaged = damaged_bytes(&mut random, &proof);
        if let Ok(steps) = refuted.turned(&damaged) {
            let checked = engine::check(&refuted.file, refuted.bound, &steps.bytes);
            assert!(checked.is_ok(), "{checked:?}");
            turned += 1;
        }
        if let Some(bound) = kept[case % all.len()] {
            let formula = Formula::at_bound(&refuted.file, bound).expect("a formula");
            let steps = proofs::steps(&formula, &damaged, &mut Quiet);
            assert!(steps.is_err(), "a proof against a satisfiable formula");
        }
    }
    println!("{turned} of 3000 damaged proofs are still proofs");
}

/// The bound 40, if some timetable keeps it.
fn kept_bound(refuted: &Refuted) -> Option<u64> {
    let instance = Instance::read(&refuted.file).expect("an accepted file");
    let bound = 40;
    let clauses = clause_list(&instance, Some(bound));
    let verdict = solve(variables(&clauses), &clauses);
    matches!(verdict, Verdict::Model(_)).then_some(bound)
}

#[test]
fn damaged_answers_never_panic() {
    let output = b"c x\ns SATISFIABLE\nv 1 -2 3 -4\nv 5 0\no 3\nSAT\n1 -2 3 0\nv 01101\n\
                   (define-fun k!1 () Bool\n  true)\n";
    let mut random = Random::new(8);
    let mut models = 0;
    for _ in 0..20_000 {
        let damaged = damaged_bytes(&mut random, output);
        if let Ok(model) = answers::model(&damaged, 5) {
            assert_eq!(model.len(), 5);
            assert!(model.iter().all(|&byte| byte <= 1));
            models += 1;
        }
    }
    assert!(models > 0);
}
