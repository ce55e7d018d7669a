//! Forged variants of a refutation, with the answer that each one earns.

use crate::generate::Random;
use crate::reference::{Literal, Refusal, ADD, DELETE};
use crate::steps::{encode_steps, with_deletions, with_gaps, Step};

/// A changed refutation and the answer it earns in ample stores.
pub struct Forgery {
    pub name: &'static str,
    pub proof: Vec<u8>,
    pub answer: Result<u64, Refusal>,
}

/// Changed variants of a refutation by `solve` for a formula of `variables`
/// and `formula` clauses. Most change one random step.
pub fn forgeries(
    random: &mut Random,
    variables: usize,
    formula: usize,
    steps: &[Step],
) -> Vec<Forgery> {
    let at = random.below(steps.len());
    let Step::Add {
        id,
        literals,
        hints,
    } = &steps[at]
    else {
        panic!("solve emits no deletion");
    };
    let mut forger = Forger {
        steps,
        formula,
        at,
        id: *id,
        literals,
        hints,
        hint: random.below(hints.len()),
        forged: Vec::new(),
    };
    forger.whole(random.pick(&[0, ADD, DELETE, 255]));
    forger.reordered();
    forger.hints();
    forger.ids();
    forger.literals(variables);
    forger.around();
    forger.forged
}

/// A refutation with the step that is changed.
struct Forger<'a> {
    steps: &'a [Step],
    /// How many clauses the formula has.
    formula: usize,
    /// The index of the step, and its parts.
    at: usize,
    id: u32,
    literals: &'a [Literal],
    hints: &'a [u32],
    /// The index of one of its hints.
    hint: usize,
    forged: Vec<Forgery>,
}

impl Forger<'_> {
    fn forge(&mut self, name: &'static str, proof: Vec<u8>, answer: Result<u64, Refusal>) {
        self.forged.push(Forgery {
            name,
            proof,
            answer,
        });
    }

    /// A proof that earns a refusal at the step.
    fn refused_here(&mut self, name: &'static str, proof: Vec<u8>, number: u32) {
        self.forge(name, proof, refused(number, self.at as u64 + 1));
    }

    /// The number of steps.
    fn count(&self) -> u64 {
        self.steps.len() as u64
    }

    /// The proof with other parts of the step.
    fn with(&self, id: u32, literals: &[Literal], hints: &[u32]) -> Vec<u8> {
        let mut changed = self.steps.to_vec();
        changed[self.at] = Step::Add {
            id,
            literals: literals.to_vec(),
            hints: hints.to_vec(),
        };
        encode_steps(&changed)
    }

    /// Changes of the whole proof.
    fn whole(&mut self, byte: u8) {
        let (steps, count) = (self.steps, self.count());
        let honest = encode_steps(steps);
        let longer = [&honest[..], &[byte]].concat();
        self.forge("a byte after the empty clause", longer, refused(18, count));
        let shorter = honest[..honest.len() - 1].to_vec();
        self.forge("the last byte missing", shorter, refused(14, count));
        let fewer = encode_steps(&steps[..steps.len() - 1]);
        self.forge("the last step missing", fewer, refused(18, count - 1));
        let gaps = encode_steps(&with_gaps(self.formula, steps, 5));
        self.forge("gaps between ids", gaps, Ok(count));
        let deleting = with_deletions(self.formula, steps);
        self.forge(
            "clauses deleted after their last use",
            encode_steps(&deleting),
            Ok(deleting.len() as u64),
        );
        let empty = Step::Add {
            id: self.formula as u32 + 1,
            literals: vec![],
            hints: vec![1],
        };
        self.forge(
            "only the empty clause, by a clause with open literals",
            encode_steps(&[empty]),
            refused(16, 1),
        );
        let twice = Step::Delete { ids: vec![1, 1] };
        let twice = encode_steps(&[&[twice], steps].concat());
        self.forge("a deletion named twice", twice, refused(15, 1));
    }

    fn reordered(&mut self) {
        let reversed: Vec<Literal> = self.literals.iter().rev().copied().collect();
        let proof = self.with(self.id, &reversed, self.hints);
        self.forge("literals in another order", proof, Ok(self.count()));
    }

    /// Changes of the step's hints.
    fn hints(&mut self) {
        let (hints, hint) = (self.hints, self.hint);
        let changed = |forger: &Self, hints: &[u32]| forger.with(forger.id, forger.literals, hints);
        let proof = changed(self, &[]);
        self.refused_here("no hints", proof, 16);
        let proof = changed(self, &hints[..hints.len() - 1]);
        self.refused_here("the last hint missing", proof, 16);
        // Every reason that `solve` lists is needed by a later hint.
        let fewer = [&hints[..hint], &hints[hint + 1..]].concat();
        let proof = changed(self, &fewer);
        self.refused_here("a hint missing", proof, 16);
        // The second time the clause has a true literal, or it was all false before.
        let with = |more: u32| [&hints[..hint], &[more], &hints[hint..]].concat();
        let proof = changed(self, &with(hints[hint]));
        self.refused_here("a hint given twice", proof, 16);
        for (name, unknown) in [
            ("its own id as a hint", self.id),
            ("an unknown id as a hint", u32::MAX),
        ] {
            let proof = changed(self, &with(unknown));
            self.refused_here(name, proof, 15);
        }
    }

    fn ids(&mut self) {
        for (name, wrong) in [("an id used before", self.id - 1), ("id 0", 0)] {
            let proof = self.with(wrong, self.literals, self.hints);
            self.refused_here(name, proof, 14);
        }
    }

    /// A literal more.
    fn literals(&mut self, variables: usize) {
        let mut extra = Vec::new();
        if let Some(&literal) = self.literals.first() {
            extra.extend([("a literal twice", literal), ("both signs", !literal)]);
        }
        let above = Literal::positive(variables as u32 + 1);
        extra.push(("a variable above the last", above));
        for (name, literal) in extra {
            let more = [self.literals, &[literal]].concat();
            let proof = self.with(self.id, &more, self.hints);
            self.refused_here(name, proof, 14);
        }
    }

    /// Changes around the step.
    fn around(&mut self) {
        let (at, count) = (self.at, self.count());
        let before = encode_steps(&self.steps[..at]);
        let step = encode_steps(&self.steps[at..=at]);
        let after = encode_steps(&self.steps[at + 1..]);
        let dead = encode_steps(&[Step::Delete {
            ids: vec![self.hints[self.hint]],
        }]);
        self.forge(
            "a deleted clause as a hint",
            [&before[..], &dead, &step, &after].concat(),
            refused(15, at as u64 + 2),
        );
        self.forge(
            "a deletion of nothing",
            [&before[..], &[DELETE, 0], &step, &after].concat(),
            Ok(count + 1),
        );
        let other = [&before[..], &[98], &step[1..], &after].concat();
        self.refused_here("another first byte", other, 14);
        let overlong = [&before[..], &step[..step.len() - 1], &[0x80, 0], &after].concat();
        self.refused_here("an overlong closing 0", overlong, 14);
    }
}

fn refused(number: u32, value: u64) -> Result<u64, Refusal> {
    Err(Refusal { number, value })
}
