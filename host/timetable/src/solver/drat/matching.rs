//! Finds the clause that a deletion names: the one with the same set of
//! literals, the youngest where there are several.

use super::arena::{Arena, Place};
use crate::solver::literal::Literal;

/// The end of a chain.
const NONE: u32 = u32::MAX;

/// Chains of clauses with equal hashes, over the clauses' numbers.
pub struct Matching {
    heads: Vec<u32>,
    next: Vec<u32>,
    places: Vec<Place>,
    /// The literals looked for.
    wanted: Vec<bool>,
}

impl Matching {
    /// Room for `clauses` clauses over `variables` variables.
    pub fn new(clauses: usize, variables: usize) -> Matching {
        Matching {
            heads: vec![NONE; (2 * clauses + 1).next_power_of_two()],
            next: Vec::with_capacity(clauses),
            places: Vec::with_capacity(clauses),
            wanted: vec![false; 2 * (variables + 1)],
        }
    }

    /// Adds the clause with the next number.
    pub fn insert(&mut self, place: Place, literals: &[Literal]) {
        let chain = self.chain(literals);
        self.next.push(self.heads[chain]);
        self.heads[chain] = self.places.len() as u32;
        self.places.push(place);
    }

    /// The place of the youngest clause with this set of literals.
    pub fn find(&mut self, arena: &Arena, literals: &[Literal]) -> Option<Place> {
        self.links(arena, literals)
            .map(|(_, number)| self.places[number as usize])
    }

    /// Takes the clause that `find` gives out of its chain.
    pub fn remove(&mut self, arena: &Arena, literals: &[Literal]) {
        let Some((before, number)) = self.links(arena, literals) else {
            return;
        };
        let after = self.next[number as usize];
        match before {
            Some(before) => self.next[before as usize] = after,
            None => {
                let chain = self.chain(literals);
                self.heads[chain] = after;
            }
        }
    }

    /// The number of the clause sought, and the one before it in its chain.
    fn links(&mut self, arena: &Arena, literals: &[Literal]) -> Option<(Option<u32>, u32)> {
        self.mark(literals, true);
        let mut before = None;
        let mut number = self.heads[self.chain(literals)];
        while number != NONE {
            let place = self.places[number as usize];
            if arena.length(place) == literals.len()
                && arena
                    .literals(place)
                    .all(|literal| self.wanted[literal.index()])
            {
                break;
            }
            before = Some(number);
            number = self.next[number as usize];
        }
        self.mark(literals, false);
        (number != NONE).then_some((before, number))
    }

    fn mark(&mut self, literals: &[Literal], wanted: bool) {
        for literal in literals {
            self.wanted[literal.index()] = wanted;
        }
    }

    /// The chain of a set of literals, whatever their order.
    fn chain(&self, literals: &[Literal]) -> usize {
        let mix = |code: u32| {
            let mixed = u64::from(code).wrapping_mul(0x9e37_79b9_7f4a_7c15);
            mixed ^ (mixed >> 29)
        };
        let hash = literals
            .iter()
            .fold(0u64, |sum, literal| sum.wrapping_add(mix(literal.code())));
        let spread = hash.wrapping_mul(0xbf58_476d_1ce4_e5b9) >> 20;
        spread as usize & (self.heads.len() - 1)
    }
}
