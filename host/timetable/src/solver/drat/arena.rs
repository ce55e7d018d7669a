//! Clauses one behind the other in one list of words, with two words before
//! each clause's literals: its number, and its length with two flags.

use crate::solver::literal::Literal;

/// Where a clause stands in the arena.
#[derive(Clone, Copy, Debug, PartialEq, Eq)]
pub struct Place(u32);

impl Place {
    /// The place of no clause.
    pub const NONE: Place = Place(u32::MAX);
}

const HEADER: usize = 2;
const FLAGS: u32 = 2;
/// Something later needs the clause.
const CORE: u32 = 1;
/// The clause is not there yet, seen from where the backward pass stands.
const GONE: u32 = 2;

#[derive(Default)]
pub struct Arena {
    words: Vec<u32>,
}

impl Arena {
    /// Appends a clause; none if there are too many words.
    pub fn push(&mut self, number: u32, literals: &[Literal]) -> Option<Place> {
        let place = u32::try_from(self.words.len()).ok()?;
        let length = u32::try_from(literals.len()).ok()?;
        if place == u32::MAX || length > u32::MAX >> FLAGS {
            return None;
        }
        self.words.extend([number, length << FLAGS]);
        self.words
            .extend(literals.iter().map(|literal| literal.code()));
        Some(Place(place))
    }

    /// The clause's number: the formula's clauses from 0, then the lemmas.
    pub fn number(&self, place: Place) -> u32 {
        self.words[place.0 as usize]
    }

    pub fn length(&self, place: Place) -> usize {
        (self.words[place.0 as usize + 1] >> FLAGS) as usize
    }

    pub fn literal(&self, place: Place, at: usize) -> Literal {
        Literal::of_code(self.words[place.0 as usize + HEADER + at])
    }

    pub fn literals(&self, place: Place) -> impl Iterator<Item = Literal> + '_ {
        let first = place.0 as usize + HEADER;
        let codes = self.words[first..][..self.length(place)].iter();
        codes.map(|&code| Literal::of_code(code))
    }

    pub fn swap(&mut self, place: Place, one: usize, other: usize) {
        let first = place.0 as usize + HEADER;
        self.words.swap(first + one, first + other);
    }

    /// Marks the clause as needed, and says whether it was not marked yet.
    pub fn make_core(&mut self, place: Place) -> bool {
        let header = &mut self.words[place.0 as usize + 1];
        let first = *header & CORE == 0;
        *header |= CORE;
        first
    }

    pub fn is_core(&self, place: Place) -> bool {
        self.words[place.0 as usize + 1] & CORE != 0
    }

    pub fn make_gone(&mut self, place: Place) {
        self.words[place.0 as usize + 1] |= GONE;
    }

    pub fn is_gone(&self, place: Place) -> bool {
        self.words[place.0 as usize + 1] & GONE != 0
    }
}
