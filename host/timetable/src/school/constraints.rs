//! Constraints of the text form. A statement stands for one constraint, or,
//! where it says `each`, for one with each of the things named.

use super::cursor::Cursor;
use super::declarations::limited;
use super::fault::{Place, TextFault};
use super::parse::Builder;
use super::print::constraint_line;
use super::scope::{Number, Scope};
use crate::instance::{
    Constraint, FieldFacts, Kind, KindFacts, Source, LARGEST_WEIGHT, MOST_CONSTRAINTS,
};
use std::convert::Infallible;

/// The value of a field.
#[derive(Clone)]
enum Given {
    One(usize),
    Many(Vec<usize>),
}

/// `KIND hard FIELD...` or `KIND weight NUMBER FIELD...`
pub fn read(
    builder: &mut Builder,
    facts: &'static KindFacts,
    place: Place,
    cursor: &mut Cursor,
) -> Result<(), TextFault> {
    let weight = weight(cursor)?;
    let choices = choices(builder, facts, cursor)?;
    let count: usize = choices.iter().map(Vec::len).product();
    let count = count.saturating_add(builder.instance.constraints.len());
    limited(count, MOST_CONSTRAINTS, "constraints", place)?;
    for picked in combinations(&choices) {
        let Ok(kind) = Kind::from_source(facts, &mut Picked(picked.into_iter()));
        let wrong = builder.instance.constraint_end(&kind);
        let constraint = Constraint { weight, kind };
        if let Some(reason) = wrong {
            let line = constraint_line(&builder.declared.names, &constraint);
            return Err(TextFault::at(place, format!("{reason}: {line}")));
        }
        builder.instance.constraints.push(constraint);
    }
    Ok(())
}

/// 0 if hard.
fn weight(cursor: &mut Cursor) -> Result<u32, TextFault> {
    if cursor.passes("hard") {
        return Ok(0);
    }
    if !cursor.passes("weight") {
        return Err(cursor.expected("'hard' or 'weight'"));
    }
    cursor.number("a weight", 1..=LARGEST_WEIGHT)
}

/// For each field of the kind the values to choose from, one at least.
fn choices(
    builder: &Builder,
    facts: &'static KindFacts,
    cursor: &mut Cursor,
) -> Result<Vec<Vec<Given>>, TextFault> {
    let scope = Scope::of(builder);
    let mut choices = Vec::new();
    let mut fields = facts.fields.iter().peekable();
    while let Some(field) = fields.next() {
        let hi = fields.next_if(|_| field.lead == "between");
        match hi {
            Some(hi) => choices.extend(scope.bounds(field, hi, cursor)?),
            None => choices.push(scope.choice(field, cursor)?),
        }
    }
    Ok(choices)
}

/// A value from each choice, in every way, the last choice changing first.
fn combinations(choices: &[Vec<Given>]) -> Vec<Vec<Given>> {
    choices.iter().fold(vec![Vec::new()], |before, choice| {
        let extended = |picked: Vec<Given>| {
            let with = move |value: &Given| [&picked[..], std::slice::from_ref(value)].concat();
            choice.iter().map(with)
        };
        before.into_iter().flat_map(extended).collect()
    })
}

/// The values picked for one constraint, in the order of its fields.
struct Picked(std::vec::IntoIter<Given>);

impl Source for Picked {
    type Fault = Infallible;

    fn one(&mut self, _: &'static FieldFacts) -> Result<usize, Infallible> {
        match self.0.next() {
            Some(Given::One(value)) => Ok(value),
            _ => unreachable!("the field was read as one value"),
        }
    }

    fn many(&mut self, _: &'static FieldFacts) -> Result<Vec<usize>, Infallible> {
        match self.0.next() {
            Some(Given::Many(values)) => Ok(values),
            _ => unreachable!("the field was read as a list"),
        }
    }
}

impl Scope<'_> {
    fn choice(&self, field: &FieldFacts, cursor: &mut Cursor) -> Result<Vec<Given>, TextFault> {
        if !field.lead.is_empty() {
            cursor.expect(field.lead)?;
        }
        let Some(thing) = field.sort.thing() else {
            return Ok(vec![Given::One(self.number(field, cursor)?)]);
        };
        let is_list = field.sort.is_list();
        if cursor.passes("each") {
            let things = self.several(thing, Number::Singular, cursor)?.into_iter();
            return Ok(match is_list {
                true => things.map(|one| Given::Many(vec![one])).collect(),
                false => things.map(Given::One).collect(),
            });
        }
        match is_list {
            true => Ok(vec![Given::Many(self.list(thing, cursor)?)]),
            false => Ok(vec![Given::One(self.named(thing, cursor)?)]),
        }
    }

    fn number(&self, field: &FieldFacts, cursor: &mut Cursor) -> Result<usize, TextFault> {
        let limits = field.sort.limits(&self.counts);
        Ok(cursor.number("a number", limits)? as usize)
    }

    /// `between LO and HI`, or a shorter way to say it; for a gap nothing stands for any.
    fn bounds(
        &self,
        lo: &FieldFacts,
        hi: &FieldFacts,
        cursor: &mut Cursor,
    ) -> Result<[Vec<Given>; 2], TextFault> {
        let pair = |lo, hi| Ok([vec![Given::One(lo)], vec![Given::One(hi)]]);
        if lo.sort.may_be_left_out() && cursor.peek().is_none() {
            let limits = lo.sort.limits(&self.counts);
            return pair(*limits.start() as usize, *limits.end() as usize);
        }
        if cursor.passes("exactly") {
            let count = self.number(lo, cursor)?;
            return pair(count, count);
        }
        if cursor.passes("at") {
            if cursor.passes("most") {
                let least = *lo.sort.limits(&self.counts).start();
                return pair(least as usize, self.number(hi, cursor)?);
            }
            if !cursor.passes("least") {
                return Err(cursor.expected("'most' or 'least'"));
            }
            let most = *hi.sort.limits(&self.counts).end();
            return pair(self.number(lo, cursor)?, most as usize);
        }
        if !cursor.passes(lo.lead) {
            return Err(cursor.expected("'between', 'at most', 'at least' or 'exactly'"));
        }
        let least = self.number(lo, cursor)?;
        cursor.expect(hi.lead)?;
        pair(least, self.number(hi, cursor)?)
    }
}
