//! The kinds of constraint: a kind is one entry of the table at the end.

use super::limits::Sort;

/// What is said of a kind.
#[derive(Debug, PartialEq, Eq)]
pub struct KindFacts {
    /// Its number in a file.
    pub number: u32,
    /// Its name in the text form.
    pub name: &'static str,
    /// Its fields, in the order of the file.
    pub fields: &'static [FieldFacts],
}

#[derive(Debug, PartialEq, Eq)]
pub struct FieldFacts {
    pub name: &'static str,
    /// The word before it in the text form; empty where none stands.
    pub lead: &'static str,
    pub sort: Sort,
}

impl FieldFacts {
    /// The field in words: a list by what it lists.
    pub fn words(&self) -> &'static str {
        match self.sort {
            Sort::Events => "event list",
            Sort::Groups => "group list",
            _ => self.name,
        }
    }
}

/// The value of a field: an index, a number, or a list of indices.
#[derive(Clone, Copy, Debug, PartialEq, Eq)]
pub enum Value<'a> {
    One(usize),
    Many(&'a [usize]),
}

impl<'a> From<&'a usize> for Value<'a> {
    fn from(one: &'a usize) -> Self {
        Value::One(*one)
    }
}

impl<'a> From<&'a Vec<usize>> for Value<'a> {
    fn from(many: &'a Vec<usize>) -> Self {
        Value::Many(many)
    }
}

/// Where a kind's fields come from, in the order of the table.
pub trait Source {
    type Fault;
    fn one(&mut self, field: &'static FieldFacts) -> Result<usize, Self::Fault>;
    fn many(&mut self, field: &'static FieldFacts) -> Result<Vec<usize>, Self::Fault>;
}

/// The kind with the name `name`.
pub fn kind_named(name: &str) -> Option<&'static KindFacts> {
    KINDS.iter().find(|facts| facts.name == name)
}

/// The type that holds a field of a sort.
macro_rules! held {
    (Events) => { Vec<usize> };
    (Groups) => { Vec<usize> };
    ($sort:ident) => { usize };
}

/// A field of a sort, taken from a source.
macro_rules! taken {
    ($source:ident, Events, $field:expr) => {
        $source.many($field)?
    };
    ($source:ident, Groups, $field:expr) => {
        $source.many($field)?
    };
    ($source:ident, $sort:ident, $field:expr) => {
        $source.one($field)?
    };
}

/// The enum of kinds, the table of their facts, and the ways from one to the other.
macro_rules! kinds {
    ($($number:literal $name:literal $case:ident { $($lead:literal $field:ident: $sort:ident),* })*) => {
        #[derive(Clone, Debug, PartialEq, Eq)]
        pub enum Kind {
            $($case { $($field: held!($sort)),* }),*
        }

        pub const KINDS: &[KindFacts] = &[$(KindFacts {
            number: $number,
            name: $name,
            fields: &[$(FieldFacts {
                name: stringify!($field),
                lead: $lead,
                sort: Sort::$sort,
            }),*],
        }),*];

        impl Kind {
            pub fn facts(&self) -> &'static KindFacts {
                let number = match self { $(Kind::$case { .. } => $number),* };
                &KINDS[number - 1]
            }

            /// The values of the fields, in the order of the table.
            pub fn values(&self) -> Vec<Value<'_>> {
                match self { $(Kind::$case { $($field),* } => vec![$(Value::from($field)),*]),* }
            }

            /// A constraint of the kind `facts`, its fields taken from `source`.
            pub fn from_source<S: Source>(
                facts: &'static KindFacts,
                source: &mut S,
            ) -> Result<Kind, S::Fault> {
                let mut fields = facts.fields.iter();
                let mut next = || fields.next().expect("the table has each field of a case");
                match facts.number {
                    $($number => Ok(Kind::$case { $($field: taken!(source, $sort, next())),* }),)*
                    _ => unreachable!("each kind of the table has a case"),
                }
            }
        }
    };
}

// Numbers count from 1 without a gap. The words in quotes are the text form's.
kinds! {
    1 "clash" Clash { "" resource: Resource }
    2 "unavailable" Unavailable { "" resource: Resource, "in" group: Group }
    3 "preferred-times" PreferredTimes { "" event: Event, "in" group: Group }
    4 "split" Split { "" event: Event, "between" lo: Bound, "and" hi: Bound }
    5 "spread" Spread { "" events: Events, "in" group: Group, "between" lo: Bound, "and" hi: Bound }
    6 "busy-limit" BusyLimit {
        "" resource: Resource, "in" group: Group, "between" lo: Bound, "and" hi: Bound
    }
    7 "cluster" Cluster {
        "" resource: Resource, "in" groups: Groups, "between" lo: Bound, "and" hi: Bound
    }
    8 "idle" Idle {
        "" resource: Resource, "in" groups: Groups, "between" lo: Bound, "and" hi: Bound
    }
    9 "distribute" Distribute {
        "" event: Event, "length" length: Length, "between" lo: Bound, "and" hi: Bound
    }
    10 "lengths" Lengths {
        "" event: Event, "between" shortest: Length, "and" longest: Length
    }
    11 "precedence" Precedence {
        "" first: Event, "before" second: Event, "between" lo: Gap, "and" hi: Gap
    }
}

#[cfg(test)]
mod tests {
    use super::*;

    #[test]
    fn numbers_count_from_1() {
        for (at, facts) in KINDS.iter().enumerate() {
            assert_eq!(facts.number as usize, at + 1);
            assert_eq!(kind_named(facts.name), Some(facts));
        }
    }
}
