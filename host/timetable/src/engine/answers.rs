//! What the operations answer.

/// A refusal: its number, and the value it gives.
#[derive(Clone, Copy, Debug, PartialEq, Eq)]
pub struct Refusal {
    pub number: u32,
    pub value: u64,
}

#[cfg(feature = "engine")]
/// What a call answered: 0, or a refusal's number with the value it gives.
pub(super) fn accepted(number: u32, value: u64) -> Result<(), Refusal> {
    match number {
        0 => Ok(()),
        _ => Err(Refusal { number, value }),
    }
}

/// What an accepted file holds.
#[derive(Clone, Copy, Debug, PartialEq, Eq)]
pub struct Summary {
    pub times: usize,
    pub events: usize,
    pub resources: usize,
    /// Windows among them.
    pub groups: usize,
    pub constraints: usize,
}

/// What a formula needs of a store: a byte for each variable, a row for each
/// clause, a word for each literal.
#[derive(Clone, Copy, Debug, Default, PartialEq, Eq)]
pub struct FormulaSize {
    pub variables: u64,
    pub clauses: u64,
    pub words: u64,
}

/// The sum of deviations of the hard constraints.
#[derive(Clone, Copy, Debug, PartialEq, Eq)]
pub struct Infeasibility(pub u64);

/// The cost: the sum of weight × deviation of the soft constraints.
#[derive(Clone, Copy, Debug, PartialEq, Eq, PartialOrd, Ord)]
pub struct Objective(pub u64);

/// What a timetable is charged.
#[derive(Clone, Copy, Debug, PartialEq, Eq)]
pub struct Score {
    pub infeasibility: Infeasibility,
    pub objective: Objective,
}

/// What is kept of a group while its idle times are counted member by member.
/// The default is what is kept at its start.
#[derive(Clone, Copy, Debug, Default, PartialEq, Eq)]
pub struct Kept {
    /// How many members so far are idle.
    pub idle: u32,
    /// How many members came after the last with X; 0 while none had X.
    pub since: u32,
    /// Whether some member had X: 0 or 1.
    pub seen: u32,
}
