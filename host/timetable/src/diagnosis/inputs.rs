//! What a refused call was given.

/// What a refused call was given.
pub struct Inputs<'a> {
    pub instance: &'a [u8],
    pub bound: Option<u64>,
    /// The file that earned the refusal, and what it should be.
    pub file: &'a [u8],
    pub sort: Sort,
}

/// What a file should be.
#[derive(Clone, Copy, Debug, PartialEq, Eq)]
pub enum Sort {
    Instance,
    Timetable,
    Model,
    /// What a solver printed, in the form that the engine reads.
    SolverText,
    Proof,
}
