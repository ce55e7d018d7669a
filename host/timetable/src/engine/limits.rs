//! The limits of bounds and formulas.

/// The largest bound of a check.
pub const LARGEST_BOUND: u64 = 4_095;
/// The most variables of a formula, with the tail where there is one.
pub const MOST_VARIABLES: u64 = 8_000_000;
