//! Outside solvers: what they are given, and what they send back.
//!
//! `formula` and `dimacs` write what a solver reads; `answers` finds the model in
//! what it prints; `proofs`, with `lrat` and `drat`, turns a proof that it
//! writes into the steps of a bound proof; `solve` runs solvers. Nothing here is proved or has to be:
//! a wrong model is refused by the decoder, a wrong proof by the checker.

pub mod answers;
pub mod dimacs;
pub mod drat;
mod fault;
pub mod formula;
pub mod literal;
pub mod lrat;
pub mod proofs;
pub mod solve;
mod step_bytes;

pub use fault::Fault;
