//! What only tests need: a reference implementation of the engine's operations
//! that shares no code with the engine, generators of inputs, and a small prover.

#![forbid(unsafe_code)]

pub mod forgeries;
pub mod generate;
pub mod prover;
pub mod reference;
pub mod steps;
