//! The engine's operations.
//!
//! Each function takes the bytes of the instance file first, lends the engine
//! what it asks for, and answers its result or the first refusal; `idle_step`
//! needs no file and refuses nothing. `call` has the C functions themselves, for
//! callers that lend their own buffers. Without the feature `engine` there are
//! the answers' types, the refusals' names and the limits alone.

mod answers;
#[cfg(feature = "engine")]
#[allow(unsafe_code)]
pub mod call;
mod limits;
#[cfg(feature = "engine")]
mod operations;
mod refusals;
#[cfg(feature = "engine")]
mod store;

pub use answers::{FormulaSize, Infeasibility, Kept, Objective, Refusal, Score, Summary};
pub use limits::{LARGEST_BOUND, MOST_VARIABLES};
#[cfg(feature = "engine")]
pub use operations::{
    best, check, check_hard, decode, idle_step, model_length, read, same_sheet, score, sizes,
    solver_text, text, text_size,
};
pub use refusals::{is_of_instance, refusal, refusal_facts, RefusalFacts, REFUSALS};
#[cfg(feature = "engine")]
pub use store::Store;
