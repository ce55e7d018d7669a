//! Refusals as errors.

use timetable::engine::Refusal;

/// The refusal `number` with `value`, as the error of any operation.
pub fn refuse<T>(number: u32, value: u64) -> Result<T, Refusal> {
    Err(Refusal { number, value })
}
