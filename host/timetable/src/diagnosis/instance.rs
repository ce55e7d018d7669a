//! Refusals 1 to 6, 19 and 22: which number of the file, and what is wrong with it.

use crate::engine::Refusal;
use crate::instance::read;

/// The fault of the file, if it is the one that was refused.
pub fn reason(refusal: Refusal, file: &[u8]) -> Option<String> {
    let fault = read(file).err()?;
    let refused = fault.number() == refusal.number && fault.field.offset as u64 == refusal.value;
    refused.then(|| fault.to_string())
}
