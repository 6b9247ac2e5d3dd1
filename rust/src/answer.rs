//! Results of the C interface as Rust results.

use crate::Refusal;

// The value, unless the number says that the call was refused.
#[inline]
pub fn answer<T>(number: u32, place: u64, value: T) -> Result<T, Refusal> {
    match number {
        0 => Ok(value),
        _ => Err(Refusal { number, place }),
    }
}
