//! Records from samples.

use crate::answer::answer;
use crate::{ffi, Key, Refusal, Shape};

/// Writes all records of a table, estimated from its samples, to the front of `records`.
///
/// A neighbour missing at a border continues the line: straight samples have straight records. Where
/// the samples are a sum of a constant and multiples of x, y, z, xy, xz, yz and xyz, these being the
/// node indices, the exact dose is that sum everywhere in the table.
///
/// Samples lie within [`estimate_limit`](crate::limits::estimate_limit) of the number of axes.
///
/// Refusals in order: 30, 1, 2, 3, 26, 4, 9, 19.
///
/// ```
/// use lukhtari::{estimate, Key, Refusal, Shape};
/// let shape = Shape::new(1, 3, [2, 1, 1]);
/// let mut records = [0; 4];
/// estimate(Key::Colourist, shape, &[0, 100], &mut records)?;
/// assert_eq!(records, [0, 200, 100, 200]);
///
/// let refusal = estimate(Key::Colourist, shape, &[0, 16385], &mut records).unwrap_err();
/// assert_eq!(refusal, Refusal { number: 19, place: 1 });
/// # Ok::<(), Refusal>(())
/// ```
pub fn estimate(
    key: Key,
    shape: Shape,
    samples: &[i32],
    records: &mut [i32],
) -> Result<(), Refusal> {
    // SAFETY: both slices are lent for the call, with their lengths.
    let done = unsafe {
        ffi::lukhtari_estimate(
            key as u32,
            shape,
            samples.as_ptr(),
            samples.len(),
            records.as_mut_ptr(),
            records.len(),
        )
    };
    answer(done.number, done.place, ())
}
