//! Doses along a path.

use crate::answer::answer;
use crate::{ffi, Key, Refusal, Shape};

/// Writes the doses at up to 256 table positions, in units, to the front of `answers`, and returns
/// how often the corner records of a cell were fetched.
///
/// Each answer is the value of [`dose`](crate::dose) at its position, without its mark. The number of
/// fetches is 0 for an empty list, else one more than the number of neighbouring pairs of positions
/// with different cells.
///
/// Refusals in order, also for an empty list: 30, 1, 2, 3, 26, 20, 4, 9; then position by position 23,
/// 22 and 11 on each axis, 5, with the index of the position in the list as place.
/// [`dose`](crate::dose) gives their places within the query.
///
/// ```
/// use lukhtari::{estimate, ramp, Key, Refusal, Shape};
/// let shape = Shape::new(1, 3, [3, 1, 1]);
/// let mut records = [0; 6];
/// estimate(Key::Colourist, shape, &[0, 100, 200], &mut records)?;
/// let mut answers = [0; 3];
/// let positions = [[0, 0, 0], [64, 0, 0], [512, 0, 0]];
/// let fetches = ramp(Key::Operator, shape, &records, &positions, &mut answers)?;
/// assert_eq!(answers, [0, 25, 200]);
/// assert_eq!(fetches, 2);
///
/// let beyond = [[0, 0, 0], [513, 0, 0]];
/// let refusal = ramp(Key::Operator, shape, &records, &beyond, &mut answers).unwrap_err();
/// assert_eq!(refusal, Refusal { number: 11, place: 1 });
/// # Ok::<(), Refusal>(())
/// ```
pub fn ramp(
    key: Key,
    shape: Shape,
    records: &[i32],
    positions: &[[i32; 3]],
    answers: &mut [i32],
) -> Result<u64, Refusal> {
    let positions = positions.as_flattened();
    // SAFETY: all slices are lent for the call, with their lengths.
    let ramped = unsafe {
        ffi::lukhtari_ramp(
            key as u32,
            shape,
            records.as_ptr(),
            records.len(),
            positions.as_ptr(),
            positions.len(),
            answers.as_mut_ptr(),
            answers.len(),
        )
    };
    answer(ramped.number, ramped.place, ramped.fetches)
}
