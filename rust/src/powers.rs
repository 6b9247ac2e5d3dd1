//! Power coefficients of a cell.

use crate::answer::answer;
use crate::{ffi, Key, Refusal, Shape};

/// Writes the 16 power coefficients of a cell of a two-axis cubic table, each times 4, to the front
/// of `out`.
///
/// The number at index i + 4j is 4 times the coefficient of x to the i and y to the j, where x and y
/// run from 0 to 1 in the cell. Their polynomial, divided by 4, is the exact dose.
///
/// Refusals in order: 30, 1, 2, 3, 26, 24, 4, 9, 14, 5.
///
/// ```
/// use lukhtari::{estimate, powers, Key, Refusal, Shape};
/// // The samples are 100xy.
/// let shape = Shape::new(2, 3, [2, 2, 1]);
/// let mut records = [0; 16];
/// estimate(Key::Colourist, shape, &[0, 0, 0, 100], &mut records)?;
/// let mut out = [0; 16];
/// powers(Key::Service, shape, &records, [0, 0, 0], &mut out)?;
/// assert_eq!(out, [0, 0, 0, 0, 0, 400, 0, 0, 0, 0, 0, 0, 0, 0, 0, 0]);
///
/// let line = Shape::new(1, 3, [2, 1, 1]);
/// let refusal = powers(Key::Service, line, &records[..4], [0, 0, 0], &mut out).unwrap_err();
/// assert_eq!(refusal, Refusal { number: 24, place: 0 });
/// # Ok::<(), Refusal>(())
/// ```
pub fn powers(
    key: Key,
    shape: Shape,
    records: &[i32],
    cell: [u32; 3],
    out: &mut [i32],
) -> Result<(), Refusal> {
    // SAFETY: both slices are lent for the call, with their lengths.
    let done = unsafe {
        ffi::lukhtari_powers(
            key as u32,
            shape,
            records.as_ptr(),
            records.len(),
            ffi::Index { at: cell },
            out.as_mut_ptr(),
            out.len(),
        )
    };
    answer(done.number, done.place, ())
}
