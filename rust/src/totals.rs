//! The totals of cells.

use crate::answer::answer;
use crate::{ffi, Key, Refusal, Shape};

/// The integral of the dose over a cell, as a numerator over 24^axes for degree 3 and over 120^axes
/// for degree 5: [`total_divisor`](crate::limits::total_divisor).
///
/// It is the exact integral of the exact dose; a cell has the length 1 along each axis.
///
/// Refusals in order: 30, 1, 2, 3, 26, 4, 14, 5.
///
/// ```
/// use lukhtari::limits::total_divisor;
/// use lukhtari::{cell_total, estimate, Key, Refusal, Shape};
/// // From 0 to 100, on average 50 units.
/// let shape = Shape::new(1, 3, [2, 1, 1]);
/// let mut records = [0; 4];
/// estimate(Key::Colourist, shape, &[0, 100], &mut records)?;
/// assert_eq!(cell_total(Key::Service, shape, &records, [0, 0, 0])?, 50 * total_divisor(1, 3));
///
/// let refusal = cell_total(Key::Service, shape, &records, [1, 0, 0]).unwrap_err();
/// assert_eq!(refusal, Refusal { number: 14, place: 0 });
/// # Ok::<(), Refusal>(())
/// ```
pub fn cell_total(key: Key, shape: Shape, records: &[i32], cell: [u32; 3]) -> Result<i64, Refusal> {
    // SAFETY: the slice is lent for the call, with its length.
    let total = unsafe {
        ffi::lukhtari_cell_total(
            key as u32,
            shape,
            records.as_ptr(),
            records.len(),
            ffi::Index { at: cell },
        )
    };
    answer(total.number, total.place, total.numerator)
}

/// The sum of the totals of the cells from index `first` to index `last` on each axis, over the same
/// divisor as [`cell_total`].
///
/// A box cut by a plane between cells has the sum of its two parts.
///
/// Refusals in order: 30, 1, 2, 3, 26, 4, 29, 5. All records of the box are tested for 5, by index.
///
/// ```
/// use lukhtari::limits::total_divisor;
/// use lukhtari::{box_total, estimate, Key, Refusal, Shape};
/// let shape = Shape::new(1, 5, [3, 1, 1]);
/// let mut records = [0; 9];
/// estimate(Key::Colourist, shape, &[0, 100, 200], &mut records)?;
/// let whole = box_total(Key::Service, shape, &records, [0, 0, 0], [1, 0, 0])?;
/// assert_eq!(whole, (50 + 150) * total_divisor(1, 5));
///
/// let refusal = box_total(Key::Service, shape, &records, [1, 0, 0], [0, 0, 0]).unwrap_err();
/// assert_eq!(refusal, Refusal { number: 29, place: 0 });
/// # Ok::<(), Refusal>(())
/// ```
pub fn box_total(
    key: Key,
    shape: Shape,
    records: &[i32],
    first: [u32; 3],
    last: [u32; 3],
) -> Result<i64, Refusal> {
    // SAFETY: the slice is lent for the call, with its length.
    let total = unsafe {
        ffi::lukhtari_box_total(
            key as u32,
            shape,
            records.as_ptr(),
            records.len(),
            ffi::Index { at: first },
            ffi::Index { at: last },
        )
    };
    answer(total.number, total.place, total.numerator)
}
