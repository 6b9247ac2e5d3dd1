//! Doses, slopes and curvatures by position and by cell.

use crate::answer::answer;
use crate::{ffi, Key, Refusal, Shape};

/// A dose by position or by cell, and its mark.
#[derive(Clone, Copy, Debug, PartialEq, Eq)]
pub struct Dose {
    /// In units
    pub value: i32,
    /// The mark: no stage dropped anything, not even of a number of weight 0. Then the dose equals
    /// the exact interpolant; one that is not marked may equal it by luck.
    pub exact: bool,
}

// A result with its mark.
#[inline]
fn dose_of(result: ffi::Marked) -> Result<Dose, Refusal> {
    let ffi::Marked {
        number,
        place,
        value,
        exact,
    } = result;
    answer(number, place, Dose { value, exact })
}

/// Dose at a table position, with its mark.
///
/// Refusals in order: 30, 1, 2, 3, 26, 4, then 23, 22 and 11 on each axis, 5.
///
/// ```
/// use lukhtari::{dose, estimate, Dose, Key, Refusal, Shape};
/// let shape = Shape::new(1, 3, [2, 1, 1]);
/// let mut records = [0; 4];
/// estimate(Key::Colourist, shape, &[0, 100], &mut records)?;
/// assert_eq!(dose(Key::Operator, shape, &records, [64, 0, 0])?, Dose { value: 25, exact: true });
///
/// // The same point of an axis of 16 steps.
/// let coarse = Shape { steps: [16, 1, 1], ..shape };
/// assert_eq!(dose(Key::Operator, coarse, &records, [4, 0, 0])?, Dose { value: 25, exact: true });
/// let none = Shape { steps: [48, 1, 1], ..shape };
/// assert_eq!(dose(Key::Operator, none, &records, [4, 0, 0]), Err(Refusal { number: 26, place: 0 }));
///
/// // 25.390625, rounded.
/// assert_eq!(dose(Key::Operator, shape, &records, [65, 0, 0])?, Dose { value: 25, exact: false });
///
/// // Beyond the last node, below 0, and not 0 on an unused axis.
/// for (position, number, place) in [([257, 0, 0], 11, 0), ([-1, 0, 0], 22, 0), ([0, 1, 0], 23, 1)] {
///     let refusal = dose(Key::Operator, shape, &records, position).unwrap_err();
///     assert_eq!(refusal, Refusal { number, place });
/// }
/// # Ok::<(), Refusal>(())
/// ```
#[inline]
pub fn dose(key: Key, shape: Shape, records: &[i32], position: [i32; 3]) -> Result<Dose, Refusal> {
    let position = ffi::Position { at: position };
    // SAFETY: the slice is lent for the call, with its length.
    dose_of(unsafe {
        ffi::lukhtari_dose(key as u32, shape, records.as_ptr(), records.len(), position)
    })
}

/// Slope along an axis at a table position, in units per cell.
///
/// Refusals in order: 30, 1, 2, 3, 26, 4, 12, then 23, 22 and 11 on each axis, 5.
///
/// ```
/// use lukhtari::{estimate, slope, Key, Refusal, Shape};
/// let shape = Shape::new(1, 3, [2, 1, 1]);
/// let mut records = [0; 4];
/// estimate(Key::Colourist, shape, &[0, 100], &mut records)?;
/// assert_eq!(slope(Key::Operator, shape, &records, [128, 0, 0], 0)?, 100);
///
/// let refusal = slope(Key::Operator, shape, &records, [128, 0, 0], 1).unwrap_err();
/// assert_eq!(refusal, Refusal { number: 12, place: 0 });
/// # Ok::<(), Refusal>(())
/// ```
#[inline]
pub fn slope(
    key: Key,
    shape: Shape,
    records: &[i32],
    position: [i32; 3],
    axis: u32,
) -> Result<i32, Refusal> {
    let position = ffi::Position { at: position };
    // SAFETY: the slice is lent for the call, with its length.
    let result = unsafe {
        ffi::lukhtari_slope(
            key as u32,
            shape,
            records.as_ptr(),
            records.len(),
            position,
            axis,
        )
    };
    answer(result.number, result.place, result.value)
}

/// Dose at the steps `u` within a cell, with its mark. Cells that share a point agree on the dose;
/// they may differ in the mark.
///
/// Refusals in order: 30, 1, 2, 3, 26, 4, 14, then 23 and 11 on each axis, 5.
///
/// ```
/// use lukhtari::{dose_in_cell, estimate, Key, Refusal, Shape};
/// let shape = Shape::new(2, 3, [2, 4, 1]);
/// let mut records = [0; 32];
/// estimate(Key::Colourist, shape, &[0, 0, 0, 0, 0, 0, 0, 1], &mut records)?;
/// let lower = dose_in_cell(Key::Operator, shape, &records, [0, 0, 0], [16, 256, 0])?;
/// let upper = dose_in_cell(Key::Operator, shape, &records, [0, 1, 0], [16, 0, 0])?;
/// assert_eq!((lower.value, upper.value), (0, 0));
/// assert!(lower.exact && !upper.exact);
/// # Ok::<(), Refusal>(())
/// ```
#[inline]
pub fn dose_in_cell(
    key: Key,
    shape: Shape,
    records: &[i32],
    cell: [u32; 3],
    u: [u32; 3],
) -> Result<Dose, Refusal> {
    let (cell, u) = (ffi::Index { at: cell }, ffi::Index { at: u });
    // SAFETY: the slice is lent for the call, with its length.
    let result = unsafe {
        ffi::lukhtari_dose_in_cell(key as u32, shape, records.as_ptr(), records.len(), cell, u)
    };
    dose_of(result)
}

/// Slope along an axis at the steps `u` within a cell, in units per cell.
///
/// Refusals in order: 30, 1, 2, 3, 26, 4, 12, 14, then 23 and 11 on each axis, 5.
///
/// ```
/// use lukhtari::{estimate, slope_in_cell, Key, Refusal, Shape};
/// let shape = Shape::new(1, 3, [2, 1, 1]);
/// let mut records = [0; 4];
/// estimate(Key::Colourist, shape, &[0, 100], &mut records)?;
/// assert_eq!(slope_in_cell(Key::Operator, shape, &records, [0, 0, 0], [0, 0, 0], 0)?, 100);
/// # Ok::<(), Refusal>(())
/// ```
#[inline]
pub fn slope_in_cell(
    key: Key,
    shape: Shape,
    records: &[i32],
    cell: [u32; 3],
    u: [u32; 3],
    axis: u32,
) -> Result<i32, Refusal> {
    let (cell, u) = (ffi::Index { at: cell }, ffi::Index { at: u });
    // SAFETY: the slice is lent for the call, with its length.
    let result = unsafe {
        ffi::lukhtari_slope_in_cell(
            key as u32,
            shape,
            records.as_ptr(),
            records.len(),
            cell,
            u,
            axis,
        )
    };
    answer(result.number, result.place, result.value)
}

/// Curvature along an axis at a table position, in units per cell squared: the second derivative of
/// a quintic table.
///
/// Refusals in order: 30, 1, 2, 3, 26, 4, 12, 21, then 23, 22 and 11 on each axis, 5.
///
/// ```
/// use lukhtari::{curvature, estimate, Key, Refusal, Shape};
/// let shape = Shape::new(1, 5, [3, 1, 1]);
/// let mut records = [0; 9];
/// estimate(Key::Colourist, shape, &[0, 100, 400], &mut records)?;
/// assert_eq!(curvature(Key::Service, shape, &records, [256, 0, 0], 0)?, 200);
///
/// let cubic = Shape { degree: 3, ..shape };
/// let refusal = curvature(Key::Service, cubic, &records[..6], [256, 0, 0], 0).unwrap_err();
/// assert_eq!(refusal, Refusal { number: 21, place: 0 });
/// # Ok::<(), Refusal>(())
/// ```
#[inline]
pub fn curvature(
    key: Key,
    shape: Shape,
    records: &[i32],
    position: [i32; 3],
    axis: u32,
) -> Result<i32, Refusal> {
    let position = ffi::Position { at: position };
    // SAFETY: the slice is lent for the call, with its length.
    let result = unsafe {
        ffi::lukhtari_curvature(
            key as u32,
            shape,
            records.as_ptr(),
            records.len(),
            position,
            axis,
        )
    };
    answer(result.number, result.place, result.value)
}

/// Curvature along an axis at the steps `u` within a cell, in units per cell squared.
///
/// Refusals in order: 30, 1, 2, 3, 26, 4, 12, 21, 14, then 23 and 11 on each axis, 5.
///
/// ```
/// use lukhtari::{curvature_in_cell, estimate, Key, Refusal, Shape};
/// let shape = Shape::new(1, 5, [3, 1, 1]);
/// let mut records = [0; 9];
/// estimate(Key::Colourist, shape, &[0, 100, 400], &mut records)?;
/// assert_eq!(curvature_in_cell(Key::Service, shape, &records, [0, 0, 0], [256, 0, 0], 0)?, 200);
/// assert_eq!(curvature_in_cell(Key::Service, shape, &records, [1, 0, 0], [0, 0, 0], 0)?, 200);
/// # Ok::<(), Refusal>(())
/// ```
#[inline]
pub fn curvature_in_cell(
    key: Key,
    shape: Shape,
    records: &[i32],
    cell: [u32; 3],
    u: [u32; 3],
    axis: u32,
) -> Result<i32, Refusal> {
    let (cell, u) = (ffi::Index { at: cell }, ffi::Index { at: u });
    // SAFETY: the slice is lent for the call, with its length.
    let result = unsafe {
        ffi::lukhtari_curvature_in_cell(
            key as u32,
            shape,
            records.as_ptr(),
            records.len(),
            cell,
            u,
            axis,
        )
    };
    answer(result.number, result.place, result.value)
}
