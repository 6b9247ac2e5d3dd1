//! Doses and slopes by float.

use crate::answer::answer;
use crate::{ffi, Key, Refusal, Shape};

fn float_position([x, y, z]: [f32; 3]) -> ffi::FloatPosition {
    ffi::FloatPosition { x, y, z }
}

/// Dose at the step nearest to a position in cells, halves up: the float times the axis's step number,
/// on an unused axis times 256.
///
/// 23, 22 and 11 look at the step: of 256 steps -0.001 is step 0 and is taken, -0.003 is refused 22.
///
/// Refusals in order: 30, 1, 2, 3, 26, 4, then 10, 23, 22 and 11 on each axis, 5.
///
/// ```
/// use lukhtari::{dose_float, estimate, Key, Refusal, Shape};
/// let shape = Shape::new(1, 3, [2, 1, 1]);
/// let mut records = [0; 4];
/// estimate(Key::Colourist, shape, &[0, 100], &mut records)?;
/// assert_eq!(dose_float(Key::Operator, shape, &records, [0.25, 0.0, 0.0])?, 25.0);
/// assert_eq!(dose_float(Key::Operator, shape, &records, [-0.001, 0.0, 0.0])?, 0.0);
///
/// // Of 16 steps the nearest one to 0.03 is step 0, to 0.04 step 1, which is 6.25.
/// let coarse = Shape { steps: [16, 1, 1], ..shape };
/// assert_eq!(dose_float(Key::Operator, coarse, &records, [0.03, 0.0, 0.0])?, 0.0);
/// assert_eq!(dose_float(Key::Operator, coarse, &records, [0.04, 0.0, 0.0])?, 6.0);
///
/// let refusal = dose_float(Key::Operator, shape, &records, [f32::NAN, 0.0, 0.0]).unwrap_err();
/// assert_eq!(refusal, Refusal { number: 10, place: 0 });
/// # Ok::<(), Refusal>(())
/// ```
#[inline]
pub fn dose_float(
    key: Key,
    shape: Shape,
    records: &[i32],
    position: [f32; 3],
) -> Result<f32, Refusal> {
    let position = float_position(position);
    // SAFETY: the slice is lent for the call, with its length.
    let result = unsafe {
        ffi::lukhtari_dose_float(key as u32, shape, records.as_ptr(), records.len(), position)
    };
    answer(result.number, result.place, result.value)
}

/// Slope along an axis at the step nearest to a position in cells, halves up.
///
/// Refusals in order: 30, 1, 2, 3, 26, 4, 12, then 10, 23, 22 and 11 on each axis, 5.
///
/// ```
/// use lukhtari::{estimate, slope_float, Key, Refusal, Shape};
/// let shape = Shape::new(1, 3, [2, 1, 1]);
/// let mut records = [0; 4];
/// estimate(Key::Colourist, shape, &[0, 100], &mut records)?;
/// assert_eq!(slope_float(Key::Operator, shape, &records, [0.5, 0.0, 0.0], 0)?, 100.0);
/// # Ok::<(), Refusal>(())
/// ```
#[inline]
pub fn slope_float(
    key: Key,
    shape: Shape,
    records: &[i32],
    position: [f32; 3],
    axis: u32,
) -> Result<f32, Refusal> {
    let position = float_position(position);
    // SAFETY: the slice is lent for the call, with its length.
    let result = unsafe {
        ffi::lukhtari_slope_float(
            key as u32,
            shape,
            records.as_ptr(),
            records.len(),
            position,
            axis,
        )
    };
    answer(result.number, result.place, result.value)
}
