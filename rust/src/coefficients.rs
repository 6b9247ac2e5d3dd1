//! Coefficients of a cell, and back.

use crate::answer::answer;
use crate::{ffi, Key, Refusal, Shape};

/// Writes a cell's coefficients, x index fastest, to the front of `out`.
///
/// Refusals in order: 30, 1, 2, 3, 26, 4, 9, 14, 5.
///
/// ```
/// use lukhtari::{coefficients, Key, Refusal, Shape};
/// let shape = Shape::new(1, 3, [2, 1, 1]);
/// let mut out = [0; 4];
/// coefficients(Key::Service, shape, &[0, 200, 100, 200], [0, 0, 0], &mut out)?;
/// assert_eq!(out, [0, 200, 400, 200]);
///
/// let refusal =
///     coefficients(Key::Service, shape, &[0, 200, 100, 200], [1, 0, 0], &mut out).unwrap_err();
/// assert_eq!(refusal, Refusal { number: 14, place: 0 });
/// # Ok::<(), Refusal>(())
/// ```
pub fn coefficients(
    key: Key,
    shape: Shape,
    records: &[i32],
    cell: [u32; 3],
    out: &mut [i32],
) -> Result<(), Refusal> {
    // SAFETY: both slices are lent for the call, with their lengths.
    let done = unsafe {
        ffi::lukhtari_coefficients(
            key as u32,
            shape,
            records.as_ptr(),
            records.len(),
            ffi::Index { at: cell },
            out.as_mut_ptr(),
            out.len(),
        )
    };
    answer(done.number, done.place, ())
}

/// Writes the corner records that have these coefficients, corners in order with x fastest, to
/// the front of `out`.
///
/// Refusals in order: 30, 1, 2, 15, 9, 13.
///
/// ```
/// use lukhtari::{corners, Key, Refusal};
/// let mut out = [0; 4];
/// corners(Key::Service, 1, 3, &[0, 100, 500, 200], &mut out)?;
/// assert_eq!(out, [0, 100, 100, 100]);
///
/// let refusal = corners(Key::Service, 1, 3, &[1, 0, 0, 0], &mut out).unwrap_err();
/// assert_eq!(refusal, Refusal { number: 13, place: 0 });
/// # Ok::<(), Refusal>(())
/// ```
pub fn corners(
    key: Key,
    axes: u32,
    degree: u32,
    coefficients: &[i32],
    out: &mut [i32],
) -> Result<(), Refusal> {
    // SAFETY: both slices are lent for the call, with their lengths.
    let done = unsafe {
        ffi::lukhtari_corners(
            key as u32,
            axes,
            degree,
            coefficients.as_ptr(),
            coefficients.len(),
            out.as_mut_ptr(),
            out.len(),
        )
    };
    answer(done.number, done.place, ())
}
