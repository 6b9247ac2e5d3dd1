//! Two lattices pooled by weight.

use crate::answer::answer;
use crate::{ffi, Key, Refusal, Shape};

/// A lattice that was measured, with its weight.
#[derive(Clone, Copy, Debug, PartialEq, Eq)]
pub struct Measurement<'a> {
    /// The shape of its table
    pub shape: Shape,
    /// One sample for each node
    pub samples: &'a [i32],
    /// 0 to [`WEIGHT_MAX`](crate::limits::WEIGHT_MAX)
    pub weight: u32,
}

/// Pools two lattices of one shape by weight and writes the pooled samples to the front of
/// `samples`.
///
/// With samples a and b of weights v and w a pooled sample is (a·v + b·w)/(v + w), rounded to the
/// nearest, halves up in both editions. It is within 1/2 of the exact mean and between a and b. A
/// weight of 0 gives the other lattice, and a lattice pooled with itself is given back.
///
/// Refusals in order: 30, 1, 2, 3, 26, 27, 28, 4, 9, 5; under each of 1 to 3, 26, 4 and 5 the first
/// lattice is tested before the second, and the place does not say which of them it is.
///
/// ```
/// use lukhtari::{pool, Key, Measurement, Refusal, Shape};
/// let shape = Shape { axes: 1, degree: 3, counts: [3, 1, 1], steps: [256, 1, 1], second_edition: false };
/// let monday = Measurement { shape, samples: &[0, 100, -1], weight: 3 };
/// let friday = Measurement { shape, samples: &[1, 108, 0], weight: 1 };
/// let mut samples = [0; 3];
/// pool(Key::Colourist, monday, friday, &mut samples)?;
/// assert_eq!(samples, [0, 102, -1]);
///
/// // Halves go up.
/// pool(Key::Colourist, Measurement { weight: 1, ..monday }, friday, &mut samples)?;
/// assert_eq!(samples, [1, 104, 0]);
///
/// let other = Shape { second_edition: true, ..shape };
/// let friday = Measurement { shape: other, ..friday };
/// let refusal = pool(Key::Colourist, monday, friday, &mut samples).unwrap_err();
/// assert_eq!(refusal, Refusal { number: 27, place: 0 });
/// # Ok::<(), Refusal>(())
/// ```
pub fn pool(key: Key, a: Measurement, b: Measurement, samples: &mut [i32]) -> Result<(), Refusal> {
    // SAFETY: all three slices are lent for the call, with their lengths.
    let done = unsafe {
        ffi::lukhtari_pool(
            key as u32,
            a.shape,
            a.samples.as_ptr(),
            a.samples.len(),
            a.weight,
            b.shape,
            b.samples.as_ptr(),
            b.samples.len(),
            b.weight,
            samples.as_mut_ptr(),
            samples.len(),
        )
    };
    answer(done.number, done.place, ())
}
