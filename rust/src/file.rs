//! The table file.

use crate::answer::answer;
use crate::{ffi, Key, Refusal, Shape};

/// Number of axes, node counts, step numbers and edition of a file that was read.
#[derive(Clone, Copy, Debug, PartialEq, Eq)]
pub struct Table {
    /// 1, 2 or 3
    pub axes: u32,
    /// 1 on unused axes
    pub counts: [u32; 3],
    /// 256, which no file holds, and 1 on unused axes
    pub steps: [u32; 3],
    /// Whether the file is of edition two
    pub second_edition: bool,
}

impl Table {
    /// Number of samples.
    pub fn nodes(&self) -> usize {
        self.counts.iter().map(|&count| count as usize).product()
    }

    /// The shape of the table in a degree.
    ///
    /// ```
    /// use lukhtari::{read, Key, Refusal, Shape};
    /// let bytes = [1, 0, 0, 0, 2, 0, 0, 0, 2, 0, 0, 0, 0, 0, 0, 0, 100, 0, 0, 0];
    /// let shape = read(Key::Colourist, &bytes, &mut [0; 2])?.shape(3);
    /// assert_eq!(shape, Shape::new(1, 3, [2, 1, 1]));
    /// # Ok::<(), Refusal>(())
    /// ```
    pub fn shape(&self, degree: u32) -> Shape {
        let Table {
            axes,
            counts,
            steps,
            second_edition,
        } = *self;
        Shape {
            axes,
            degree,
            counts,
            steps,
            second_edition,
        }
    }
}

/// Reads a table file and writes its samples to the front of `samples`.
///
/// A file that ends with its samples is of edition one; one of edition two has a third section. A
/// file holds no step numbers: each used axis has 256.
///
/// Refusals: 30; in byte order 6, 1, 3, 8, 6, then 6 and 25 of the third section, 7; then 9, 5.
///
/// ```
/// use lukhtari::{read, Key, Refusal};
/// let bytes = [1, 0, 0, 0, 2, 0, 0, 0, 2, 0, 0, 0, 0, 0, 0, 0, 100, 0, 0, 0];
/// let mut samples = [0; 2];
/// let table = read(Key::Colourist, &bytes, &mut samples)?;
/// assert_eq!((table.axes, table.counts, table.second_edition), (1, [2, 1, 1], false));
/// assert_eq!(table.steps, [256, 1, 1]);
/// assert_eq!(samples, [0, 100]);
///
/// let refusal = read(Key::Colourist, &bytes[..19], &mut samples).unwrap_err();
/// assert_eq!(refusal, Refusal { number: 6, place: 19 });
/// # Ok::<(), Refusal>(())
/// ```
pub fn read(key: Key, bytes: &[u8], samples: &mut [i32]) -> Result<Table, Refusal> {
    // SAFETY: both slices are lent for the call, with their lengths.
    let result = unsafe {
        ffi::lukhtari_read(
            key as u32,
            bytes.as_ptr(),
            bytes.len(),
            samples.as_mut_ptr(),
            samples.len(),
        )
    };
    let table = Table {
        axes: result.axes,
        counts: result.counts,
        steps: result.steps,
        second_edition: result.second_edition,
    };
    answer(result.number, result.place, table)
}

/// Writes a table file to the front of `bytes` and returns its length, which is 8 more in edition
/// two. The step numbers are tested and left out.
///
/// Refusals in order: 30, 1, 3, 26, 4, 9, 5.
///
/// ```
/// use lukhtari::{write, Key, Refusal};
/// let mut bytes = [0; 28];
/// assert_eq!(write(Key::Colourist, 1, [2, 1, 1], [256, 1, 1], false, &[0, 100], &mut bytes)?, 20);
/// assert_eq!(bytes[16..20], [100, 0, 0, 0]);
/// assert_eq!(write(Key::Colourist, 1, [2, 1, 1], [16, 1, 1], true, &[0, 100], &mut bytes)?, 28);
/// assert_eq!(bytes[20..], [1, 0, 0, 0, 2, 0, 0, 0]);
///
/// let refusal = write(Key::Colourist, 1, [2, 1, 2], [256, 1, 1], false, &[0, 100], &mut bytes)
///     .unwrap_err();
/// assert_eq!(refusal, Refusal { number: 3, place: 2 });
/// let refusal = write(Key::Colourist, 1, [2, 1, 1], [256, 1, 256], false, &[0, 100], &mut bytes)
///     .unwrap_err();
/// assert_eq!(refusal, Refusal { number: 26, place: 2 });
/// # Ok::<(), Refusal>(())
/// ```
pub fn write(
    key: Key,
    axes: u32,
    counts: [u32; 3],
    steps: [u32; 3],
    second_edition: bool,
    samples: &[i32],
    bytes: &mut [u8],
) -> Result<usize, Refusal> {
    // SAFETY: both slices are lent for the call, with their lengths.
    let result = unsafe {
        ffi::lukhtari_write(
            key as u32,
            axes,
            ffi::Index { at: counts },
            ffi::Index { at: steps },
            second_edition,
            samples.as_ptr(),
            samples.len(),
            bytes.as_mut_ptr(),
            bytes.len(),
        )
    };
    answer(result.number, result.place, result.length as usize)
}
