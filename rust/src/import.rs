//! Samples from decimal text.

use crate::answer::answer;
use crate::{ffi, Key, Refusal, Shape};

/// Reads the text of a table of this shape and writes its samples to the front of `samples`.
///
/// The text has one token for each sample, with space, tab, line feed and carriage return between
/// them. A token is a number as in RFC 8259, section 6, in grams per kilogram; the sample is its
/// exact value times 100.
///
/// Refusals in order: 30, 1, 2, 3, 26, 4, 9, then token by token 16, 17, 18, 5. The place of 16, 17 and
/// 18 is the index of the token's first byte in the text, that of 5 the sample's index.
///
/// ```
/// use lukhtari::{import, Key, Refusal, Shape};
/// let shape = Shape::new(1, 3, [3, 1, 1]);
/// let mut samples = [0; 3];
/// import(Key::Colourist, shape, b"5e-1 0.5\n-327.68", &mut samples)?;
/// assert_eq!(samples, [50, 50, -32768]);
///
/// let refusal = import(Key::Colourist, shape, b"5e-1 .5\n-327.68", &mut samples).unwrap_err();
/// assert_eq!(refusal, Refusal { number: 17, place: 5 });
/// # Ok::<(), Refusal>(())
/// ```
pub fn import(key: Key, shape: Shape, text: &[u8], samples: &mut [i32]) -> Result<(), Refusal> {
    // SAFETY: both slices are lent for the call, with their lengths.
    let done = unsafe {
        ffi::lukhtari_import(
            key as u32,
            shape,
            text.as_ptr(),
            text.len(),
            samples.as_mut_ptr(),
            samples.len(),
        )
    };
    answer(done.number, done.place, ())
}
