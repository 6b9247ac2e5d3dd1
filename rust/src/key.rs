//! Keys.

/// Who makes a call. A key holds the rights of those before it.
///
/// For the same call two keys that both hold the right get the same answer. Without the right a call
/// is refused 30, before every other test, and says nothing of the table or any other argument.
///
/// ```
/// use lukhtari::{estimate, Key, Refusal, Shape};
/// let shape = Shape::new(1, 3, [2, 1, 1]);
/// let mut records = [7; 4];
/// let refusal = estimate(Key::Operator, shape, &[0, 100], &mut records).unwrap_err();
/// assert_eq!(refusal, Refusal { number: 30, place: 0 });
/// assert_eq!(records, [7; 4]);
///
/// estimate(Key::Colourist, shape, &[0, 100], &mut records)?;
/// assert_eq!(records, [0, 200, 100, 200]);
/// # Ok::<(), Refusal>(())
/// ```
#[repr(u32)]
#[derive(Clone, Copy, Debug, PartialEq, Eq, PartialOrd, Ord)]
pub enum Key {
    /// Doses and slopes, ramps included
    Operator = 1,
    /// Also reading and writing files, import, estimation and pooling
    Colourist = 2,
    /// Everything
    Service = 3,
}
