//! Limits of tables and the largest sizes of buffers, as `lukhtari.h` has them.

/// Number of the C interface; another number means other structs, calls or names.
pub const INTERFACE: u32 = 12;

/// Least step number of a used axis; 32, 64 and 128 are between it and the largest.
pub const STEPS_MIN: u32 = 16;

/// Largest step number of a used axis.
pub const STEPS_MAX: u32 = 256;

/// Least node count of a used axis.
pub const COUNT_MIN: u32 = 2;

/// Largest node count of an axis.
pub const COUNT_MAX: u32 = 64;

/// Most nodes of a table.
pub const NODES_MAX: usize = (COUNT_MAX as usize).pow(3);

/// Largest size of a sample.
pub const SAMPLE_LIMIT: i32 = 32768;

/// Largest size of a sample given for estimation on `axes` axes, 1 to 3.
///
/// ```
/// use lukhtari::limits::estimate_limit;
/// assert_eq!([1, 2, 3].map(estimate_limit), [16384, 8192, 4096]);
/// ```
pub const fn estimate_limit(axes: u32) -> i32 {
    SAMPLE_LIMIT / 2_i32.saturating_pow(axes)
}

/// Largest size of an entry whose orders add up to `orders`, which is at most 6.
///
/// ```
/// use lukhtari::limits::{entry_limit, SAMPLE_LIMIT};
/// assert_eq!(entry_limit(0), SAMPLE_LIMIT);
/// assert_eq!(entry_limit(3), 8 * SAMPLE_LIMIT);
/// ```
pub const fn entry_limit(orders: u32) -> i32 {
    SAMPLE_LIMIT.saturating_mul(2_i32.saturating_pow(orders))
}

/// Largest size of a coefficient.
pub const COEFFICIENT_LIMIT: i32 = 1 << 30;

/// Numbers of an export of power coefficients.
pub const POWER_COEFFICIENTS: usize = 16;

/// Largest size of such a number, which is 4 times a coefficient.
pub const POWER_COEFFICIENT_LIMIT: i32 = 10_616_832;

/// Divisor of the total of a cell or of a box of cells: 24 to the power of `axes` for degree 3, 120
/// for degree 5.
///
/// ```
/// use lukhtari::limits::total_divisor;
/// assert_eq!(total_divisor(2, 3), 576);
/// assert_eq!(total_divisor(3, 5), 1_728_000);
/// ```
pub const fn total_divisor(axes: u32, degree: u32) -> i64 {
    let one: i64 = if degree == 3 { 24 } else { 120 };
    one.saturating_pow(axes)
}

/// Totals are not larger than this in size.
pub const TOTAL_LIMIT: i64 = 1 << 60;

/// Doses, slopes and curvatures are smaller than this in size.
pub const ANSWER_LIMIT: i32 = 1 << 24;

/// Most bytes of a token.
pub const TOKEN_BYTES_MAX: usize = 64;

/// Most positions of a ramp.
pub const RAMP_MAX: usize = 256;

/// Largest weight of a lattice that is pooled.
pub const WEIGHT_MAX: u32 = 10_000;

/// Most entries of one record.
pub const RECORD_ENTRIES_MAX: usize = 27;

/// Most entries of all records of a table.
pub const ENTRIES_MAX: usize = NODES_MAX * RECORD_ENTRIES_MAX;

/// Most coefficients of a cell, and most entries of its corner records.
pub const COEFFICIENTS_MAX: usize = 216;

/// Most bytes of a table file.
pub const FILE_BYTES_MAX: usize = 4 * (2 + 3 + NODES_MAX + 2);

/// Most bytes of stack that an estimation uses.
pub const STACK_ESTIMATE: usize = 8192;

/// Most bytes of stack that coefficients, corner records or power coefficients use.
pub const STACK_CONVERSION: usize = 4096;

/// Most bytes of stack that a dose, slope or curvature uses.
pub const STACK_QUERY: usize = 2048;

/// Most bytes of stack that reading or writing a table file uses.
pub const STACK_FILE: usize = 1024;

/// Most bytes of stack that reading the text of a table uses.
pub const STACK_IMPORT: usize = 1024;

/// Most bytes of stack that a ramp uses.
pub const STACK_RAMP: usize = 9216;

/// Most bytes of stack that pooling uses.
pub const STACK_POOL: usize = 1024;

/// Most bytes of stack that a total uses.
pub const STACK_TOTAL: usize = 2048;
