//! Refusals.

use core::error::Error;
use core::fmt;

/// Why a call was refused: the number of the reason, and the first offending index.
///
/// ```
/// use lukhtari::Refusal;
/// let refusal = Refusal { number: 10, place: 2 };
/// assert_eq!(refusal.number, Refusal::NOT_FINITE);
/// assert_eq!(refusal.to_string(), "refused 10: the position on axis 2 is NaN or infinite");
/// ```
#[derive(Clone, Copy, Debug, PartialEq, Eq)]
pub struct Refusal {
    /// 1 to 30, the constants below
    pub number: u32,
    /// An index counted from 0, and 0 where the reason names none; of 5, 11, 22 and 23 of a ramp the
    /// index of the position in the list
    pub place: u64,
}

/// The numbers of refusals.
impl Refusal {
    /// The number of axes is not 1, 2 or 3.
    pub const AXES: u32 = 1;
    /// The degree is neither 3 nor 5.
    pub const DEGREE: u32 = 2;
    /// A node count is not allowed; the place is the axis.
    pub const NODE_COUNT: u32 = 3;
    /// The samples or records lent, or the tokens of a text, are not as many as the shape has.
    pub const LENGTH: u32 = 4;
    /// A sample of a file, of a text or to be pooled, or an entry, is beyond its limit; the place is
    /// its index in the slice.
    pub const BEYOND_LIMIT: u32 = 5;
    /// The file's bytes end early; the place is their number.
    pub const FILE_ENDS_EARLY: u32 = 6;
    /// The file has bytes left over; the place is the index of the first.
    pub const FILE_LEFT_OVER: u32 = 7;
    /// The file's number of samples is not the product of its node counts.
    pub const FILE_SAMPLE_COUNT: u32 = 8;
    /// A buffer to be written is shorter than needed.
    pub const BUFFER_TOO_SHORT: u32 = 9;
    /// A float is NaN or infinite; the place is the axis.
    pub const NOT_FINITE: u32 = 10;
    /// A position is beyond the last node, or an in-cell step above the axis's step number; the place
    /// is the axis.
    pub const POSITION_BEYOND: u32 = 11;
    /// The axis of a slope or curvature is not used.
    pub const SLOPE_AXIS: u32 = 12;
    /// No permitted corner records have these coefficients.
    pub const NO_CORNER_RECORDS: u32 = 13;
    /// A cell index is outside the table; the place is the axis.
    pub const CELL: u32 = 14;
    /// The coefficients lent are not exactly as many as a cell has.
    pub const COEFFICIENT_COUNT: u32 = 15;
    /// A token is longer than 64 bytes; the place is its first byte.
    pub const TOKEN_TOO_LONG: u32 = 16;
    /// A token does not fit the grammar of numbers; the place is its first byte.
    pub const TOKEN_GRAMMAR: u32 = 17;
    /// A token is not a whole number of units; the place is its first byte.
    pub const TOKEN_NOT_WHOLE: u32 = 18;
    /// A sample given for estimation is beyond its limit there; the place is its index.
    pub const BEYOND_ESTIMATE_LIMIT: u32 = 19;
    /// A ramp has more than 256 positions, or their numbers are not three for each.
    pub const RAMP_LENGTH: u32 = 20;
    /// A curvature is asked for in degree 3.
    pub const CURVATURE_DEGREE: u32 = 21;
    /// A position is below 0; the place is the axis.
    pub const POSITION_BELOW_ZERO: u32 = 22;
    /// A position or in-cell step is not 0 on an unused axis; the place is the axis.
    pub const POSITION_UNUSED_AXIS: u32 = 23;
    /// Power coefficients are asked for of a table that is not two-axis cubic.
    pub const POWERS_SHAPE: u32 = 24;
    /// The third section of the file is not the one of edition two.
    pub const FILE_EDITION: u32 = 25;
    /// A step number is not allowed; the place is the axis.
    pub const STEP_NUMBER: u32 = 26;
    /// The shapes of two lattices that are to be pooled differ.
    pub const SHAPES_DIFFER: u32 = 27;
    /// A weight is above 10,000, or both are 0.
    pub const WEIGHTS: u32 = 28;
    /// A box of cells has a first index above its last, or a last index outside the table; the place
    /// is the axis.
    pub const BOX: u32 = 29;
    /// The key lacks the right to make the call, or is none.
    pub const KEY: u32 = 30;
}

impl fmt::Display for Refusal {
    fn fmt(&self, f: &mut fmt::Formatter) -> fmt::Result {
        let Refusal { number, place } = *self;
        write!(f, "refused {number}: ")?;
        match number {
            Self::AXES => write!(f, "the number of axes is not 1, 2 or 3"),
            Self::DEGREE => write!(f, "the degree is neither 3 nor 5"),
            Self::NODE_COUNT => write!(f, "the node count of axis {place} is not allowed"),
            Self::LENGTH => write!(
                f,
                "the samples, records or tokens are not as many as the shape has"
            ),
            Self::BEYOND_LIMIT => write!(f, "the number at index {place} is beyond its limit"),
            Self::FILE_ENDS_EARLY => write!(f, "the file ends early, after {place} bytes"),
            Self::FILE_LEFT_OVER => write!(f, "the file has bytes left over, from byte {place} on"),
            Self::FILE_SAMPLE_COUNT => write!(
                f,
                "the file's sample count is not the product of its node counts"
            ),
            Self::BUFFER_TOO_SHORT => write!(f, "the buffer to be written is too short"),
            Self::NOT_FINITE => write!(f, "the position on axis {place} is NaN or infinite"),
            Self::POSITION_BEYOND => position(
                f,
                place,
                "is beyond the last node or step: take a smaller one",
            ),
            Self::SLOPE_AXIS => write!(f, "the axis of the slope or curvature is not used"),
            Self::NO_CORNER_RECORDS => {
                write!(f, "no permitted corner records have these coefficients")
            }
            Self::CELL => write!(f, "the cell index on axis {place} is outside the table"),
            Self::COEFFICIENT_COUNT => write!(f, "the coefficients are not as many as a cell has"),
            Self::TOKEN_TOO_LONG => write!(f, "the token at byte {place} is longer than 64 bytes"),
            Self::TOKEN_GRAMMAR => write!(f, "the token at byte {place} is no number"),
            Self::TOKEN_NOT_WHOLE => {
                write!(
                    f,
                    "the token at byte {place} is not a whole number of units"
                )
            }
            Self::BEYOND_ESTIMATE_LIMIT => {
                write!(
                    f,
                    "the sample at index {place} is beyond the limit of estimation"
                )
            }
            Self::RAMP_LENGTH => write!(
                f,
                "the ramp has over 256 positions, or not three numbers for each"
            ),
            Self::CURVATURE_DEGREE => write!(f, "a table of degree 3 has no curvature"),
            Self::POSITION_BELOW_ZERO => position(f, place, "is below 0: take 0 or more"),
            Self::POSITION_UNUSED_AXIS => {
                position(f, place, "is not 0 on an axis that is not used: take 0")
            }
            Self::POWERS_SHAPE => write!(f, "only two-axis cubic tables have power coefficients"),
            Self::FILE_EDITION => {
                write!(
                    f,
                    "the file's third section is not the count 1 and the number 2"
                )
            }
            Self::STEP_NUMBER => write!(f, "the step number of axis {place} is not allowed"),
            Self::SHAPES_DIFFER => write!(f, "the shapes of the two lattices differ"),
            Self::WEIGHTS => write!(f, "a weight is above 10,000, or both weights are 0"),
            Self::BOX => write!(
                f,
                "the box on axis {place} ends outside the table or before it starts"
            ),
            Self::KEY => write!(f, "the key lacks the right to make this call"),
            _ => write!(f, "unknown reason"),
        }
    }
}

// What is wrong with a position, whose place in a ramp is its index in the list.
fn position(f: &mut fmt::Formatter, place: u64, wrong: &str) -> fmt::Result {
    write!(
        f,
        "the position on axis {place}, of a ramp at index {place}, {wrong}"
    )
}

impl Error for Refusal {}
