//! The C interface as declared in `lukhtari.h`. The calls of the crate's root are safe to use.
//!
//! A slice is a pointer and its number of elements. It is lent to a call if, until it returns,
//! the pointer is aligned and valid for so many elements: to be read behind `*const`, to be read and
//! written behind `*mut`, where it overlaps no other slice of the call. A slice of length 0 is lent
//! with any pointer, null included: the pointer is not used, and every call but `lukhtari_ramp` is
//! refused.

/// Number of axes, degree, node counts, step numbers and edition of a table.
#[repr(C)]
#[derive(Clone, Copy, Debug, PartialEq, Eq)]
pub struct Shape {
    /// 1, 2 or 3
    pub axes: u32,
    /// 3 or 5
    pub degree: u32,
    /// 2 to 64 on a used axis, 1 on an unused one
    pub counts: [u32; 3],
    /// Steps of a cell: 16, 32, 64, 128 or 256 on a used axis, 1 on an unused one
    pub steps: [u32; 3],
    /// Edition two, in which every stage rounds halves to the even number; else they go up
    pub second_edition: bool,
}

/// A cell's indices, the steps within a cell, node counts, or step numbers.
#[repr(C)]
#[derive(Clone, Copy, Debug, PartialEq, Eq)]
pub struct Index {
    /// x, y, z; 0 on unused axes, for node counts and step numbers 1
    pub at: [u32; 3],
}

/// A table position in steps, so many a cell as the axis has.
#[repr(C)]
#[derive(Clone, Copy, Debug, PartialEq, Eq)]
pub struct Position {
    /// x, y, z; 0 on unused axes
    pub at: [i32; 3],
}

/// A table position in cells.
#[repr(C)]
#[derive(Clone, Copy, Debug, PartialEq)]
pub struct FloatPosition {
    /// along x
    pub x: f32,
    /// along y, 0 where it is not used
    pub y: f32,
    /// along z, 0 where it is not used
    pub z: f32,
}

/// Outcome of a call that fills a buffer. Number 0 means not refused, here and below.
#[repr(C)]
#[derive(Clone, Copy, Debug, PartialEq, Eq)]
pub struct Done {
    /// 0, or the number of the refusal
    pub number: u32,
    /// Place of the refusal, else 0
    pub place: u64,
}

/// A slope or curvature, or a refusal.
#[repr(C)]
#[derive(Clone, Copy, Debug, PartialEq, Eq)]
pub struct Whole {
    /// 0, or the number of the refusal
    pub number: u32,
    /// Place of the refusal, else 0
    pub place: u64,
    /// Slope in units per cell or curvature in units per cell squared, 0 where refused
    pub value: i32,
}

/// A dose and its mark, or a refusal.
#[repr(C)]
#[derive(Clone, Copy, Debug, PartialEq, Eq)]
pub struct Marked {
    /// 0, or the number of the refusal
    pub number: u32,
    /// Place of the refusal, else 0
    pub place: u64,
    /// Dose in units, 0 where refused
    pub value: i32,
    /// No stage dropped anything, and false where refused
    pub exact: bool,
}

/// A dose or slope as a float, or a refusal.
#[repr(C)]
#[derive(Clone, Copy, Debug, PartialEq)]
pub struct Real {
    /// 0, or the number of the refusal
    pub number: u32,
    /// Place of the refusal, else 0
    pub place: u64,
    /// Dose in units or slope in units per cell, 0 where refused
    pub value: f32,
}

/// Number of axes, node counts, step numbers and edition of a file, or a refusal.
#[repr(C)]
#[derive(Clone, Copy, Debug, PartialEq, Eq)]
pub struct Table {
    /// 0, or the number of the refusal
    pub number: u32,
    /// Place of the refusal, else 0
    pub place: u64,
    /// 1, 2 or 3, and 0 where refused
    pub axes: u32,
    /// 1 on unused axes, and 0 where refused
    pub counts: [u32; 3],
    /// 256, 1 on unused axes, and 0 where refused
    pub steps: [u32; 3],
    /// Edition two, and false where refused
    pub second_edition: bool,
}

/// Number of bytes written, or a refusal.
#[repr(C)]
#[derive(Clone, Copy, Debug, PartialEq, Eq)]
pub struct Written {
    /// 0, or the number of the refusal
    pub number: u32,
    /// Place of the refusal, else 0
    pub place: u64,
    /// Number of bytes, 0 where refused
    pub length: u64,
}

/// Number of fetches of a ramp, or a refusal.
#[repr(C)]
#[derive(Clone, Copy, Debug, PartialEq, Eq)]
pub struct Ramped {
    /// 0, or the number of the refusal
    pub number: u32,
    /// Place of the refusal, else 0
    pub place: u64,
    /// How often the corner records of a cell were fetched, 0 where refused
    pub fetches: u64,
}

/// Total of a cell or of a box of cells, or a refusal.
#[repr(C)]
#[derive(Clone, Copy, Debug, PartialEq, Eq)]
pub struct Total {
    /// 0, or the number of the refusal
    pub number: u32,
    /// Place of the refusal, else 0
    pub place: u64,
    /// Over 24^axes for degree 3 and over 120^axes for degree 5, 0 where refused
    pub numerator: i64,
}

// estimate
extern "C" {
    /// Writes the records of all nodes: see [`estimate`](crate::estimate).
    ///
    /// # Safety
    ///
    /// The slices `samples` and `records` are lent as the [module](self) says.
    pub fn lukhtari_estimate(
        key: u32,
        shape: Shape,
        samples: *const i32,
        samples_len: usize,
        records: *mut i32,
        records_len: usize,
    ) -> Done;
}

// coefficients
extern "C" {
    /// Writes the coefficients of a cell: see [`coefficients`](crate::coefficients).
    ///
    /// # Safety
    ///
    /// The slices `records` and `out` are lent as the [module](self) says.
    pub fn lukhtari_coefficients(
        key: u32,
        shape: Shape,
        records: *const i32,
        records_len: usize,
        cell: Index,
        out: *mut i32,
        out_len: usize,
    ) -> Done;

    /// Writes the corner records of coefficients: see [`corners`](crate::corners).
    ///
    /// # Safety
    ///
    /// The slices `coefficients` and `out` are lent as the [module](self) says.
    pub fn lukhtari_corners(
        key: u32,
        axes: u32,
        degree: u32,
        coefficients: *const i32,
        coefficients_len: usize,
        out: *mut i32,
        out_len: usize,
    ) -> Done;
}

// powers
extern "C" {
    /// Writes the power coefficients of a cell: see [`powers`](crate::powers).
    ///
    /// # Safety
    ///
    /// The slices `records` and `out` are lent as the [module](self) says.
    pub fn lukhtari_powers(
        key: u32,
        shape: Shape,
        records: *const i32,
        records_len: usize,
        cell: Index,
        out: *mut i32,
        out_len: usize,
    ) -> Done;
}

// whole
extern "C" {
    /// Dose at a table position: see [`dose`](crate::dose).
    ///
    /// # Safety
    ///
    /// The slice `records` is lent as the [module](self) says.
    pub fn lukhtari_dose(
        key: u32,
        shape: Shape,
        records: *const i32,
        records_len: usize,
        position: Position,
    ) -> Marked;

    /// Slope at a table position: see [`slope`](crate::slope).
    ///
    /// # Safety
    ///
    /// The slice `records` is lent as the [module](self) says.
    pub fn lukhtari_slope(
        key: u32,
        shape: Shape,
        records: *const i32,
        records_len: usize,
        position: Position,
        axis: u32,
    ) -> Whole;

    /// Dose within a cell: see [`dose_in_cell`](crate::dose_in_cell).
    ///
    /// # Safety
    ///
    /// The slice `records` is lent as the [module](self) says.
    pub fn lukhtari_dose_in_cell(
        key: u32,
        shape: Shape,
        records: *const i32,
        records_len: usize,
        cell: Index,
        u: Index,
    ) -> Marked;

    /// Slope within a cell: see [`slope_in_cell`](crate::slope_in_cell).
    ///
    /// # Safety
    ///
    /// The slice `records` is lent as the [module](self) says.
    pub fn lukhtari_slope_in_cell(
        key: u32,
        shape: Shape,
        records: *const i32,
        records_len: usize,
        cell: Index,
        u: Index,
        axis: u32,
    ) -> Whole;

    /// Curvature at a table position: see [`curvature`](crate::curvature).
    ///
    /// # Safety
    ///
    /// The slice `records` is lent as the [module](self) says.
    pub fn lukhtari_curvature(
        key: u32,
        shape: Shape,
        records: *const i32,
        records_len: usize,
        position: Position,
        axis: u32,
    ) -> Whole;

    /// Curvature within a cell: see [`curvature_in_cell`](crate::curvature_in_cell).
    ///
    /// # Safety
    ///
    /// The slice `records` is lent as the [module](self) says.
    pub fn lukhtari_curvature_in_cell(
        key: u32,
        shape: Shape,
        records: *const i32,
        records_len: usize,
        cell: Index,
        u: Index,
        axis: u32,
    ) -> Whole;
}

// real
extern "C" {
    /// Dose at a position in cells: see [`dose_float`](crate::dose_float).
    ///
    /// # Safety
    ///
    /// The slice `records` is lent as the [module](self) says.
    pub fn lukhtari_dose_float(
        key: u32,
        shape: Shape,
        records: *const i32,
        records_len: usize,
        position: FloatPosition,
    ) -> Real;

    /// Slope at a position in cells: see [`slope_float`](crate::slope_float).
    ///
    /// # Safety
    ///
    /// The slice `records` is lent as the [module](self) says.
    pub fn lukhtari_slope_float(
        key: u32,
        shape: Shape,
        records: *const i32,
        records_len: usize,
        position: FloatPosition,
        axis: u32,
    ) -> Real;
}

// file
extern "C" {
    /// Reads a table file: see [`read`](crate::read).
    ///
    /// # Safety
    ///
    /// The slices `bytes` and `samples` are lent as the [module](self) says.
    pub fn lukhtari_read(
        key: u32,
        bytes: *const u8,
        bytes_len: usize,
        samples: *mut i32,
        samples_len: usize,
    ) -> Table;

    /// Writes a table file: see [`write`](crate::write).
    ///
    /// # Safety
    ///
    /// The slices `samples` and `bytes` are lent as the [module](self) says.
    pub fn lukhtari_write(
        key: u32,
        axes: u32,
        counts: Index,
        steps: Index,
        second_edition: bool,
        samples: *const i32,
        samples_len: usize,
        bytes: *mut u8,
        bytes_len: usize,
    ) -> Written;
}

// import
extern "C" {
    /// Reads the text of a table: see [`import`](crate::import).
    ///
    /// # Safety
    ///
    /// The slices `text` and `samples` are lent as the [module](self) says.
    pub fn lukhtari_import(
        key: u32,
        shape: Shape,
        text: *const u8,
        text_len: usize,
        samples: *mut i32,
        samples_len: usize,
    ) -> Done;
}

// pool
extern "C" {
    /// Pools two lattices by weight: see [`pool`](crate::pool).
    ///
    /// # Safety
    ///
    /// The slices `samples_a`, `samples_b` and `out` are lent as the [module](self) says; the first
    /// two may be the same.
    pub fn lukhtari_pool(
        key: u32,
        shape_a: Shape,
        samples_a: *const i32,
        samples_a_len: usize,
        weight_a: u32,
        shape_b: Shape,
        samples_b: *const i32,
        samples_b_len: usize,
        weight_b: u32,
        out: *mut i32,
        out_len: usize,
    ) -> Done;
}

// ramp
extern "C" {
    /// Doses at a list of table positions: see [`ramp`](crate::ramp).
    ///
    /// # Safety
    ///
    /// The slices `records`, `positions` and `answers` are lent as the [module](self) says.
    pub fn lukhtari_ramp(
        key: u32,
        shape: Shape,
        records: *const i32,
        records_len: usize,
        positions: *const i32,
        positions_len: usize,
        answers: *mut i32,
        answers_len: usize,
    ) -> Ramped;
}

// totals
extern "C" {
    /// Total of a cell: see [`cell_total`](crate::cell_total).
    ///
    /// # Safety
    ///
    /// The slice `records` is lent as the [module](self) says.
    pub fn lukhtari_cell_total(
        key: u32,
        shape: Shape,
        records: *const i32,
        records_len: usize,
        cell: Index,
    ) -> Total;

    /// Total of a box of cells: see [`box_total`](crate::box_total).
    ///
    /// # Safety
    ///
    /// The slice `records` is lent as the [module](self) says.
    pub fn lukhtari_box_total(
        key: u32,
        shape: Shape,
        records: *const i32,
        records_len: usize,
        first: Index,
        last: Index,
    ) -> Total;
}
