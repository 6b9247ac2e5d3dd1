//! Hermite interpolation on lattices of one to three axes, cubic or quintic, in whole numbers.
//!
//! A table is a [`Shape`] with one sample for each node, from the host, a table file or decimal
//! text, or pooled from two lattices by weight. Estimation makes each node's record from the
//! samples; doses and slopes are then asked for by table position, by cell or by float, doses also
//! by a list of positions, and curvatures of quintic tables by table position or by cell. A cell's
//! polynomial is given by its coefficients, of two-axis cubic tables also by those of powers of x
//! and y. The integral of the dose over a cell or over a box of cells is its total. Every call
//! either answers or gives a [`Refusal`] with its number and place, and a refused call leaves every
//! lent buffer as it was. All calls are made by the static library `liblukhtari.a`; the crate uses
//! neither `std` nor other crates.
//!
//! Samples, records and coefficients stand in slices with x fastest. A position counts so many steps
//! for each cell as the shape says of the axis: 16, 32, 64, 128 or 256, its step number. Arrays of
//! three hold one number for each axis, x first, and 0 on unused axes (node counts and step numbers
//! hold 1 there).
//!
//! A table has one of two editions, a part of its shape: the stages of an answer round halves up in
//! edition one and to the even number in edition two. Nothing else depends on it, but that lattices
//! of different editions are not pooled.
//!
//! A [`Dose`] by position or by cell is marked exact where no stage dropped anything; slopes,
//! curvatures, floats and ramps carry no mark.
//!
//! Every call names its [`Key`]: the operator takes doses and slopes, the colourist also makes tables,
//! service does everything.

#![no_std]
#![warn(missing_docs)]

mod answer;
pub mod ffi;
mod key;
pub mod limits;
mod refusal;
mod shape;

pub use ffi::Shape;
pub use key::Key;
pub use refusal::Refusal;

mod estimate;
pub use estimate::estimate;

mod coefficients;
pub use coefficients::{coefficients, corners};

mod powers;
pub use powers::powers;

mod whole;
pub use whole::{curvature, curvature_in_cell, dose, dose_in_cell, slope, slope_in_cell, Dose};

mod ramp;
pub use ramp::ramp;

mod totals;
pub use totals::{box_total, cell_total};

mod real;
pub use real::{dose_float, slope_float};

mod file;
pub use file::{read, write, Table};

mod import;
pub use import::import;

mod pool;
pub use pool::{pool, Measurement};

// The examples of the README are run.
#[cfg(doctest)]
#[doc = include_str!("../../README.md")]
struct Readme;
