//! Reference model of documents 01 and 02 in rational numbers: plain and slow.
//!
//! Every call has its counterpart here, with the refusals in the documents' order. A call that
//! fills a lent buffer takes the buffer's length (`room`) and returns what is to be written.

#![allow(dead_code, unused_imports)]

pub mod block;
pub mod coefficients;
pub mod estimate;
pub mod file;
pub mod float;
pub mod int;
pub mod listing;
pub mod pool;
pub mod powers;
pub mod program;
pub mod query;
pub mod ramp;
pub mod rational;
pub mod shape;
pub mod stages;
pub mod text;
pub mod totals;

pub use rational::Rational;
pub use shape::{Answer, Refusal, Shape};
pub use stages::Want;
