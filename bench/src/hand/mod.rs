//! Hand-written Rust of the same calls, with all their checks.

pub mod checks;
pub mod conversion;
pub mod estimation;
pub mod import;
pub mod method;
pub mod plain;
pub mod point;
pub mod pooling;
pub mod powers;
pub mod query;
pub mod ramp;
pub mod stages;
pub mod totals;
