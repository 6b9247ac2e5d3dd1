//! Pictures of tables, as SVG.

pub mod curves;
pub mod shades;
mod svg;
mod ticks;

use crate::words;

// What a picture shows.
#[derive(Clone, Copy, PartialEq, Eq)]
pub enum Shown {
    Dose,
    Slope(u32),
}

impl Shown {
    // The numbers with their unit, for a scale.
    fn label(self) -> String {
        match self {
            Shown::Dose => "dose in units of 0.01 g/kg".to_string(),
            Shown::Slope(axis) => format!(
                "slope along {} in units of 0.01 g/kg per cell",
                words::axis(u64::from(axis))
            ),
        }
    }
}

// The least and the largest number, at least one apart.
fn range(numbers: impl Iterator<Item = i32> + Clone) -> (f64, f64) {
    let least = f64::from(numbers.clone().min().unwrap_or(0));
    let most = f64::from(numbers.max().unwrap_or(0));
    (least, most.max(least + 1.0))
}
