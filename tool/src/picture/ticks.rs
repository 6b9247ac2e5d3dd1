//! Round numbers along a scale.

// Round whole numbers from the last one up to `low` to the first one from `high` on.
pub fn around(low: f64, high: f64, most: usize) -> Vec<f64> {
    let step = step(high - low, most);
    let (first, last) = ((low / step).floor() as i64, (high / step).ceil() as i64);
    (first..=last).map(|index| index as f64 * step).collect()
}

// Round whole numbers from `low` to `high`.
pub fn within(low: f64, high: f64, most: usize) -> Vec<f64> {
    let step = step(high - low, most);
    let (first, last) = ((low / step).ceil() as i64, (high / step).floor() as i64);
    (first..=last).map(|index| index as f64 * step).collect()
}

// The least of 1, 2, 5, 10, 20 .. of which at most so many fit.
fn step(length: f64, most: usize) -> f64 {
    let steps = (0..).flat_map(|power| [1.0, 2.0, 5.0].map(|digit| digit * 10_f64.powi(power)));
    let mut fitting = steps
        .into_iter()
        .filter(|step| length / step <= most as f64);
    fitting.next().unwrap_or(1.0)
}
