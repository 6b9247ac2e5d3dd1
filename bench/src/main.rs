//! The library's calls beside hand-written Rust and C of the same whole calls, the published method
//! in f64, and LittleCMS where it is installed. All times are of one run, in nanoseconds a call, of
//! import a byte, of pooling a sample, of ramps a dose, of totals a cell; in brackets is the
//! library's time divided by the other's. The tables are those of `docs/SPEED.md`.
//!
//! Doses, slopes and curvatures by hand are of two kinds: specialised, with one copy of the code
//! for each degree, number of axes, axis worked off last and edition; and plain, with one copy for
//! all of them. Each kind works off an axis in two ways: as printed, and with the table folded into
//! the weights. Doses by hand carry no mark; the library's do.

mod c;
mod clock;
mod conversion;
mod double;
mod editions;
mod estimation;
mod floats;
mod hand;
mod import;
mod inputs;
mod lcms;
mod pooling;
mod powers;
mod queries;
mod ramps;
mod report;
mod steps;
mod totals;

use std::env;

// All parts, or those named by the arguments.
fn main() {
    let parts: [(&str, fn()); 13] = [
        ("import", import::run),
        ("pooling", pooling::run),
        ("estimation", estimation::run),
        ("conversion", conversion::run),
        ("powers", powers::run),
        ("totals", totals::run),
        ("queries", queries::run),
        ("editions", editions::run),
        ("steps", steps::run),
        ("ramps", ramps::run),
        ("floats", floats::run),
        ("c", c::run),
        ("lcms", lcms::run),
    ];
    let named: Vec<String> = env::args().skip(1).collect();
    for name in &named {
        let known = parts.iter().any(|part| part.0 == name);
        assert!(known, "there is no part {name}");
    }
    for (name, part) in parts {
        if named.is_empty() || named.iter().any(|wanted| wanted == name) {
            part();
        }
    }
}
