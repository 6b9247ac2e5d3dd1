//! Printing, as tables of Markdown.

use super::inputs::Want;

// A title and the names of the columns.
pub fn heading(title: &str, columns: &[&str]) {
    println!("\n## {title}\n");
    println!("| | {} |", columns.join(" | "));
    println!("|---|{}", "---|".repeat(columns.len()));
}

// One row: the library's time, then each other time with the library's time divided by it.
//
// A ratio below 1 means that the library is the faster one.
pub fn line(name: &str, times: &[f64]) {
    let mut row = format!("| {name} | {} |", nanoseconds(times[0]));
    for time in &times[1..] {
        row += &format!(" {} ({:.2}) |", nanoseconds(*time), times[0] / time);
    }
    println!("{row}");
}

// The name of a kind of table.
pub fn kind(degree: u32, axes: u32) -> String {
    let degree = if degree == 3 { "cubic" } else { "quintic" };
    match axes {
        1 => format!("{degree}, 1 axis"),
        _ => format!("{degree}, {axes} axes"),
    }
}

// The name of a dose, or of a slope or curvature along an axis.
pub fn wanted(want: Want) -> String {
    let kind = ["dose", "slope", "curvature"][want.order() as usize];
    match want.axis() {
        None => kind.to_string(),
        Some(axis) => format!("{kind} {}", ["x", "y", "z"][axis as usize]),
    }
}

fn nanoseconds(time: f64) -> String {
    match time {
        time if time < 10_000.0 => format!("{time:.1}"),
        time => format!("{time:.0}"),
    }
}
