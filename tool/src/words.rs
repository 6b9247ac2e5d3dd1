//! Numbers and places as text.

use lukhtari::limits::STEPS_MAX;

pub const AXES: [&str; 3] = ["x", "y", "z"];

// The letter of an axis.
pub fn axis(place: u64) -> &'static str {
    AXES.get(place as usize).unwrap_or(&"?")
}

pub fn degree(degree: u32) -> &'static str {
    if degree == 3 {
        "cubic"
    } else {
        "quintic"
    }
}

pub fn edition(second: bool) -> &'static str {
    if second {
        "two"
    } else {
        "one"
    }
}

// One number for each used axis, in brackets.
pub fn indices(at: [u32; 3], axes: usize) -> String {
    let all: Vec<String> = at[..axes].iter().map(u32::to_string).collect();
    format!("({})", all.join(", "))
}

// A position in steps, told in cells and in brackets.
pub fn position(at: [i32; 3], axes: usize) -> String {
    let all: Vec<String> = at[..axes].iter().map(|&step| cells(step)).collect();
    format!("({})", all.join(", "))
}

// A number of steps as a decimal number of cells, exactly.
pub fn cells(steps: i32) -> String {
    trimmed(f64::from(steps) / f64::from(STEPS_MAX))
}

fn trimmed(number: f64) -> String {
    let text = format!("{number:.8}");
    text.trim_end_matches('0').trim_end_matches('.').to_string()
}

// Units as a decimal number of grams per kilogram, exactly.
pub fn grams(units: i32) -> String {
    let sign = if units < 0 { "-" } else { "" };
    let size = units.unsigned_abs();
    format!("{sign}{}.{:02}", size / 100, size % 100)
}

// A number with its unit.
pub fn units(number: impl ToString) -> String {
    let number = number.to_string();
    match number.trim_start_matches('-') {
        "1" => format!("{number} unit"),
        _ => format!("{number} units"),
    }
}

// A number of axes.
pub fn axes(number: usize) -> String {
    match number {
        1 => "1 axis".to_string(),
        _ => format!("{number} axes"),
    }
}

// Node counts or step numbers of the used axes.
pub fn by(numbers: [u32; 3], axes: usize) -> String {
    let all: Vec<String> = numbers[..axes].iter().map(u32::to_string).collect();
    all.join(" by ")
}

// A fraction as a whole number and a proper fraction in lowest terms.
pub fn mixed(dividend: i128, divisor: u128) -> String {
    let sign = if dividend < 0 { "-" } else { "" };
    let size = dividend.unsigned_abs();
    let (whole, part) = (size / divisor, size % divisor);
    let common = gcd(part, divisor);
    match (whole, part) {
        (_, 0) => format!("{sign}{whole}"),
        (0, _) => format!("{sign}{}/{}", part / common, divisor / common),
        _ => format!("{sign}{whole} {}/{}", part / common, divisor / common),
    }
}

fn gcd(a: u128, b: u128) -> u128 {
    if b == 0 {
        a
    } else {
        gcd(b, a % b)
    }
}

// Texts in lines of so many, under each other and flush right.
pub fn columns(texts: &[String], number: usize) -> String {
    let width = texts.iter().map(String::len).max().unwrap_or(0);
    let line = |line: &[String]| {
        let all: Vec<String> = line.iter().map(|text| format!("{text:>width$}")).collect();
        all.join("  ")
    };
    texts
        .chunks(number)
        .map(line)
        .collect::<Vec<_>>()
        .join("\n")
}
