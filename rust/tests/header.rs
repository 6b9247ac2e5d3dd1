//! The header is C and C++, and its constants and sizes are those of Rust.

mod c;

use lukhtari::{limits, Key, Refusal, Shape};
use std::collections::{BTreeMap, BTreeSet};
use std::process::Command;

macro_rules! add {
    ($all:ident, $prefix:literal, $from:ident, $($name:ident),+) => {
        $($all.insert(concat!($prefix, stringify!($name)).to_string(), $from::$name as u64);)+
    };
}

// The keys of Rust, by their names in C.
fn keys() -> [(&'static str, Key); 3] {
    [
        ("LUKHTARI_OPERATOR", Key::Operator),
        ("LUKHTARI_COLOURIST", Key::Colourist),
        ("LUKHTARI_SERVICE", Key::Service),
    ]
}

// The constants of Rust, by their names in C.
#[rustfmt::skip]
fn constants() -> BTreeMap<String, u64> {
    let mut all = BTreeMap::new();
    add!(all, "LUKHTARI_", limits, INTERFACE, STEPS_MIN, STEPS_MAX, COUNT_MIN, COUNT_MAX);
    add!(all, "LUKHTARI_", limits, NODES_MAX);
    add!(all, "LUKHTARI_", limits, SAMPLE_LIMIT, COEFFICIENT_LIMIT, ANSWER_LIMIT);
    add!(all, "LUKHTARI_", limits, RECORD_ENTRIES_MAX, ENTRIES_MAX, COEFFICIENTS_MAX);
    add!(all, "LUKHTARI_", limits, FILE_BYTES_MAX, TOKEN_BYTES_MAX, RAMP_MAX);
    add!(all, "LUKHTARI_", limits, POWER_COEFFICIENTS, POWER_COEFFICIENT_LIMIT);
    add!(all, "LUKHTARI_", limits, STACK_ESTIMATE, STACK_CONVERSION, STACK_QUERY, STACK_FILE);
    add!(all, "LUKHTARI_", limits, STACK_IMPORT, STACK_RAMP, STACK_POOL, WEIGHT_MAX);
    add!(all, "LUKHTARI_", limits, TOTAL_LIMIT, STACK_TOTAL);
    add!(all, "LUKHTARI_REFUSED_", Refusal, AXES, DEGREE, NODE_COUNT, LENGTH, BEYOND_LIMIT);
    add!(all, "LUKHTARI_REFUSED_", Refusal, FILE_ENDS_EARLY, FILE_LEFT_OVER, FILE_SAMPLE_COUNT);
    add!(all, "LUKHTARI_REFUSED_", Refusal, BUFFER_TOO_SHORT, NOT_FINITE, SLOPE_AXIS);
    add!(all, "LUKHTARI_REFUSED_", Refusal, POSITION_BEYOND, POSITION_BELOW_ZERO);
    add!(all, "LUKHTARI_REFUSED_", Refusal, POSITION_UNUSED_AXIS, POWERS_SHAPE);
    add!(all, "LUKHTARI_REFUSED_", Refusal, FILE_EDITION, STEP_NUMBER, SHAPES_DIFFER, WEIGHTS);
    add!(all, "LUKHTARI_REFUSED_", Refusal, BOX, KEY);
    add!(all, "LUKHTARI_REFUSED_", Refusal, NO_CORNER_RECORDS, CELL, COEFFICIENT_COUNT);
    add!(all, "LUKHTARI_REFUSED_", Refusal, TOKEN_TOO_LONG, TOKEN_GRAMMAR, TOKEN_NOT_WHOLE);
    add!(all, "LUKHTARI_REFUSED_", Refusal, BEYOND_ESTIMATE_LIMIT, RAMP_LENGTH, CURVATURE_DEGREE);
    all.insert("LUKHTARI_NOT_REFUSED".to_string(), 0);
    for (name, key) in keys() {
        all.insert(name.to_string(), key as u64);
    }
    all
}

// The names that the header defines as constants or in its enum.
fn header_names() -> BTreeSet<String> {
    let name = |line: &str| {
        let words: Vec<&str> = line.split_whitespace().collect();
        match words[..] {
            ["#define", name, _] if !name.contains('(') => Some(name.to_string()),
            [name, "=", _] => Some(name.to_string()),
            _ => None,
        }
    };
    c::text("include/lukhtari.h")
        .lines()
        .filter_map(name)
        .collect()
}

// The names of the constants in a source of Rust.
fn rust_names(path: &str, prefix: &str) -> BTreeSet<String> {
    let name = |line: &str| {
        let rest = line.trim().strip_prefix("pub const ")?;
        let (name, _) = rest.split_once(':')?;
        let constant = !name.contains('(');
        constant.then(|| format!("{prefix}{name}"))
    };
    c::text(path).lines().filter_map(name).collect()
}

// The numbers that a C program prints.
fn numbers(printed: &str) -> Vec<u64> {
    let number = |word: &str| word.parse().expect("a number");
    printed.split_whitespace().map(number).collect()
}

#[test]
fn constants_have_the_same_names() {
    let names: BTreeSet<String> = constants().into_keys().collect();
    assert_eq!(header_names(), names);
    let mut rust = rust_names("rust/src/limits.rs", "LUKHTARI_");
    rust.extend(rust_names("rust/src/refusal.rs", "LUKHTARI_REFUSED_"));
    rust.insert("LUKHTARI_NOT_REFUSED".to_string());
    rust.extend(keys().map(|(name, _)| name.to_string()));
    assert_eq!(rust, names);
}

#[test]
fn constants_have_the_same_values() {
    let mut source =
        String::from("#include \"lukhtari.h\"\n#include <stdio.h>\nint main(void) {\n");
    for name in constants().keys() {
        source += &format!("    printf(\"%lld\\n\", (long long){name});\n");
    }
    source += "    for (int orders = 0; orders <= 6; orders++) {\n";
    source += "        printf(\"%d\\n\", LUKHTARI_ENTRY_LIMIT(orders));\n    }\n";
    source += "    for (int axes = 1; axes <= 3; axes++) {\n";
    source += "        printf(\"%d\\n\", LUKHTARI_ESTIMATE_LIMIT(axes));\n    }\n";
    source += "    return 0;\n}\n";
    let printed = c::run("c99", &c::source("constants.c", &source));
    let entries = (0..=6).map(|orders| limits::entry_limit(orders) as u64);
    let samples = (1..=3).map(|axes| limits::estimate_limit(axes) as u64);
    let limits = entries.chain(samples);
    let expected: Vec<u64> = constants().into_values().chain(limits).collect();
    assert_eq!(numbers(&printed), expected);
}

#[test]
fn refusals_are_numbered_from_1_to_30() {
    let refused = |(name, number): (String, u64)| {
        let refused = name.starts_with("LUKHTARI_REFUSED_");
        refused.then_some(number)
    };
    let mut all: Vec<u64> = constants().into_iter().filter_map(refused).collect();
    all.sort();
    assert_eq!(all, (1..=30).collect::<Vec<u64>>());
}

#[test]
fn sizes_of_buffers_are_those_of_shapes() {
    let source = "#include \"lukhtari.h\"
#include <stdio.h>
int main(void) {
    for (unsigned kind = 0; kind < 6; kind++) {
        unsigned n = kind / 2 + 1, d = kind % 2 ? 5 : 3;
        for (unsigned c = LUKHTARI_COUNT_MIN; c <= LUKHTARI_COUNT_MAX; c++) {
            size_t nodes = LUKHTARI_NODES(c, n > 1 ? c : 1, n > 2 ? c : 1);
            printf(\"%zu %zu %zu \", nodes, LUKHTARI_RECORD_ENTRIES(n, d) * nodes,
                   LUKHTARI_ENTRIES(n, d, nodes));
            printf(\"%zu %zu %zu\\n\", LUKHTARI_COEFFICIENTS(n, d),
                   LUKHTARI_FILE_BYTES(n, nodes, false), LUKHTARI_FILE_BYTES(n, nodes, true));
        }
    }
    return 0;
}
";
    let printed = c::run("c99", &c::source("sizes.c", source));
    let mut expected = Vec::new();
    for (axes, degree) in [(1, 3), (1, 5), (2, 3), (2, 5), (3, 3), (3, 5)] {
        for count in limits::COUNT_MIN..=limits::COUNT_MAX {
            let counts = [0, 1, 2].map(|axis| if axis < axes { count } else { 1 });
            let shape = Shape::new(axes, degree, counts);
            let second = Shape {
                second_edition: true,
                ..shape
            };
            let (nodes, entries) = (shape.nodes(), shape.entries());
            let others = [
                shape.coefficients(),
                shape.file_bytes(),
                second.file_bytes(),
            ];
            expected.extend([nodes, entries, entries].map(|size| size as u64));
            expected.extend(others.map(|size| size as u64));
        }
    }
    assert_eq!(numbers(&printed), expected);
    let largest = [
        limits::NODES_MAX,
        limits::ENTRIES_MAX,
        limits::ENTRIES_MAX,
        limits::COEFFICIENTS_MAX,
        limits::FILE_BYTES_MAX - 8,
        limits::FILE_BYTES_MAX,
    ];
    let last = expected.rchunks(6).next().expect("a shape");
    assert_eq!(last, largest.map(|size| size as u64));
}

#[test]
fn divisors_of_totals_are_signed() {
    let source = "#include \"lukhtari.h\"
#include <stdio.h>
int main(void) {
    for (unsigned kind = 0; kind < 6; kind++) {
        unsigned n = kind / 2 + 1, d = kind % 2 ? 5 : 3;
        int64_t less = -2 * LUKHTARI_TOTAL_DIVISOR(n, d);
        printf(\"%lld %d\\n\", (long long)LUKHTARI_TOTAL_DIVISOR(n, d),
               less / LUKHTARI_TOTAL_DIVISOR(n, d) == -2);
    }
    return 0;
}
";
    let printed = c::run("c99", &c::source("divisors.c", source));
    let mut expected = Vec::new();
    for (axes, degree) in [(1, 3), (1, 5), (2, 3), (2, 5), (3, 3), (3, 5)] {
        expected.extend([limits::total_divisor(axes, degree) as u64, 1]);
    }
    assert_eq!(numbers(&printed), expected);
}

// A source that includes the header twice and uses what it defines.
const USE: &str = "#include \"lukhtari.h\"
#include \"lukhtari.h\"
int32_t records[LUKHTARI_ENTRIES(2, 5, LUKHTARI_NODES(4, 3, 1))];
int32_t most = LUKHTARI_ESTIMATE_LIMIT(2);
enum lukhtari_key key = LUKHTARI_SERVICE;
uint8_t file[LUKHTARI_FILE_BYTES(2, 12, true)];
lukhtari_shape shape = {2, 5, {4, 3, 1}, {LUKHTARI_STEPS_MAX, LUKHTARI_STEPS_MIN, 1}, true};
int refused(lukhtari_done done);
int refused(lukhtari_done done) {
    switch (done.number) {
    case LUKHTARI_NOT_REFUSED:
        return 0;
    default:
        return done.number == LUKHTARI_REFUSED_AXES || done.place >= LUKHTARI_NODES_MAX;
    }
}
";

#[test]
fn the_header_is_c() {
    let source = c::source("header.c", USE);
    for standard in ["c99", "c11"] {
        c::compile("gcc", standard, &source, &["-fsyntax-only"]);
    }
}

#[test]
fn the_header_is_cpp() {
    if Command::new("g++").arg("--version").output().is_err() {
        println!("g++ is absent: C++ not tried");
        return;
    }
    let source = c::source("header.cpp", USE);
    for standard in ["c++98", "c++11", "c++17"] {
        c::compile("g++", standard, &source, &["-fsyntax-only"]);
    }
}
