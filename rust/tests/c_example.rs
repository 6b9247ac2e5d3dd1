//! The C examples compile against the header and the archive, and run; the README shows the first.

mod c;

const PRINTED: &str = "dose at step 128: 50, exact\n";

// The first block of C in the README, with what stands before it.
fn readme_block() -> (String, String) {
    let readme = c::text("README.md");
    let (before, rest) = readme.split_once("\n```c\n").expect("a block of C");
    let (block, _) = rest.split_once("```\n").expect("its end");
    (before.to_string(), block.to_string())
}

#[test]
fn dose_example() {
    let example = c::repository().join("examples/dose.c");
    assert_eq!(c::run("c99", &example), PRINTED);
}

#[test]
fn import_example() {
    let example = c::repository().join("examples/import.c");
    let printed = "0 100 250\n-50 40 180\n-120 -10 90\n";
    assert_eq!(c::run("c99", &example), printed);
    // Its text is the one of the examples.
    let source = c::text("examples/import.c");
    for line in c::text("examples/plane.txt").lines() {
        assert!(source.contains(&format!("\"{line}\\n\"")), "{line}");
    }
}

#[test]
fn ramp_example() {
    let example = c::repository().join("examples/ramp.c");
    assert_eq!(
        c::run("c99", &example),
        "0 25 50 75 100 150 200\n2 fetches\n"
    );
}

#[test]
fn powers_example() {
    let example = c::repository().join("examples/powers.c");
    let printed = "400 800 800 -400\n0 -400 -800 400\n0 0 0 0\n0 0 0 0\n";
    assert_eq!(c::run("c99", &example), printed);
}

#[test]
fn totals_example() {
    let example = c::repository().join("examples/totals.c");
    let printed = "5000 41.667\n30000 250.000\n55000 458.333\n90000 750.000\n";
    assert_eq!(c::run("c99", &example), printed);
}

#[test]
fn readme_example() {
    let (before, block) = readme_block();
    assert!(before.ends_with(&format!("it prints `{}`.\n", PRINTED.trim_end())));
    assert_eq!(c::run("c99", &c::source("readme.c", &block)), PRINTED);
    assert_eq!(block, c::text("examples/dose.c"));
}
