//! What the archive needs and uses: functions from outside, data, stack.

mod c;

use lukhtari::limits;
use std::collections::BTreeSet;
use std::process::Command;

// What a tool prints about the archive.
fn printed(tool: &str, arguments: &[&str]) -> String {
    let mut command = Command::new(tool);
    command.args(arguments).arg(env!("LUKHTARI_ARCHIVE"));
    let done = command.output().expect("the tool runs");
    assert!(done.status.success(), "{tool}");
    String::from_utf8(done.stdout).expect("text")
}

#[test]
fn only_memcpy_and_memset_are_needed() {
    let text = printed("nm", &["--undefined-only", "--format=posix"]);
    let name = |line: &str| match line.split_whitespace().collect::<Vec<&str>>()[..] {
        [name, "U"] => Some(name.to_string()),
        _ => None,
    };
    let needed: BTreeSet<String> = text.lines().filter_map(name).collect();
    assert_eq!(needed, ["memcpy", "memset"].map(str::to_string).into());
}

#[test]
fn no_data_changes() {
    let text = printed("size", &["--format=berkeley"]);
    let mut lines = text.lines().map(|line| line.split_whitespace().collect());
    let (columns, sizes): (Vec<&str>, Vec<&str>) = (lines.next().unwrap(), lines.next().unwrap());
    assert_eq!(columns[1..3], ["data", "bss"]);
    assert_eq!(sizes[1..3], ["0", "0"]);
}

#[test]
fn calls_keep_to_their_stack() {
    let printed = c::run("c99", &c::repository().join("rust/tests/c/stack.c"));
    print!("{printed}");
    let limit = |line: &str| line.rsplit(' ').next().unwrap().parse().unwrap();
    let most: Vec<usize> = printed.lines().map(limit).collect();
    assert_eq!(most[0], limits::STACK_ESTIMATE);
    assert_eq!(most[1..4], [limits::STACK_CONVERSION; 3]);
    assert_eq!(most[4..12], [limits::STACK_QUERY; 8]);
    assert_eq!(most[12..14], [limits::STACK_FILE; 2]);
    assert_eq!(most[14..16], [limits::STACK_IMPORT, limits::STACK_RAMP]);
    assert_eq!(most[16..17], [limits::STACK_POOL]);
    assert_eq!(most[17..], [limits::STACK_TOTAL; 2]);
}
