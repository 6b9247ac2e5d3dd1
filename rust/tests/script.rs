//! The script `scripts/cell_doses`. The program is built already, and nothing is proved.

mod common;
mod files;
mod model;

use common::{program, repository};
use files::{words, EXAMPLE};
use model::program::output;
use std::collections::HashSet;
use std::env;
use std::fs::{self, File};
use std::os::unix::fs::symlink;
use std::path::{Path, PathBuf};
use std::process::{Command, Stdio};

// Exit status, standard output and standard error.
type Ran = (Option<i32>, String, String);

fn script() -> PathBuf {
    repository().join("scripts/cell_doses")
}

// An empty folder of a test's own.
fn folder(name: &str) -> PathBuf {
    let folder = Path::new(env!("CARGO_TARGET_TMPDIR"))
        .join("script")
        .join(name);
    let _ = fs::remove_dir_all(&folder);
    fs::create_dir_all(&folder).expect("a folder");
    folder
}

fn ran(command: &mut Command) -> Ran {
    let done = command.output().expect("the script runs");
    let text = |bytes| String::from_utf8(bytes).expect("text");
    (done.status.code(), text(done.stdout), text(done.stderr))
}

// The script as a command in a folder, with the built program.
fn command(script: &Path, folder: &Path, arguments: &[&str]) -> Command {
    let mut command = Command::new(script);
    command.args(arguments).current_dir(folder);
    command.env("LUKHTARI_PROGRAM", program());
    command
}

fn run(folder: &Path, arguments: &[&str]) -> Ran {
    ran(&mut command(&script(), folder, arguments))
}

// The doses are printed, and `said` on standard error.
#[track_caller]
fn check_doses(ran: Ran, file: &[u8], said: &str) {
    assert_eq!(ran, (Some(0), output(file), said.to_string()));
}

// Nothing is printed, and the reason has a word.
#[track_caller]
fn check_failed(ran: Ran, word: &str) {
    let (status, out, said) = ran;
    assert_eq!((status, &out[..]), (Some(2), ""), "{said}");
    assert!(said.contains(word), "{said}");
}

fn example(name: &str) -> Vec<u8> {
    let path = repository().join("examples").join(name);
    fs::read(path).expect("an example")
}

#[test]
fn doses_as_the_program_prints_them() {
    for name in ["line.table", "plane.table", "block.table"] {
        let path = format!("examples/{name}");
        check_doses(run(&repository(), &[&path]), &example(name), "");
    }
}

#[test]
fn refusals_in_words() {
    let here = folder("refusals");
    let mut meanings = HashSet::new();
    let cases = [
        (1, words(&[4])),
        (3, words(&[1, 65])),
        (5, words(&[1, 2, 2, 0, 32769])),
        (6, vec![]),
        (7, words(&[1, 2, 2, 0, 100, 1, 2, 0])),
        (8, words(&[1, 2, 3, 0, 100])),
        (9, vec![0; 4097]),
        (19, words(&[1, 2, 2, 0, 16385])),
        (25, words(&[1, 2, 2, 0, 100, 1, 1])),
    ];
    for (number, file) in cases {
        fs::write(here.join("table"), file).unwrap();
        let (status, out, said) = run(&here, &["table"]);
        assert_eq!((status, out), (Some(1), format!("refused {number}\n")));
        let head = format!("cell_doses: refused {number}: ");
        let meaning = said.strip_prefix(&head).expect("number and meaning");
        assert!(!meaning.contains("not know"), "{said}");
        assert!(meanings.insert(meaning.to_string()), "{said}");
    }
    let (status, out, _) = run(&here, &["/dev/zero"]);
    assert_eq!((status, &out[..]), (Some(1), "refused 9\n"));
}

#[test]
fn examples_by_bare_name() {
    let here = folder("bare");
    let said = "cell_doses: the table is examples/block.table\n";
    for arguments in [&[][..], &["block"], &["block.table"], &["--", "block"]] {
        check_doses(run(&here, arguments), &example("block.table"), said);
    }
    for name in ["./block", "examples/block.table", "/block"] {
        check_failed(run(&here, &[name]), "no file");
    }
    check_failed(run(&here, &["other"]), "no file");
    fs::write(here.join("block"), words(&EXAMPLE)).unwrap();
    check_doses(run(&here, &["block"]), &words(&EXAMPLE), "");
}

#[test]
fn names_that_begin_with_a_dash() {
    let here = folder("dash");
    for name in ["-table", "--help", "-h", "--"] {
        fs::write(here.join(name), words(&EXAMPLE)).unwrap();
        check_doses(run(&here, &["--", name]), &words(&EXAMPLE), "");
        let path = format!("./{name}");
        check_doses(run(&here, &[&path]), &words(&EXAMPLE), "");
    }
    check_failed(run(&here, &["-table"]), "no option");
}

#[test]
fn links() {
    let here = folder("links");
    symlink(repository().join("examples/line.table"), here.join("table")).unwrap();
    check_doses(run(&here, &["table"]), &example("line.table"), "");
    symlink(script(), here.join("first")).unwrap();
    symlink("first", here.join("second")).unwrap();
    let mut command = command(&here.join("second"), &here, &["plane"]);
    let said = "cell_doses: the table is examples/plane.table\n";
    check_doses(ran(&mut command), &example("plane.table"), said);
    symlink("nowhere", here.join("line")).unwrap();
    check_failed(run(&here, &["line"]), "cannot be read");
}

#[test]
fn what_cannot_be_read_run_or_written() {
    let here = folder("failures");
    check_failed(run(&here, &["."]), "cannot be read");
    check_failed(run(&here, &["line", "plane"]), "one table");
    for (program, word) in [("/nowhere", "not be run"), ("/bin/true", "nothing")] {
        let mut command = command(&script(), &here, &["line"]);
        check_failed(ran(command.env("LUKHTARI_PROGRAM", program)), word);
    }
    let full = File::create("/dev/full").expect("a device that is full");
    let mut command = command(&script(), &here, &["line"]);
    let done = command.stdout(full).stderr(Stdio::null()).status();
    assert_eq!(done.expect("the script runs").code(), Some(2));
}

#[test]
fn usage() {
    for option in ["-h", "--help"] {
        let (status, out, said) = run(&repository(), &[option]);
        assert_eq!((status, &said[..]), (Some(0), ""));
        assert!(out.starts_with("Usage: "), "{out}");
    }
}

// A folder with the programs that the script needs, alone on the PATH.
fn tools(folder: &Path) -> PathBuf {
    let tools = folder.join("tools");
    fs::create_dir(&tools).unwrap();
    for name in ["bash", "cat", "dirname", "mkdir", "realpath", "tee"] {
        let path = env::var_os("PATH").expect("PATH");
        let mut found = env::split_paths(&path).map(|folder| folder.join(name));
        let program = found.find(|program| program.exists()).expect(name);
        symlink(program, tools.join(name)).unwrap();
    }
    tools
}

// Runs the copy of the script in a folder, with those tools and, if given, a function as the kit.
fn run_copy(folder: &Path, tools: &Path, kit: Option<&str>) -> Ran {
    let arguments = ["scripts/cell_doses", "examples/line.table"];
    let mut command = command(&tools.join("bash"), folder, &arguments);
    command.env_remove("LUKHTARI_PROGRAM").env("PATH", tools);
    if let Some(kit) = kit {
        command.env("BASH_FUNC_rt%%", format!("() {{ {kit} }}"));
    }
    ran(&mut command)
}

#[test]
fn proving_and_building() {
    let here = folder("building");
    for name in ["scripts/cell_doses", "examples/line.table"] {
        fs::create_dir(here.join(name).parent().unwrap()).unwrap();
        fs::copy(repository().join(name), here.join(name)).unwrap();
    }
    let tools = tools(&here);
    check_failed(run_copy(&here, &tools, None), "kit is missing");
    // One crate is unchanged, one is proved, and then the program is built or not.
    let lines = "echo 'rt: arith proved (unchanged since it was last proved)'
        echo logic=proved; echo 'rt: report proved (3 s)'";
    let (proved, failed) = (format!("{lines}; return 0;"), format!("{lines}; return 1;"));
    check_failed(run_copy(&here, &tools, Some(&failed)), "not proved");
    let made = here.join("crates/cell_doses/out");
    fs::create_dir_all(&made).unwrap();
    symlink(program(), made.join("cell_doses")).unwrap();
    check_failed(run_copy(&here, &tools, Some(&failed)), "not proved");
    let (status, out, said) = run_copy(&here, &tools, Some(&proved));
    assert_eq!((status, out), (Some(0), output(&example("line.table"))));
    let lines: Vec<&str> = said.lines().collect();
    assert!(lines[0].starts_with("cell_doses: proving"), "{said}");
    assert_eq!(lines[1..], ["cell_doses: report proved (3 s)"]);
    // Without the kit the program runs as it was last built.
    let (status, _, said) = run_copy(&here, &tools, None);
    assert_eq!(status, Some(0));
    assert!(said.contains("kit is missing"), "{said}");
}
