//! Files and terminals: what is written and when, and what is imported and exported.

mod common;

use common::{done, folder, list, run, run_with, shell, table_file, Random};
use std::fs::{self, Permissions};
use std::os::unix::fs::{symlink, FileTypeExt, PermissionsExt};
use std::path::Path;

// The names in a folder.
fn names(folder: &Path) -> Vec<String> {
    let all = fs::read_dir(folder).expect("a folder");
    let mut names: Vec<String> = all
        .map(|entry| {
            entry
                .expect("an entry")
                .file_name()
                .to_string_lossy()
                .to_string()
        })
        .collect();
    names.sort();
    names
}

#[test]
fn round_trips() {
    let mut random = Random(6);
    let folder = folder("round_trips");
    for round in 0..60 {
        let axes = 1 + round % 3;
        let counts = random.counts(axes, if axes == 3 { 6 } else { 20 });
        let second = random.range(0, 1) == 1;
        let file = table_file(axes, counts, &random.samples(counts, 32768), second);
        let text = done(&folder, &["export", "-"], &file);
        let counts = list(&counts[..axes as usize]);
        let edition = if second { "2" } else { "1" };
        let import = [
            "import",
            "-",
            "--counts",
            &counts,
            "--edition",
            edition,
            "-o",
            "-",
        ];
        assert_eq!(done(&folder, &import, &text), file);
        // The text of the table that was imported is the same.
        assert_eq!(done(&folder, &["export", "-"], &file), text);
    }
}

// A command is refused, with these words, and neither makes a file nor changes one.
#[track_caller]
fn refused(folder: &Path, arguments: &[&str], input: &[u8], words: &str) {
    fs::write(folder.join("old"), "old bytes").expect("a file");
    for output in ["old", "new"] {
        let mut all = arguments.to_vec();
        all.extend(["-o", output]);
        let ran = run_with(folder, &all, input);
        assert_eq!((ran.status, &ran.out[..]), (Some(1), &b""[..]), "{all:?}");
        assert!(ran.said.contains(words), "{}", ran.said);
    }
    let ran = run_with(folder, arguments, input);
    assert!(ran.status != Some(0) && ran.out.is_empty(), "{arguments:?}");
    assert_eq!(names(folder), ["old"]);
    assert_eq!(fs::read(folder.join("old")).unwrap(), b"old bytes");
}

#[test]
fn nothing_is_written_on_refusal() {
    let folder = folder("refusal");
    let line = table_file(1, [2, 1, 1], &[0, 100], false);
    let high = table_file(1, [2, 1, 1], &[0, 16385], false);
    let cases: [(&[&str], &[u8]); 7] = [
        (&["import", "-", "--counts", "2"], b"0 x"),
        (&["import", "-", "--counts", "1"], b"0"),
        (&["draw", "-"], &high),
        (&["draw", "-", "--slope", "y"], &line),
        (&["export", "-"], &line[..19]),
        (&["ask", "-", "3"], &line),
        (&["show", "-"], &[]),
    ];
    for (arguments, input) in cases {
        refused(&folder, arguments, input, ": refused ");
    }
}

#[test]
fn nothing_is_written_without_the_right() {
    let (tables, folder) = (folder("tables"), folder("right"));
    let line = table_file(1, [2, 1, 1], &[0, 100], false);
    fs::write(tables.join("line"), &line).expect("a file");
    let other = tables.join("line").to_string_lossy().to_string();
    let operator: [(&[&str], &[u8]); 5] = [
        (&["show", "-"], &line),
        (&["import", "-", "--counts", "2"], b"0 1"),
        (&["export", "-"], &line),
        (&["pool", "-", &other, "--weights", "3,1"], &line),
        (&["diff", "-", &other], &line),
    ];
    let service: [&[&str]; 4] = [
        &["ask", "-", "0.5", "--curvature", "x"],
        &["ask", "-", "0.5", "--explain"],
        &["total", "-"],
        &["powers", "-", "0"],
    ];
    let with = |arguments: &[&str], key: &str, input: &[u8]| {
        let mut all = arguments.to_vec();
        all.extend(["--key", key]);
        refused(&folder, &all, input, ": refused 30: ");
    };
    for (arguments, input) in operator {
        with(arguments, "operator", input);
    }
    for key in ["operator", "colourist"] {
        for arguments in service {
            with(arguments, key, &line);
        }
    }
}

#[test]
fn files_are_replaced_whole() {
    let folder = folder("replaced");
    let import = ["import", "-", "--counts", "2", "-o"];
    let table = table_file(1, [2, 1, 1], &[0, 100], false);
    fs::write(folder.join("file"), vec![7; 1000]).expect("a file");
    fs::set_permissions(folder.join("file"), Permissions::from_mode(0o640)).expect("a mode");
    symlink("file", folder.join("link")).expect("a link");
    for output in ["file", "link", "new", "./other"] {
        let mut arguments = import.to_vec();
        arguments.push(output);
        assert_eq!(done(&folder, &arguments, b"0 1"), b"");
        assert_eq!(fs::read(folder.join(output)).unwrap(), table);
    }
    assert!(folder.join("link").is_symlink());
    let mode = fs::metadata(folder.join("file"))
        .unwrap()
        .permissions()
        .mode();
    assert_eq!(mode & 0o777, 0o640);
    assert_eq!(names(&folder), ["file", "link", "new", "other"]);
}

// A write that fails leaves the old bytes and no other file.
#[test]
fn a_full_disk() {
    let folder = folder("full");
    let table = table_file(1, [9, 1, 1], &[5; 9], false);
    fs::write(folder.join("table"), table).expect("a file");
    fs::write(folder.join("old"), "old bytes").expect("a file");
    for output in ["old", "new"] {
        let line = format!("trap '' XFSZ; ulimit -f 1; lukhtari draw table -o {output}");
        let ran = shell(&folder, &line);
        assert_eq!(ran.status, Some(2), "{}", ran.said);
    }
    assert_eq!(names(&folder), ["old", "table"]);
    assert_eq!(fs::read(folder.join("old")).unwrap(), b"old bytes");
}

#[test]
fn devices_are_written_in_place() {
    let folder = folder("devices");
    done(
        &folder,
        &["import", "-", "--counts", "2", "-o", "/dev/null"],
        b"0 1",
    );
    let kind = fs::metadata("/dev/null").expect("a device").file_type();
    assert!(kind.is_char_device());
    let ran = run_with(
        &folder,
        &["import", "-", "--counts", "2", "-o", "/dev/full"],
        b"0 1",
    );
    assert_eq!(ran.status, Some(2), "{}", ran.said);
}

#[test]
fn names_that_begin_with_a_minus_sign() {
    let folder = folder("minus");
    let table = table_file(1, [2, 1, 1], &[0, 100], false);
    fs::write(folder.join("-table"), &table).expect("a file");
    fs::write(folder.join("--help"), &table).expect("a file");
    assert_eq!(done(&folder, &["ask", "./-table", "0.5"], b""), b"50\n");
    assert_eq!(done(&folder, &["ask", "--", "-table", "0.5"], b""), b"50\n");
    assert_eq!(done(&folder, &["ask", "--", "--help", "0.5"], b""), b"50\n");
    assert_eq!(run(&folder, &["ask", "-table", "0.5"]).status, Some(2));
}

#[test]
fn a_reader_that_leaves() {
    let folder = folder("leaves");
    let table = table_file(1, [64, 1, 1], &[5; 64], false);
    fs::write(folder.join("table"), table).expect("a file");
    let ran = shell(&folder, "lukhtari draw table -o - | true");
    assert_eq!(ran.status, Some(0));
    assert!(!ran.said.contains("panicked"), "{}", ran.said);
}

// Progress is for terminals; `script` makes one.
#[test]
fn progress_on_a_terminal() {
    let folder = folder("progress");
    let table = table_file(2, [9, 9, 1], &[5; 81], false);
    fs::write(folder.join("table"), table).expect("a file");
    let plain = run(&folder, &["show", "table", "--every", "16"]);
    assert_eq!((plain.status, &plain.said[..]), (Some(0), ""));
    let line = "script -qec 'lukhtari show table --every 16' /dev/null";
    if shell(&folder, "command -v script").status != Some(0) {
        println!("skipped: script is not installed");
        return;
    }
    let shown = shell(&folder, line).text();
    for part in ["\rcubic 50 %", "\rquintic 100 %", "\r\x1b[K"] {
        assert!(shown.contains(part), "{shown:?}");
    }
}
