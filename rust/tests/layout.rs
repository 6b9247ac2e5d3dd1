//! The header, the Rust declarations and the Rattle source agree.

mod c;
mod declarations;

use c::text;
use declarations::*;
use lukhtari::ffi;
use std::fs;
use std::mem::{align_of, offset_of, size_of};
use std::path::PathBuf;

// Size, alignment and offsets of a struct: what to print in C, and the number in Rust.
struct Layout(Vec<(String, usize)>);

impl Layout {
    fn add(&mut self, expression: String, value: usize) {
        self.0.push((expression, value));
    }
}

macro_rules! layout {
    ($all:ident, $rust:ident, $c:literal, $($field:ident),+) => {
        $all.add(format!("sizeof({})", $c), size_of::<ffi::$rust>());
        $all.add(format!("_Alignof({})", $c), align_of::<ffi::$rust>());
        $(
            let field = stringify!($field);
            $all.add(format!("offsetof({}, {field})", $c), offset_of!(ffi::$rust, $field));
        )+
    };
}

fn layouts() -> Layout {
    let mut all = Layout(Vec::new());
    layout!(
        all,
        Shape,
        "lukhtari_shape",
        axes,
        degree,
        counts,
        steps,
        second_edition
    );
    layout!(all, Index, "lukhtari_index", at);
    layout!(all, Position, "lukhtari_position", at);
    layout!(all, FloatPosition, "lukhtari_float_position", x, y, z);
    layout!(all, Done, "lukhtari_done", number, place);
    layout!(all, Whole, "lukhtari_whole", number, place, value);
    layout!(all, Marked, "lukhtari_marked", number, place, value, exact);
    layout!(all, Real, "lukhtari_real", number, place, value);
    layout!(
        all,
        Table,
        "lukhtari_table",
        number,
        place,
        axes,
        counts,
        steps,
        second_edition
    );
    layout!(all, Written, "lukhtari_written", number, place, length);
    layout!(all, Ramped, "lukhtari_ramped", number, place, fetches);
    layout!(all, Total, "lukhtari_total", number, place, numerator);
    all
}

#[test]
fn c_and_rust_have_the_same_layout() {
    let layouts = layouts();
    let mut source =
        String::from("#include \"lukhtari.h\"\n#include <stdio.h>\nint main(void) {\n");
    for (expression, _) in &layouts.0 {
        source += &format!("    printf(\"%zu\\n\", {expression});\n");
    }
    source += "    return 0;\n}\n";
    let printed = c::run("c11", &c::source("layout.c", &source));
    let numbers: Vec<usize> = printed.lines().map(|line| line.parse().unwrap()).collect();
    assert_eq!(numbers.len(), layouts.0.len());
    for ((expression, rust), c) in layouts.0.iter().zip(numbers) {
        assert_eq!(*rust, c, "{expression}");
    }
}

// The Rust name of a C struct, as FloatPosition for lukhtari_float_position.
fn rust_name(c: &str) -> String {
    let part = |part: &str| part[..1].to_uppercase() + &part[1..];
    c.split('_').skip(1).map(part).collect()
}

#[test]
fn header_and_rust_declare_the_same() {
    let (header, rust) = (text("include/lukhtari.h"), text("rust/src/ffi.rs"));
    let (c_structs, rust_structs) = (c_structs(&header), rust_structs(&rust));
    assert_eq!((c_structs.len(), rust_structs.len()), (12, 12));
    for (name, fields) in &c_structs {
        assert_eq!(rust_structs.get(&rust_name(name)), Some(fields), "{name}");
    }
    let c = c_calls(&header, &c_structs);
    assert_eq!(c.len(), 19);
    assert_eq!(c, rust_calls(&rust, &rust_structs));
}

// All files of the crate with the calls.
fn rattle_source() -> String {
    let folder = c::repository().join("crates/lukhtari/src");
    let mut files: Vec<PathBuf> = fs::read_dir(folder)
        .expect("a folder")
        .map(|file| file.expect("a file").path())
        .collect();
    files.sort();
    let read = |path: &PathBuf| fs::read_to_string(path).expect("a text");
    files.iter().map(read).collect()
}

#[test]
fn rattle_declares_the_same_as_the_header() {
    let source = rattle_source();
    // Shapes and a float position are structs of the crates that take them.
    let mut structs = rust_structs(&source);
    for (folder, name) in [
        ("lattice", "Shape"),
        ("lattice", "FullShape"),
        ("float_query", "FloatPosition"),
    ] {
        let code = text(&format!("crates/{folder}/src/lib.rt"));
        let lines = code.lines().filter(|line| !line.starts_with("#[derive("));
        let code = lines.collect::<Vec<_>>().join("\n");
        assert!(code.contains(&format!("#[repr(C)]\npub struct {name} ")));
        let fields = rust_structs(&code).remove(name).expect("a struct");
        structs.insert(name.to_string(), fields);
    }
    let header = text("include/lukhtari.h");
    let expected = c_calls(&header, &c_structs(&header));
    assert_eq!(rust_calls(&source, &structs), expected);
}

#[test]
fn reading_of_declarations() {
    let rattle = "
        // pub struct Old { pub at: u8 }
        #[repr(C)]
        pub struct Shape { pub axes: u32, pub counts: [u32; 3] }
        pub struct Full { pub shape: Shape, pub second: bool }
        pub struct Done { pub number: u32, pub place: usize }
        #[unsafe(no_mangle)]
        pub extern \"C\" fn lukhtari_fill(full: Full, from: &[i32], to: &mut [u8]) -> Done
            ensures { true }
        {
            Done { number: 0, place: 0 }
        }";
    let calls = rust_calls(rattle, &rust_structs(rattle));
    let fill = &calls["fill"];
    let shape = "{u32, [u32; 3], bool}";
    let expected = [shape, "*const i32", "u64", "*mut u8", "u64"];
    assert_eq!(fill.parameters, expected);
    assert_eq!(fill.result, "{u32, u64}");
}
