//! Builds the dose in C that the benchmarks measure, and links LittleCMS where it is installed.

use std::env;
use std::fs;
use std::path::PathBuf;
use std::process::Command;

fn main() {
    build_c();
    probe_lcms2();
}

fn out_dir() -> PathBuf {
    PathBuf::from(env::var_os("OUT_DIR").expect("set by cargo"))
}

// Compiles and links the dose in C.
fn build_c() {
    let object = out_dir().join("dose.o");
    println!("cargo:rerun-if-changed=build.rs");
    println!("cargo:rerun-if-changed=src/dose.c");
    println!("cargo:rerun-if-changed=../include/lukhtari.h");
    let built = Command::new("gcc")
        .args(["-O3", "-fPIC", "-Wall", "-Wextra", "-I", "../include", "-c"])
        .arg("src/dose.c")
        .arg("-o")
        .arg(&object)
        .status();
    assert!(matches!(built, Ok(status) if status.success()), "gcc");
    println!("cargo:rustc-link-arg-bins={}", object.display());
}

// Sets the cfg `lcms2` if a C program that calls LittleCMS can be linked.
fn probe_lcms2() {
    println!("cargo:rustc-check-cfg=cfg(lcms2)");
    let source = out_dir().join("probe.c");
    let text = "#include <lcms2.h>\nint main(void) { return cmsGetEncodedCMMversion() < 2000; }\n";
    if fs::write(&source, text).is_err() {
        return;
    }
    let built = Command::new("gcc")
        .arg(&source)
        .arg("-o")
        .arg(out_dir().join("probe"))
        .arg("-llcms2")
        .output();
    if matches!(built, Ok(result) if result.status.success()) {
        println!("cargo:rustc-cfg=lcms2");
        println!("cargo:rustc-link-arg-bins=-llcms2");
    }
}
