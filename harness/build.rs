//! Compiles the plain C programs and links the library under test.

use std::path::{Path, PathBuf};
use std::process::Command;

/// Each is compiled on its own, as a C program's files are.
const SOURCES: [&str; 9] = [
    "plain.c",
    "plain_kinds.c",
    "plain_words.c",
    "plain_ranges.c",
    "plain_check.c",
    "plain_tools.c",
    "plain_assemble.c",
    "plain_calls.c",
    "stack_used.c",
];

fn run(command: &mut Command) {
    let status = command.status().unwrap_or_else(|e| panic!("{command:?}: {e}"));
    assert!(status.success(), "{command:?} failed");
}

fn compile(out: &Path, source: &str, object: &str, more: &[&str]) -> PathBuf {
    let object = out.join(object);
    run(Command::new("cc")
        .args(["-O2", "-Wall", "-Wextra", "-c"])
        .args(more)
        .arg("-o")
        .arg(&object)
        .arg(Path::new("plain").join(source)));
    object
}

/// With `in_place` the plain calls have the library's names as well.
fn compile_plain(out: &Path, in_place: bool) {
    let archive = out.join("libplain.a");
    let _ = std::fs::remove_file(&archive);
    let mut objects: Vec<PathBuf> = SOURCES.iter().map(|source| compile(out, source, &source.replace(".c", ".o"), &[])).collect();
    if in_place {
        objects.push(compile(out, "plain_calls.c", "plain_in_place.o", &["-DIN_PLACE"]));
    }
    run(Command::new("ar").arg("rcs").arg(&archive).args(&objects));
    println!("cargo:rustc-link-search=native={}", out.display());
    println!("cargo:rustc-link-lib=static=plain");
}

fn main() {
    let out = PathBuf::from(std::env::var_os("OUT_DIR").expect("cargo sets OUT_DIR"));
    let has = |feature: &str| std::env::var_os(format!("CARGO_FEATURE_{feature}")).is_some();
    println!("cargo:rerun-if-changed=plain");
    println!("cargo:rerun-if-changed=../include");
    compile_plain(&out, has("PLAIN"));
    if has("LIBRARY") && !has("PLAIN") {
        let folder = Path::new("../target/staticlib");
        let archive = folder.join("libyam_c.a");
        println!("cargo:rerun-if-changed={}", archive.display());
        assert!(archive.exists(), "{} is not there: run tools/staticlib first", archive.display());
        let folder = folder.canonicalize().expect("the folder is there");
        println!("cargo:rustc-link-search=native={}", folder.display());
        println!("cargo:rustc-link-lib=static=yam_c");
    }
}
