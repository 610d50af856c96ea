//! Links the proved library, target/staticlib/libyam_c.a of the repository or that of the folder
//! which YAM_LIBRARY_DIR names.

use std::path::PathBuf;

const FOLDER_VARIABLE: &str = "YAM_LIBRARY_DIR";
const FOLDER: &str = "../../target/staticlib";
const ARCHIVE: &str = "libyam_c.a";

fn main() {
    println!("cargo:rerun-if-changed=build.rs");
    println!("cargo:rerun-if-env-changed={FOLDER_VARIABLE}");
    if std::env::var_os("CARGO_FEATURE_LINK").is_none() {
        return;
    }
    let root = std::env::var_os("CARGO_MANIFEST_DIR").map(PathBuf::from).unwrap_or_default();
    let folder = std::env::var_os(FOLDER_VARIABLE).map_or_else(|| root.join(FOLDER), PathBuf::from);
    let archive = folder.join(ARCHIVE);
    println!("cargo:rerun-if-changed={}", archive.display());
    match archive.canonicalize() {
        Ok(found) if found.is_file() => {
            println!("cargo:rustc-link-search=native={}", found.with_file_name("").display());
            println!("cargo:rustc-link-lib=static=yam_c");
        }
        _ => {
            eprintln!(
                "{} is not there: run tools/staticlib in the repository, or name its folder by {FOLDER_VARIABLE}",
                archive.display()
            );
            std::process::exit(1);
        }
    }
}
