//! Links the archive of the proved library: ../target/staticlib/libnevraspu.a, or the path in
//! NEVRASPU_LIBRARY. Without it nothing is built.

use std::path::{Path, PathBuf};

const VARIABLE: &str = "NEVRASPU_LIBRARY";
const USUAL: &str = "../target/staticlib/libnevraspu.a";

fn main() {
    println!("cargo:rerun-if-changed=build.rs");
    println!("cargo:rerun-if-env-changed={VARIABLE}");
    let crate_folder = std::env::var_os("CARGO_MANIFEST_DIR").expect("cargo sets it");
    // A relative path, too, is read from this folder.
    let named = std::env::var_os(VARIABLE).map(PathBuf::from);
    let archive = Path::new(&crate_folder).join(named.as_deref().unwrap_or(Path::new(USUAL)));
    println!("cargo:rerun-if-changed={}", archive.display());
    if !archive.is_file() {
        eprintln!(
            "error: the archive of the proved library is missing: {}\n\
             Run `tools/archive` at the root of the repository, or set {VARIABLE} to the archive's \
             path, and build again.",
            archive.display()
        );
        std::process::exit(1);
    }
    let folder = archive.parent().expect("a file stands in a folder");
    let name = archive.file_name().expect("a file has a name").to_string_lossy();
    println!("cargo:rustc-link-search=native={}", folder.display());
    println!("cargo:rustc-link-lib=static:+verbatim={name}");
}
