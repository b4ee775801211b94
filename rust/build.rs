//! Links the archive of the engine's exports, `libherd_ffi.a`. It lies in the folder that the environment variable
//! `HERD_ARCHIVE_DIR` names, and where that is not set, where `rt lib` in `crates/herd_ffi` puts it.
use std::env;
use std::path::{Path, PathBuf};

fn main() {
    let built = Path::new(env!("CARGO_MANIFEST_DIR")).join("../crates/herd_ffi/out");
    let folder = env::var_os("HERD_ARCHIVE_DIR").map_or(built, PathBuf::from);
    assert!(
        folder.is_absolute(),
        "HERD_ARCHIVE_DIR is {}, and must be an absolute path",
        folder.display()
    );
    let archive = folder.join("libherd_ffi.a");
    println!("cargo:rerun-if-changed=build.rs");
    println!("cargo:rerun-if-env-changed=HERD_ARCHIVE_DIR");
    println!("cargo:rerun-if-changed={}", archive.display());
    assert!(
        archive.is_file(),
        "{} is missing: run `rt lib` in crates/herd_ffi first, or set HERD_ARCHIVE_DIR to the folder that has it",
        archive.display()
    );
    println!("cargo:rustc-link-search=native={}", folder.display());
    println!("cargo:rustc-link-lib=static=herd_ffi");
}
