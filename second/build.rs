//! Finds the archive of the proved code and links it.
//!
//! The archive `libboundary.a` is looked for in `../target/staticlib`, or in
//! the folder named by the environment variable AMURGOSA_ARCHIVE. A folder
//! that does not begin at the root is counted from this package.

use std::env;
use std::path::PathBuf;

fn main() {
    let package = env::var_os("CARGO_MANIFEST_DIR").expect("cargo names the package's folder");
    let named = env::var_os("AMURGOSA_ARCHIVE").unwrap_or_else(|| "../target/staticlib".into());
    let folder = PathBuf::from(package).join(named);
    let archive = folder.join("libboundary.a");
    println!("cargo:rerun-if-env-changed=AMURGOSA_ARCHIVE");
    println!("cargo:rerun-if-changed=build.rs");
    println!("cargo:rerun-if-changed={}", archive.display());
    assert!(
        archive.is_file(),
        "{} is missing: build the proved archive first, or name its folder in AMURGOSA_ARCHIVE",
        archive.display()
    );
    println!("cargo:rustc-link-search=native={}", folder.display());
    println!("cargo:rustc-link-lib=static=boundary");
}
