//! Links libbajofeki.a, which lies in the folder `native` of a release's crate, or in that which `BAJOFEKI_LIB_DIR` names.

use std::env;
use std::path::PathBuf;

fn main() {
    println!("cargo:rerun-if-env-changed=BAJOFEKI_LIB_DIR");
    let folder = match env::var_os("BAJOFEKI_LIB_DIR") {
        Some(folder) => PathBuf::from(folder),
        None => {
            PathBuf::from(env::var_os("CARGO_MANIFEST_DIR").expect("cargo sets it")).join("native")
        }
    };
    let archive = folder.join("libbajofeki.a");
    assert!(
        archive.is_file(),
        "{} is missing: take the crate of a release, or set BAJOFEKI_LIB_DIR to the folder of its lib/libbajofeki.a",
        archive.display()
    );
    println!("cargo:rerun-if-changed={}", archive.display());
    println!("cargo:rustc-link-search=native={}", folder.display());
    println!("cargo:rustc-link-lib=static=bajofeki");
}
