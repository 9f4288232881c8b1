//! Links the static library that `tools/build cuvalimodo_lib` writes: target/staticlib of this repository, or the folder in CUVALIMODO_LIB_DIR.

use std::env;
use std::path::PathBuf;

fn main() {
    println!("cargo:rerun-if-env-changed=CUVALIMODO_LIB_DIR");
    let folder = env::var("CUVALIMODO_LIB_DIR").map(PathBuf::from).unwrap_or_else(|_| {
        let here = PathBuf::from(env::var("CARGO_MANIFEST_DIR").expect("cargo sets it"));
        here.join("../../target/staticlib")
    });
    println!("cargo:rerun-if-changed={}", folder.join("libcuvalimodo_c.a").display());
    println!("cargo:rustc-link-search=native={}", folder.display());
    println!("cargo:rustc-link-lib=static=cuvalimodo_c");
}
