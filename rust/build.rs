//! Links the static library that `examples/build` writes, or the one in the folder that `WARGHYTES_LIB` names.

use std::env;
use std::path::{Path, PathBuf};

fn main() {
    println!("cargo:rerun-if-env-changed=WARGHYTES_LIB");
    let folder = env::var_os("WARGHYTES_LIB").map_or_else(
        || Path::new(env!("CARGO_MANIFEST_DIR")).join("../target/staticlib"),
        PathBuf::from,
    );
    let archive = folder.join("libwarghytes.a");
    assert!(
        archive.exists(),
        "no {}: run `examples/build`",
        archive.display()
    );
    println!("cargo:rerun-if-changed={}", archive.display());
    println!("cargo:rustc-link-search=native={}", folder.display());
    println!("cargo:rustc-link-lib=static=warghytes");
}
