//! Links the static libraries that `reference/archives` writes. Each has all that it calls, and shares no symbol with the other.

use std::path::Path;

fn main() {
    let folder = Path::new(env!("CARGO_MANIFEST_DIR")).join("../../target/staticlib");
    println!("cargo:rustc-link-search=native={}", folder.display());
    for library in ["boundary", "ends_c", "rounds", "terminal_ends"] {
        let archive = folder.join(format!("lib{library}.a"));
        println!("cargo:rerun-if-changed={}", archive.display());
        assert!(
            archive.exists(),
            "no static library of {library}: run `reference/archives`"
        );
        println!("cargo:rustc-link-lib=static={library}");
    }
}
