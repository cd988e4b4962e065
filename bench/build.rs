//! With the feature `library`: links the static library named by LEMITSAKA_LIBRARY, or else
//! ../target/staticlib/liblemitsaka.a.

use std::path::PathBuf;

fn main() {
    println!("cargo:rerun-if-changed=build.rs");
    println!("cargo:rerun-if-env-changed=LEMITSAKA_LIBRARY");
    if std::env::var_os("CARGO_FEATURE_LIBRARY").is_none() {
        return;
    }
    let here = PathBuf::from(std::env::var_os("CARGO_MANIFEST_DIR").unwrap());
    let path = match std::env::var_os("LEMITSAKA_LIBRARY") {
        Some(path) => PathBuf::from(path),
        None => here.join("../target/staticlib/liblemitsaka.a"),
    };
    let path = path.canonicalize().unwrap_or_else(|e| {
        panic!("{}: {e}. Build the static library first, or name it in LEMITSAKA_LIBRARY", path.display())
    });
    let file = path.file_name().unwrap().to_string_lossy().into_owned();
    let name = file.strip_prefix("lib").and_then(|name| name.strip_suffix(".a")).expect("a file libNAME.a");
    println!("cargo:rerun-if-changed={}", path.display());
    println!("cargo:rustc-link-search=native={}", path.parent().unwrap().display());
    println!("cargo:rustc-link-lib=static={name}");
}
