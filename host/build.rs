//! Links the engine, `libhost.a`, which `host/archive` writes to `target/staticlib`; STATICLIB names another folder. It is linked as `libdating.a`, a name
//! that no other library has.

use std::path::PathBuf;
use std::{env, fs};

fn main() {
    let folder = |name| PathBuf::from(env::var_os(name).unwrap_or_default());
    let archive =
        env::var_os("STATICLIB").map_or(folder("CARGO_MANIFEST_DIR").join("../target/staticlib"), PathBuf::from).join("libhost.a");
    println!("cargo:rerun-if-env-changed=STATICLIB");
    println!("cargo:rerun-if-changed={}", archive.display());
    assert!(archive.is_file(), "{} is missing: run host/archive first", archive.display());
    let linked = folder("OUT_DIR");
    fs::copy(&archive, linked.join("libdating.a")).unwrap_or_else(|error| panic!("{}: {error}", archive.display()));
    println!("cargo:rustc-link-search=native={}", linked.display());
    println!("cargo:rustc-link-lib=static=dating");
}
