//! With the feature `graphblas`: compiles `src/graphblas.c` and links it with SuiteSparse:GraphBLAS.

use std::env::var;
use std::process::Command;

fn main() {
    println!("cargo:rerun-if-changed=src/graphblas.c");
    if var("CARGO_FEATURE_GRAPHBLAS").is_err() {
        return;
    }
    let out = var("OUT_DIR").expect("cargo sets OUT_DIR");
    let object = format!("{out}/graphblas.o");
    let archive = format!("{out}/libbenchgraphblas.a");
    run(Command::new("cc").args(["-O3", "-Wall", "-c", "src/graphblas.c", "-o", &object]));
    run(Command::new("ar").args(["crs", &archive, &object]));
    println!("cargo:rustc-link-search=native={out}");
    println!("cargo:rustc-link-lib=static=benchgraphblas");
    println!("cargo:rustc-link-lib=graphblas");
}

fn run(command: &mut Command) {
    let status = command.status().unwrap_or_else(|error| panic!("{command:?}: {error}"));
    assert!(status.success(), "{command:?}: {status}");
}
