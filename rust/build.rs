//! Links `libnoshinka.a`: that of the folder which NOSHINKA_LIB_DIR names, or else of `dist/out/lib` of this repository,
//! which `dist/libraries` makes.
use std::env;

fn main() {
    let here = env::var("CARGO_MANIFEST_DIR").expect("cargo sets it");
    let folder = env::var("NOSHINKA_LIB_DIR").unwrap_or(format!("{here}/../dist/out/lib"));
    println!("cargo:rerun-if-env-changed=NOSHINKA_LIB_DIR");
    println!("cargo:rerun-if-changed={folder}/libnoshinka.a");
    println!("cargo:rustc-link-search=native={folder}");
    println!("cargo:rustc-link-lib=static=noshinka");
}
