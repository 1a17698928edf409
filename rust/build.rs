//! Links the proved static library, `target/staticlib/libcapi.a` of the repository around this package.

use std::env;
use std::path::PathBuf;

fn main() {
    let package = PathBuf::from(env::var_os("CARGO_MANIFEST_DIR").expect("cargo names the package"));
    let repository = package.parent().expect("the package stands inside the repository");
    let directory = repository.join("target").join("staticlib");
    let archive = directory.join("libcapi.a");

    println!("cargo:rerun-if-changed=build.rs");
    println!("cargo:rerun-if-changed={}", archive.display());
    if archive.exists() {
        println!("cargo:rustc-link-search=native={}", directory.display());
        println!("cargo:rustc-link-lib=static=capi");
    } else {
        println!("cargo:warning={} is missing; `.ci/staticlib` makes it", archive.display());
    }
}
