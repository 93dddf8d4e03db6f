//! Links the static libraries of the repository, for the feature `library` alone.

use std::env;
use std::path::Path;

fn main() {
    println!("cargo::rerun-if-changed=build.rs");
    if env::var_os("CARGO_FEATURE_LIBRARY").is_none() {
        return;
    }
    let package = env::var("CARGO_MANIFEST_DIR").expect("cargo names the package's directory");
    for library in ["fram", "fram_testbed"] {
        let directory = Path::new(&package).join("../crates").join(library).join("out");
        println!("cargo::rerun-if-changed={}", directory.join(format!("lib{library}.a")).display());
        println!("cargo::rustc-link-search=native={}", directory.display());
        println!("cargo::rustc-link-lib=static={library}");
    }
}
