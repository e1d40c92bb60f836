//! Links the verified library where it is wanted and present.

use std::env;
use std::path::Path;

const LIBRARY: &str = "../crates/export/out/libexport.a";

fn main() {
    println!("cargo:rerun-if-changed=build.rs");
    let linked = env::var_os("CARGO_FEATURE_LINKED").is_some();
    let mutants = env::var_os("CARGO_FEATURE_MUTANTS").is_some();
    if linked && !mutants {
        println!("cargo:rerun-if-changed={LIBRARY}");
        link_if_present();
    }
}

/// Without the library `cargo check` still works; only linking fails.
fn link_if_present() {
    if Path::new(LIBRARY).exists() {
        println!("cargo:rustc-link-search=native=../crates/export/out");
        println!("cargo:rustc-link-lib=static=export");
    } else {
        println!("cargo:warning={LIBRARY} is missing: only checking is possible");
    }
}
