//! Links the archives that `tools/archives` writes.
use std::env;
use std::path::PathBuf;

fn main() {
    println!("cargo:rerun-if-env-changed=ARCHIVES");
    let here = PathBuf::from(env::var("CARGO_MANIFEST_DIR").unwrap());
    let from = env::var("ARCHIVES").map_or(here.join("../../target/staticlib"), PathBuf::from);
    println!("cargo:rustc-link-search=native={}", from.display());
    for name in ["firmware", "measured"] {
        println!("cargo:rerun-if-changed={}", from.join(format!("lib{name}.a")).display());
        println!("cargo:rustc-link-lib=static={name}");
    }
}
