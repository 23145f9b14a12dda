//! Links libinner.a, which `run.sh` makes of inner.rt.txt; libabi.a comes with the bindings.
use std::path::PathBuf;

fn main() {
    let folder = PathBuf::from(std::env::var("CARGO_MANIFEST_DIR").unwrap()).join("target/inner");
    println!("cargo:rustc-link-search=native={}", folder.display());
    println!("cargo:rustc-link-lib=static=inner");
    println!("cargo:rerun-if-changed={}", folder.join("libinner.a").display());
}
