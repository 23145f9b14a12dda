//! Links libabi.a, which `rt lib` in crates/abi writes to crates/abi/out. The variable ATZUNELCA_LIBRARY names another folder that has it.
use std::path::PathBuf;

fn main() {
    let here = PathBuf::from(std::env::var("CARGO_MANIFEST_DIR").unwrap());
    let folder = std::env::var("ATZUNELCA_LIBRARY").map_or(here.join("../crates/abi/out"), PathBuf::from);
    println!("cargo:rustc-link-search=native={}", folder.display());
    println!("cargo:rustc-link-lib=static=abi");
    println!("cargo:rerun-if-changed={}", folder.join("libabi.a").display());
    println!("cargo:rerun-if-env-changed=ATZUNELCA_LIBRARY");
}
