// The proved products are in crates/field_abi/out/libfield_abi.a, which `rt lib` in crates/field_abi writes.
use std::path::PathBuf;

fn main() {
    let here = PathBuf::from(std::env::var("CARGO_MANIFEST_DIR").unwrap());
    let archives = here.join("../../crates/field_abi/out");
    println!("cargo:rustc-link-search=native={}", archives.display());
    println!("cargo:rustc-link-lib=static=field_abi");
    println!("cargo:rerun-if-changed={}", archives.join("libfield_abi.a").display());
}
