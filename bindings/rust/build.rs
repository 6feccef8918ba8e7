//! Says where the static library is: in `$KHUMBUSEAL_LIB_DIR`, or where `rt lib` in crates/khumbuseal writes it.

use std::env;
use std::path::PathBuf;

fn main() {
    println!("cargo:rerun-if-env-changed=KHUMBUSEAL_LIB_DIR");
    let made = || PathBuf::from(env::var_os("CARGO_MANIFEST_DIR").unwrap()).join("../../crates/khumbuseal/out");
    let folder = env::var_os("KHUMBUSEAL_LIB_DIR").map_or_else(made, PathBuf::from);
    println!("cargo:rerun-if-changed={}", folder.join("libkhumbuseal.a").display());
    println!("cargo:rustc-link-search=native={}", folder.display());
    // not bundled, so that the types can be checked where the library has not been built
    println!("cargo:rustc-link-lib=static:-bundle=khumbuseal");
}
