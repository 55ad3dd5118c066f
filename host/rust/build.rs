//! Links the proved library: crates/capi/out of the repository, made by `rt lib` in crates/capi; BOBBINMARL_LIB names
//! another folder.

use std::env;
use std::path::PathBuf;

fn main() {
    let crate_folder = PathBuf::from(env::var_os("CARGO_MANIFEST_DIR").expect("cargo's folder"));
    let usual = crate_folder.join("../../crates/capi/out");
    let folder = env::var_os("BOBBINMARL_LIB").map_or(usual, PathBuf::from);
    println!("cargo:rustc-link-search=native={}", folder.display());
    println!("cargo:rustc-link-lib=static=capi");
    println!("cargo:rerun-if-changed={}", folder.join("libcapi.a").display());
    println!("cargo:rerun-if-env-changed=BOBBINMARL_LIB");
}
