//! Links the proved static library, which `rt lib` makes in the folder crates/capi.
//! Without the feature `library` there is nothing to link.

use std::env;
use std::path::PathBuf;

fn main() {
    println!("cargo:rerun-if-changed=build.rs");
    println!("cargo:rerun-if-env-changed=STRUMBLAY_LIB");
    if env::var_os("CARGO_FEATURE_LIBRARY").is_none() {
        return;
    }
    let own = || PathBuf::from(env!("CARGO_MANIFEST_DIR")).join("../crates/capi/out");
    let folder = env::var_os("STRUMBLAY_LIB").map_or_else(own, PathBuf::from);
    let library = folder.join("libcapi.a");
    println!("cargo:rerun-if-changed={}", library.display());
    if !library.is_file() {
        println!("cargo:warning=no {}", library.display());
        println!(
            "cargo:warning=make it by `rt lib` in crates/capi, or name its folder in STRUMBLAY_LIB"
        );
        std::process::exit(1);
    }
    println!("cargo:rustc-link-search=native={}", folder.display());
    println!("cargo:rustc-link-lib=static=capi");
}
