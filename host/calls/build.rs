//! Links libseason_checker.a from the folder SEASON_CHECKER_DIR (default: target/ at the root).

use std::env;
use std::path::PathBuf;

fn main() {
    let root = PathBuf::from(env::var("CARGO_MANIFEST_DIR").unwrap()).join("../..");
    let folder = env::var("SEASON_CHECKER_DIR").map_or(root.join("target"), PathBuf::from);
    println!("cargo:rerun-if-env-changed=SEASON_CHECKER_DIR");
    println!("cargo:rerun-if-changed={}", folder.join("libseason_checker.a").display());
    println!("cargo:rustc-link-search=native={}", folder.display());
    println!("cargo:rustc-link-lib=static=season_checker");
}
