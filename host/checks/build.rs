//! Builds and links the helpers of the header.

use std::env;
use std::path::{Path, PathBuf};
use std::process::Command;

fn main() {
    let root = PathBuf::from(env::var("CARGO_MANIFEST_DIR").unwrap()).join("../..");
    build_helpers(&root);
}

/// The helpers as an archive of their own, so that they are tested without the shared library.
fn build_helpers(root: &Path) {
    let out = PathBuf::from(env::var("OUT_DIR").unwrap());
    let (source, object) = (root.join("host/c/helpers.c"), out.join("helpers.o"));
    let compiler = env::var("CC").unwrap_or("cc".into());
    println!("cargo:rerun-if-env-changed=CC");
    println!("cargo:rerun-if-changed={}", source.display());
    println!("cargo:rerun-if-changed={}", root.join("include/season_checker.h").display());
    run(Command::new(compiler)
        .args(["-std=c99", "-O1", "-fPIC", "-c", "-I"])
        .arg(root.join("include"))
        .arg(source)
        .arg("-o")
        .arg(&object));
    run(Command::new("ar").arg("crs").arg(out.join("libseason_helpers.a")).arg(&object));
    println!("cargo:rustc-link-search=native={}", out.display());
    println!("cargo:rustc-link-lib=static=season_helpers");
}

fn run(command: &mut Command) {
    let status = command.status().unwrap_or_else(|error| panic!("{command:?}: {error}"));
    assert!(status.success(), "{command:?}: {status}");
}
