//! Finds the archive `libcapi.a` and links it.

use std::env;
use std::path::{Path, PathBuf};

const ARCHIVE: &str = "libcapi.a";

/// The repository's root: `./archive` prints its folder from there, and `KUSAREHYON_ARCHIVE` may
/// be that.
fn root() -> PathBuf {
    let ours = env::var_os("CARGO_MANIFEST_DIR").expect("cargo sets it");
    Path::new(&ours).join("..")
}

fn watch(folder: &Path) {
    println!("cargo:rerun-if-changed={}", folder.join(ARCHIVE).display());
}

fn folder(root: &Path) -> PathBuf {
    if let Some(given) = env::var_os("KUSAREHYON_ARCHIVE") {
        return root.join(given);
    }
    match &*env::var("CARGO_CFG_TARGET_ARCH").expect("cargo sets it") {
        "x86_64" => root.join("target/staticlib"),
        other => root.join("target").join(other),
    }
}

fn main() {
    let folder = folder(&root());
    let archive = folder.join(ARCHIVE);
    println!("cargo:rerun-if-env-changed=KUSAREHYON_ARCHIVE");
    watch(&folder);
    if !archive.is_file() {
        eprintln!("no {}: run ./archive first", archive.display());
        std::process::exit(1);
    }
    println!("cargo:rustc-link-search=native={}", folder.display());
    println!("cargo:rustc-link-lib=static=capi");
}
