//! Finds the proved archives: in the folder that CETOMUHI_LIB_DIR names, or where `tools/made`
//! writes them.

use std::env;
use std::path::{Path, PathBuf};
use std::process::exit;

fn main() {
    println!("cargo:rerun-if-changed=build.rs");
    println!("cargo:rerun-if-env-changed=CETOMUHI_LIB_DIR");
    let folder = folder();
    println!("cargo:rustc-link-search=native={}", folder.display());
    link(&folder, "cetomuhi");
    if env::var_os("CARGO_FEATURE_SESSION").is_some() {
        link(&folder, "session");
        link(&folder, "session_checked");
    }
}

fn folder() -> PathBuf {
    match env::var_os("CETOMUHI_LIB_DIR") {
        Some(folder) => folder.into(),
        None => {
            let manifest = env::var("CARGO_MANIFEST_DIR").expect("cargo names the crate's folder");
            Path::new(&manifest).join("../../target/staticlib")
        }
    }
}

/// What an archive holds beside its exported functions is local to it, so several link together.
fn link(folder: &Path, name: &str) {
    let archive = folder.join(format!("lib{name}.a"));
    println!("cargo:rerun-if-changed={}", archive.display());
    if !archive.is_file() {
        eprintln!(
            "{} is missing: run `tools/made {name}` in the repository's root, or set \
             CETOMUHI_LIB_DIR to the folder that has it",
            archive.display()
        );
        exit(1);
    }
    println!("cargo:rustc-link-lib=static={name}");
}
