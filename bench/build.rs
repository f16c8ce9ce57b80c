//! With the feature `before`: an earlier `libsession.a`, its function renamed, so that both link.

use std::env;
use std::path::PathBuf;
use std::process::{exit, Command};

fn main() {
    println!("cargo:rerun-if-changed=build.rs");
    println!("cargo:rerun-if-env-changed=CETOMUHI_BEFORE_DIR");
    if env::var_os("CARGO_FEATURE_BEFORE").is_none() {
        return;
    }
    let Some(folder) = env::var_os("CETOMUHI_BEFORE_DIR") else {
        eprintln!("set CETOMUHI_BEFORE_DIR to the folder with an earlier commit's libsession.a");
        exit(1);
    };
    let earlier = PathBuf::from(folder).join("libsession.a");
    println!("cargo:rerun-if-changed={}", earlier.display());
    let out = PathBuf::from(env::var_os("OUT_DIR").expect("cargo names an output folder"));
    let renamed = Command::new("objcopy")
        .arg("--redefine-sym=cetomuhi_session=before_session")
        .args([&earlier, &out.join("libbefore.a")])
        .status();
    if !renamed.as_ref().is_ok_and(|status| status.success()) {
        eprintln!("objcopy of {} failed: {renamed:?}", earlier.display());
        exit(1);
    }
    println!("cargo:rustc-link-search=native={}", out.display());
    println!("cargo:rustc-link-lib=static=before");
}
