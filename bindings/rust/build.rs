//! Finds the static library of the exports and says where it is to be linked from.

use std::env;
use std::path::PathBuf;
use std::process::exit;

const LIBRARY: &str = "libcuzhantir.a";

/// The folder that the caller names, else the one that `tools/rt-once staticlib` writes to; its full name where it is there.
fn folder() -> PathBuf {
    let folder = match env::var_os("CUZHANTIR_LIB_DIR") {
        Some(named) => PathBuf::from(named),
        None => PathBuf::from(env::var_os("CARGO_MANIFEST_DIR").unwrap_or_default())
            .join("../../target/staticlib"),
    };
    folder.canonicalize().unwrap_or(folder)
}

fn main() {
    let folder = folder();
    let library = folder.join(LIBRARY);
    println!("cargo::rerun-if-env-changed=CUZHANTIR_LIB_DIR");
    println!("cargo::rerun-if-changed={}", library.display());
    let target = env::var("TARGET").unwrap_or_default();
    if !(target.starts_with("x86_64-") && target.contains("linux")) {
        println!("cargo::error={LIBRARY} is for x86-64 Linux, and this build is for {target}");
        exit(1);
    }
    if !library.is_file() {
        println!(
            "cargo::error=no {LIBRARY} in {}: run `tools/rt-once staticlib cuzhantir` in the repository, or name the folder that has it in CUZHANTIR_LIB_DIR",
            folder.display()
        );
        exit(1);
    }
    println!("cargo::rustc-link-search=native={}", folder.display());
    println!("cargo::rustc-link-lib=static=cuzhantir");
}
