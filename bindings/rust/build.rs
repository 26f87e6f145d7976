//! Links the proved emulator's archive, which `tests/build.sh host` writes.

use std::env;
use std::path::PathBuf;

fn main() {
    let folder = env::var_os("FM8502_LIB_DIR").map_or_else(
        || PathBuf::from(env!("CARGO_MANIFEST_DIR")).join("../../target/staticlib"),
        PathBuf::from,
    );
    let archive = folder.join("libhost.a");
    if !archive.exists() {
        println!(
            "cargo:warning={} is missing: run `bash tests/build.sh host` first",
            archive.display()
        );
    }
    println!("cargo:rerun-if-env-changed=FM8502_LIB_DIR");
    println!("cargo:rerun-if-changed={}", archive.display());
    println!("cargo:rustc-link-search=native={}", folder.display());
    println!("cargo:rustc-link-lib=static=host");
}
