//! Compiles the C baselines, for the programs that call the library.

use std::env;
use std::path::PathBuf;
use std::process::Command;

const SOURCES: [&str; 4] = ["interpreter", "gate_machine", "gate_unit", "image"];

fn main() {
    println!("cargo:rerun-if-changed=c");
    println!("cargo:rerun-if-changed=../include");
    if env::var_os("CARGO_FEATURE_LIBRARY").is_none() {
        return;
    }
    let out = PathBuf::from(env::var_os("OUT_DIR").expect("cargo sets it"));
    let objects = SOURCES.map(|name| out.join(format!("{name}.o")));
    for (name, object) in SOURCES.iter().zip(&objects) {
        let mut cc = Command::new("cc");
        cc.args(["-O2", "-std=c11", "-Wall", "-Wextra", "-fPIC"]);
        cc.args(["-I../include", "-c", &format!("c/{name}.c"), "-o"]);
        run(cc.arg(object));
    }
    let archive = out.join("libbaseline.a");
    run(Command::new("ar").arg("rcs").arg(&archive).args(&objects));
    println!("cargo:rustc-link-search=native={}", out.display());
    println!("cargo:rustc-link-lib=static=baseline");
}

fn run(command: &mut Command) {
    let done = command.status().is_ok_and(|status| status.success());
    assert!(done, "failed: {command:?}");
}
