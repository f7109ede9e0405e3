//! Links the static library of the engine, and C's own division, which gcc compiles.

use std::env;
use std::path::Path;
use std::process::Command;

/// Runs a program, which has to end well.
fn run(program: &str, arguments: &[&str]) {
    match Command::new(program).args(arguments).status() {
        Ok(status) if status.success() => {}
        Ok(status) => panic!("{program} {}: {status}", arguments.join(" ")),
        Err(error) => panic!("{program} cannot be run: {error}; the Debian package gcc has it, or brings it"),
    }
}

fn main() {
    let here = env::var("CARGO_MANIFEST_DIR").expect("cargo sets CARGO_MANIFEST_DIR");
    let folder = Path::new(&here).join("../../target/lib");
    println!("cargo:rustc-link-search=native={}", folder.display());
    println!("cargo:rustc-link-lib=static=nearby");
    println!("cargo:rerun-if-changed={}", folder.join("libnearby.a").display());

    let out = env::var("OUT_DIR").expect("cargo sets OUT_DIR");
    let (object, archive) = (format!("{out}/divide.o"), format!("{out}/libdivide.a"));
    run("gcc", &["-O2", "-ffp-contract=off", "-Wall", "-Wextra", "-Werror", "-c", "src/divide.c", "-o", &object]);
    run("ar", &["rcs", &archive, &object]);
    println!("cargo:rustc-link-search=native={out}");
    println!("cargo:rustc-link-lib=static=divide");
    println!("cargo:rerun-if-changed=src/divide.c");
    println!("cargo:rerun-if-changed=build.rs");
}
