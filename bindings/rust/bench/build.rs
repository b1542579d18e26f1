//! Compiles the plain C hash and the measure of the stack with gcc -O3.

use std::env;
use std::path::PathBuf;
use std::process::Command;

const INCLUDE: &str = "../../../include";

fn main() {
    println!("cargo::rerun-if-changed={INCLUDE}/barrowtide.h");
    for name in ["plain", "stack"] {
        compile(name);
    }
}

/// Compiles `NAME.c` to an archive, and has it linked.
fn compile(name: &str) {
    println!("cargo::rerun-if-changed={name}.c");
    let out = PathBuf::from(env::var_os("OUT_DIR").expect("cargo sets OUT_DIR"));
    let (object, archive) = (out.join(format!("{name}.o")), out.join(format!("lib{name}.a")));
    let mut compile = Command::new("gcc");
    compile.args(["-std=c11", "-O3", "-Wall", "-Wextra", "-I", INCLUDE, "-c"]);
    compile.arg(format!("{name}.c")).arg("-o").arg(&object);
    let mut pack = Command::new("ar");
    pack.arg("rcs").arg(&archive).arg(&object);
    for command in [&mut compile, &mut pack] {
        match command.status() {
            Ok(status) if status.success() => {}
            Ok(status) => println!("cargo::error={command:?} failed: {status}"),
            Err(error) => println!("cargo::error={command:?} could not be run: {error}"),
        }
    }
    println!("cargo::rustc-link-search=native={}", out.display());
    println!("cargo::rustc-link-lib=static={name}");
}
