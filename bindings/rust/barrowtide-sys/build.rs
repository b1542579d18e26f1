//! Links the proved library, `libbarrowtide.a`, statically: the one of the directory that
//! `BARROWTIDE_LIB_DIR` names, or the one that `bindings/archive.sh` finds.

use std::env;
use std::ffi::OsString;
use std::path::{Path, PathBuf};
use std::process::Command;

const WORKSPACE: &str = concat!(env!("CARGO_MANIFEST_DIR"), "/..");
const TOP: &str = concat!(env!("CARGO_MANIFEST_DIR"), "/../../..");

fn main() {
    println!("cargo::rerun-if-env-changed=BARROWTIDE_LIB_DIR");
    let lent = env::var_os("BARROWTIDE_LIB_DIR").filter(|directory| !directory.is_empty());
    match lent.map_or_else(found, |directory| named(&directory)) {
        Ok(archive) => {
            println!("cargo::rerun-if-changed={}", archive.display());
            let directory = archive.parent().expect("the archive is in a directory");
            println!("cargo::rustc-link-search=native={}", directory.display());
            println!("cargo::rustc-link-lib=static=barrowtide");
            println!("cargo::rustc-env=BARROWTIDE_ARCHIVE={}", archive.display());
        }
        Err(error) => error.lines().for_each(|line| println!("cargo::error={line}")),
    }
}

/// The archive of a directory. A relative one is seen from where cargo was called, which only a shell
/// tells, or else from the workspace.
fn named(directory: &OsString) -> Result<PathBuf, String> {
    if Path::new(directory).is_relative() {
        println!("cargo::rerun-if-env-changed=PWD");
    }
    let called = env::var_os("PWD").map_or_else(PathBuf::new, PathBuf::from);
    [called.as_path(), Path::new(WORKSPACE)]
        .map(|from| from.join(directory).join("libbarrowtide.a"))
        .into_iter()
        .find(|archive| archive.is_file())
        .ok_or_else(|| {
            let directory = Path::new(directory).display();
            format!("BARROWTIDE_LIB_DIR names a directory without libbarrowtide.a: {directory}")
        })
}

/// The archive of the repository's sources: the one that is kept, or one that is proved now.
fn found() -> Result<PathBuf, String> {
    for input in ["bindings/archive.sh", "crates", "crates.txt", "dist"] {
        println!("cargo::rerun-if-changed={TOP}/{input}");
    }
    let target = ["CARGO_CFG_TARGET_ARCH", "CARGO_CFG_TARGET_OS"].map(|name| env::var(name).ok());
    if target != ["x86_64", "linux"].map(|part| Some(part.to_string())) {
        return Err("The library is for x86-64 Linux alone.".to_string());
    }
    let advice = "Set BARROWTIDE_LIB_DIR to the directory that holds libbarrowtide.a.";
    let script = Command::new("bash").arg(format!("{TOP}/bindings/archive.sh")).output();
    let output = script.map_err(|error| format!("bash does not start: {error}\n{advice}"))?;
    let text = |bytes| String::from_utf8_lossy(bytes).into_owned();
    if output.status.success() {
        Ok(PathBuf::from(text(&output.stdout).trim_end()))
    } else {
        Err(text(&output.stderr) + advice)
    }
}
