//! A folder with the scripts of the repository and what they ask for, with stand-ins for `rt` and
//! `cargo`.

use std::env;
use std::fs::{self, Permissions};
use std::os::unix::fs::PermissionsExt;
use std::path::{Path, PathBuf};
use std::process::{self, Command, Output, Stdio};
use std::thread;

pub const TOP: &str = concat!(env!("CARGO_MANIFEST_DIR"), "/../../..");

/// The archive that the tests are linked with; the stand-in for `rt` makes a copy of it.
pub const ARCHIVE: &str = barrowtide_sys::ARCHIVE;

/// What the scripts are made of.
const FILES: [&str; 9] = [
    ".ci/refusals",
    ".ci/run",
    "barrowtide",
    "bindings/archive.sh",
    "dist/renew",
    "dist/sources",
    "include/barrowtide.h",
    "install",
    "man/barrowtide.1",
];

/// Proves three crates, with a note of each, or is the gate; of a changed crate it says what a file has that is
/// named as its source reads.
const RT: &str = r#"echo "$*" >>"$HERE/proved"
case $1 in
version) echo "kit" ;;
ci)
    echo "rt: ok; handles allowed: none; must-fail edits: 2 refused${BAD:-}; all were tried"
    echo "2 passed, ${FAILED:-0} failed"
    exit "${FAILED:-0}"
    ;;
lib)
    for crate in hash format barrowtide; do
        echo "note: of $crate"
        echo "crate $crate: modules loaded=1 checked=1"
        echo "logic=proved functions=1"
    done
    mkdir -p out
    cp "$ARCHIVE" out/libbarrowtide.a
    ;;
check) cat "$HERE/said/$(cat src/lib)"; exit "${CHECKED:-1}" ;;
*) exit 9 ;;
esac"#;

/// Builds a program that says where it is and what it was told.
const CARGO: &str = r#"echo "$*" >>"$HERE/built"
while [ $# -gt 0 ]; do
    [ "$1" != --target-dir ] || { mkdir -p "$2/release"; cp "$PROGRAM" "$2/release/barrowtide"; }
    shift
done"#;

const PROGRAM: &str = r#"pwd; echo "$@""#;

pub struct Place(pub PathBuf);

impl Place {
    /// A new one, which keeps no archive. It lies outside the repository, where rt ci takes no other crates.txt.
    pub fn new(name: &str) -> Self {
        let top = env::temp_dir().join(format!("barrowtide-{}-{name}", process::id()));
        fs::create_dir_all(&top).expect("a folder for the test");
        let place = Self(fs::canonicalize(top).expect("a folder"));
        place.write(
            "crates.txt",
            "hash:\nformat: hash\nbarrowtide staticlib: format\nother: hash\n",
        );
        place.write("crates/hash/src/lib", "");
        place.write("crates/hash/specs/Hash", "");
        place.write("crates/hash/proofs/Hash", "");
        place.write("crates/barrowtide/src/lib", "");
        for file in ["Cargo.toml", "Cargo.lock", "barrowtide-sys/build.rs"] {
            place.write(&format!("bindings/rust/{file}"), "");
        }
        for (member, file) in [("barrowtide-sys", "lib"), ("barrowtide", "lib"), ("cli", "main")] {
            place.write(&format!("bindings/rust/{member}/Cargo.toml"), "");
            place.write(&format!("bindings/rust/{member}/src/{file}.rs"), "");
        }
        place.write("elsewhere/empty", "");
        for file in FILES {
            let path = place.0.join(file);
            fs::create_dir_all(path.parent().expect("a folder")).expect("a folder for the test");
            fs::copy(Path::new(TOP).join(file), path).expect("a file of the repository");
        }
        place.script("bin/rt", RT);
        place.script("bin/cargo", CARGO);
        place.script("program", PROGRAM);
        place
    }

    /// A new one, which keeps the archive and has proved and built nothing.
    pub fn with_kept(name: &str) -> Self {
        let place = Self::new(name);
        accepted(&place.run("dist/renew", &[]));
        place.remove("target");
        place.remove("proved");
        place
    }

    pub fn write(&self, file: &str, content: &str) {
        let path = self.0.join(file);
        fs::create_dir_all(path.parent().expect("a folder")).expect("a folder for the test");
        fs::write(path, content).expect("a file for the test");
    }

    pub fn script(&self, file: &str, content: &str) {
        self.write(file, &format!("#!/bin/sh\n{content}\n"));
        let runs = Permissions::from_mode(0o755);
        fs::set_permissions(self.0.join(file), runs).expect("it can be run");
    }

    pub fn remove(&self, name: &str) {
        let path = self.0.join(name);
        let removed = if path.is_dir() { fs::remove_dir_all(path) } else { fs::remove_file(path) };
        removed.expect("something to remove");
    }

    /// What a file holds, if it is there.
    pub fn read(&self, file: &str) -> Option<String> {
        fs::read_to_string(self.0.join(file)).ok()
    }

    /// How often the library was proved.
    pub fn proved(&self) -> usize {
        self.read("proved")
            .map_or(0, |text| text.lines().filter(|line| line.starts_with("lib ")).count())
    }

    /// How often the program was built.
    pub fn built(&self) -> usize {
        self.read("built").map_or(0, |text| text.lines().count())
    }

    /// A script, called from elsewhere on a machine that has the stand-ins and what is the system's.
    pub fn command(&self, script: &str, arguments: &[&str]) -> Command {
        let mut command = Command::new(self.0.join(script));
        command.args(arguments).current_dir(self.0.join("elsewhere"));
        command.env("PATH", format!("{}:/usr/bin:/bin", self.0.join("bin").display()));
        for name in ["BARROWTIDE_LIB_DIR", "CARGO_TARGET_DIR", "CARGO_BUILD_TARGET_DIR", "DESTDIR"]
        {
            command.env_remove(name);
        }
        command.env("HERE", &self.0).env("ARCHIVE", ARCHIVE);
        command.env("PROGRAM", self.0.join("program")).stdin(Stdio::null());
        command
    }

    pub fn run(&self, script: &str, arguments: &[&str]) -> Output {
        self.command(script, arguments).output().expect("the script starts")
    }
}

impl Drop for Place {
    fn drop(&mut self) {
        if !thread::panicking() {
            let _ = fs::remove_dir_all(&self.0);
        }
    }
}

pub fn text(bytes: &[u8]) -> String {
    String::from_utf8_lossy(bytes).into_owned()
}

/// What a script printed that ended well.
pub fn accepted(output: &Output) -> String {
    assert!(output.status.success(), "{}", text(&output.stderr));
    text(&output.stdout)
}

/// What one said on standard error that could not do its work.
pub fn failed(output: &Output) -> String {
    assert_eq!(output.status.code(), Some(2), "{}", text(&output.stderr));
    text(&output.stderr)
}
