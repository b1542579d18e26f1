//! What `./install` puts under a prefix, as a C compiler takes it, and that it is all or nothing.

#[path = "common/place.rs"]
mod place;

use std::collections::BTreeMap;
use std::fs;
use std::path::{Path, PathBuf};
use std::process::{Command, Output};

use place::{accepted, failed, text, Place, ARCHIVE, TOP};

const PROGRAM: &str = env!("CARGO_BIN_EXE_barrowtide");
const VERSION: &str = env!("CARGO_PKG_VERSION");

/// Runs lines of a shell at the top of the repository: what they print.
fn shell(prefix: &Path, lines: &str) -> String {
    let mut shell = Command::new("sh");
    shell.args(["-e", "-c", lines]).current_dir(TOP).env("PREFIX", prefix);
    shell.env("PKG_CONFIG_PATH", prefix.join("lib/pkgconfig"));
    accepted(&shell.output().expect("the shell starts"))
}

/// Every file below a folder with what it holds; of folders nothing.
fn files(folder: &Path) -> BTreeMap<PathBuf, Vec<u8>> {
    let mut found = BTreeMap::new();
    let Ok(entries) = fs::read_dir(folder) else { return found };
    for entry in entries {
        let path = entry.expect("an entry").path();
        found.append(&mut files(&path));
        found.insert(path.clone(), fs::read(path).unwrap_or_default());
    }
    found
}

/// All that is installed, under a prefix with a blank: by pkg-config where that is there.
#[test]
fn used_by_c() {
    let place = Place::with_kept("installed");
    let mut command = place.command("install", &["../a prefix"]);
    let output = command.env("PROGRAM", PROGRAM).output().expect("the script starts");
    let names = [
        "include/barrowtide.h",
        "lib/libbarrowtide.a",
        &format!("lib/libbarrowtide.so.{VERSION}"),
        "lib/pkgconfig/barrowtide.pc",
        "bin/barrowtide",
        "share/man/man1/barrowtide.1",
    ];
    let prefix = place.0.join("elsewhere/../a prefix");
    let told: String =
        names.iter().map(|name| format!("installed: {}\n", prefix.join(name).display())).collect();
    assert_eq!(accepted(&output), told);
    let prefix = fs::canonicalize(prefix).expect("the prefix");
    let mut there = files(&prefix);
    there.retain(|_, content| !content.is_empty());
    assert_eq!(there.len(), names.len());
    assert_eq!(fs::read(prefix.join("lib/libbarrowtide.a")).ok(), fs::read(ARCHIVE).ok());
    let described = fs::read_to_string(prefix.join("lib/pkgconfig/barrowtide.pc")).expect("a file");
    assert!(described.contains(&format!("\nVersion: {VERSION}\n")), "{described}");
    let version = Command::new(prefix.join("bin/barrowtide")).arg("--version").output();
    let version = accepted(&version.expect("the program starts"));
    assert_eq!(version, format!("barrowtide {VERSION}\n"));

    let judge = "bindings/rust/tests/data/004-bundle.hex \
        bb6f640cc4ee56bf38eb5a1969ac0c16caa2d3d202b22bf3735d10eec0ca6e00";
    let gcc = "gcc -std=c11 -Wall -Wextra -Werror examples/c/judge.c";
    // The shell reads once more what pkg-config says.
    let built = if Command::new("pkg-config").arg("--version").output().is_ok() {
        format!("eval {gcc} $(pkg-config --cflags --libs barrowtide) -o '\"$PREFIX/judge\"'")
    } else {
        format!("{gcc} -I\"$PREFIX/include\" \"$PREFIX/lib/libbarrowtide.a\" -o \"$PREFIX/judge\"")
    };
    let said = shell(&prefix, &format!("{built}; \"$PREFIX/judge\" {judge}"));
    assert!(said.starts_with("accepted, transactions: 2\n"), "{said}");
    // The same with the shared object, which exports what the archive does.
    let built = format!(
        "{gcc} -I\"$PREFIX/include\" \"$PREFIX/lib/libbarrowtide.so.{VERSION}\" -o \"$PREFIX/shared\"; \
         readelf -d \"$PREFIX/shared\" | grep -o 'libbarrowtide.so[^]]*'"
    );
    let run = "LD_LIBRARY_PATH=\"$PREFIX/lib\" \"$PREFIX/shared\"";
    let other = shell(&prefix, &format!("{built}; {run} {judge}"));
    assert_eq!(other, format!("libbarrowtide.so.{VERSION}\n{said}"));
    let symbols = |file: &str| {
        let lines = format!("nm --defined-only --extern-only {file} | sed -n 's/.* T //p' | sort");
        shell(&prefix, &lines)
    };
    let exported = symbols(&format!("--dynamic \"$PREFIX/lib/libbarrowtide.so.{VERSION}\""));
    assert_eq!(exported, symbols("\"$PREFIX/lib/libbarrowtide.a\""));
    assert!(exported.lines().all(|symbol| symbol.starts_with("barrowtide_")), "{exported}");
}

/// Without cargo and under another root.
#[test]
fn library_alone() {
    let place = Place::with_kept("library");
    place.remove("bin/cargo");
    assert!(failed(&place.run("install", &["../prefix"])).contains("cargo is needed"));
    let root = place.0.join("root");
    let mut command = place.command("install", &["--library", "/usr"]);
    accepted(&command.env("DESTDIR", &root).output().expect("the script starts"));
    let described = place.read("root/usr/lib/pkgconfig/barrowtide.pc").expect("a file");
    assert!(described.starts_with("prefix=/usr\n"), "{described}");
    assert!(!root.join("usr/bin").exists() && !root.join("usr/share").exists());
    assert_eq!((place.proved(), place.built()), (0, 0));
}

#[test]
fn help_and_prefixes_that_are_none() {
    let place = Place::with_kept("prefixes");
    let root = place.0.join("root");
    let install = |words: &[&str]| -> Output {
        let mut command = place.command("install", words);
        command.env("DESTDIR", &root).output().expect("the script starts")
    };
    let help = accepted(&install(&["--help"]));
    assert!(help.starts_with("usage: ./install [--library] PREFIX\n"), "{help}");
    assert!(help.contains("\n  ./install PREFIX\n") && !help.contains("set -"), "{help}");
    for words in [
        &[][..],
        &["-x"],
        &[""],
        &["/usr", "/usr"],
        &["--library"],
        &["/a\tb"],
        &["/a'b"],
        &["/a\"b"],
        &["/$a"],
        &["/a\\b"],
    ] {
        let output = install(words);
        assert!(!failed(&output).is_empty() && output.stdout.is_empty(), "{words:?}");
    }
    assert!(!root.exists() && place.built() == 0);
}

/// What is installed was proved from the sources as they stand.
#[test]
fn stale_archive() {
    let place = Place::with_kept("stale");
    place.write("crates/hash/src/lib", "// changed");
    let rt = place.read("bin/rt").expect("a script");
    place.script("bin/rt", "exit 1");
    assert!(failed(&place.run("install", &["../prefix"])).contains("could not be proved"));
    assert!(!place.0.join("prefix").exists());
    place.write("bin/rt", &rt);
    accepted(&place.run("install", &["../prefix"]));
    assert_eq!(place.proved(), 1);

    // A lent one has to be known.
    let lent = |directory: &str| {
        let mut command = place.command("install", &["--library", "../other"]);
        command.env("BARROWTIDE_LIB_DIR", directory).output().expect("the script starts")
    };
    fs::create_dir(place.0.join("lent")).expect("a folder");
    fs::copy(ARCHIVE, place.0.join("lent/libbarrowtide.a")).expect("the archive");
    assert!(failed(&lent("../lent")).contains("not known to be proved"));
    assert!(!place.0.join("other").exists());
    accepted(&lent("../target/staticlib"));
    place.write("crates/hash/src/lib", "");
    accepted(&lent("../lent"));
    assert_eq!(place.proved(), 1);
}

/// Whatever fails, all is as it was.
#[test]
fn all_or_nothing() {
    let place = Place::with_kept("nothing");
    let prefix = place.0.join("prefix");
    let refused = |said: &str| {
        let before = files(&prefix);
        let error = failed(&place.run("install", &["../prefix/of/mine"]));
        assert!(error.contains(said), "{error}");
        assert_eq!(files(&prefix), before);
    };
    let header = place.read("include/barrowtide.h").expect("the header");
    let other = header.replace("VERSION_MAJOR 0\n", "VERSION_MAJOR 9\n");
    assert_ne!(other, header);
    place.write("include/barrowtide.h", &other);
    refused("not of the header's version");
    assert!(!prefix.exists());
    place.write("include/barrowtide.h", &header);

    // The last file can't be put in its place, where nothing else is or files of before.
    let last = place.0.join("prefix/of/mine/share/man/man1/barrowtide.1");
    fs::create_dir_all(&last).expect("a folder");
    refused("a folder is in the way");
    place.write("prefix/of/mine/lib/libbarrowtide.a", "of before");
    refused("a folder is in the way");
    fs::remove_dir(&last).expect("an empty folder");
    fs::remove_dir(last.parent().expect("a folder")).expect("an empty folder");
    place.write("prefix/of/mine/share/man/man1", "a file where a folder should be");
    refused("man1");
    place.remove("prefix/of/mine/share/man/man1");
    let cargo = place.read("bin/cargo").expect("a script");
    place.remove("bindings/rust/target");
    place.script("bin/cargo", "exit 1");
    refused("could not be built");
    place.write("bin/cargo", &cargo);
    accepted(&place.run("install", &["../prefix/of/mine"]));
    assert_eq!(
        fs::read(place.0.join("prefix/of/mine/lib/libbarrowtide.a")).ok(),
        fs::read(ARCHIVE).ok()
    );
}

/// The manual has the commands of the help, with the same words.
#[test]
fn manual() {
    let help = Command::new(PROGRAM).arg("--help").output().expect("the program starts");
    let help = text(&help.stdout);
    let commands: Vec<(&str, &str)> = help
        .lines()
        .filter_map(|line| line.strip_prefix("  ")?.split_once("  "))
        .map(|(name, brief)| (name, brief.trim()))
        .collect();
    assert!(commands.len() > 10, "{help}");
    let manual = fs::read_to_string(Path::new(TOP).join("man/barrowtide.1")).expect("the manual");
    let section = manual.split(".SH COMMANDS\n").nth(1).and_then(|rest| rest.split(".PP\n").next());
    let described: Vec<(&str, &str)> = section
        .expect("the section")
        .split(".TP\n.B ")
        .filter_map(|entry| entry.trim_end().split_once('\n'))
        .collect();
    assert_eq!(described, commands);
}
