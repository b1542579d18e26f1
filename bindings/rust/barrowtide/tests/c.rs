//! The C header and example, as a C compiler takes them.

use std::collections::BTreeSet;
use std::env;
use std::fs;
use std::path::{Path, PathBuf};
use std::process::Command;

use barrowtide::ffi::{Blame, Parts, ARCHIVE, MORE};
use barrowtide::{Answer, Reason, Record, Version, VERSION};
use barrowtide::{BUMP_TO_TSC_ROOM, MERGE_EXTRA, TSC_TO_BUMP_ROOM, WRITE_ROOM};
use barrowtide::{
    MAX_DIFFERENCES, MAX_IDS, MAX_INPUT, MAX_LEAVES, MAX_LISTED, MAX_PAGE, MAX_PARTS, MAX_TOTAL,
    MAX_TRANSACTIONS,
};
use reference::hex::encode;
use reference::published::without_sibling;

/// A file of the repository.
fn file(path: &str) -> PathBuf {
    Path::new(env!("CARGO_MANIFEST_DIR")).join("../../..").join(path)
}

/// Builds a C program with the header and the library, every warning an error.
fn build(standard: &str, source: &str) -> PathBuf {
    let stem = Path::new(source).file_stem().expect("a source file").to_string_lossy();
    let program = PathBuf::from(env!("CARGO_TARGET_TMPDIR")).join(format!("{stem}-{standard}"));
    let built = Command::new("gcc")
        .args([&format!("-std={standard}"), "-O2", "-Wall", "-Wextra", "-Wpedantic", "-Werror"])
        .args([Path::new("-I"), &file("include"), &file(source), Path::new(ARCHIVE)])
        .args([Path::new("-o"), &program])
        .status()
        .expect("gcc starts");
    assert!(built.success(), "{source} under {standard}");
    program
}

/// Runs a program: its exit status, and what it prints.
fn run(program: &Path, arguments: &[&str]) -> (Option<i32>, String) {
    let output = Command::new(program).args(arguments).output().expect("the program starts");
    (output.status.code(), String::from_utf8(output.stdout).expect("text"))
}

#[test]
fn header() {
    let Version { major, minor, patch } = VERSION;
    let number = major * 65_536 + minor * 256 + patch;
    let mut expected = format!("version {VERSION}, archive {number}\nof one version 1\n");
    expected += "0 ACCEPTED, accepted, carries 0\n";
    for number in 1.. {
        let Some(reason) = Reason::from_number(number) else {
            expected += &format!("{number} UNKNOWN, unknown refusal, carries 0\n");
            break;
        };
        let carries = match (reason.blames_place(), reason.blames_transaction()) {
            (true, false) => 1,
            (false, true) => 2,
            _ => 0,
        };
        let (name, words) = (reason.name(), reason.meaning());
        expected += &format!("{number} {name}, {words}, carries {carries}\n");
    }
    expected += &format!("input {MAX_INPUT}\ntransactions {MAX_TRANSACTIONS}\n");
    expected += &format!("total {MAX_TOTAL}\n");
    expected += &format!("page {MAX_PAGE}\nids {MAX_IDS}\nwrite room {WRITE_ROOM}\n");
    expected += &format!("TSC to BUMP room {TSC_TO_BUMP_ROOM}\n");
    expected += &format!("BUMP to TSC room {BUMP_TO_TSC_ROOM}\n");
    expected += &format!("differences {MAX_DIFFERENCES}\n");
    expected += &format!("leaves {MAX_LEAVES}, listed {MAX_LISTED}\n");
    expected += &format!("more bytes to merge {MERGE_EXTRA}\n");
    expected += &format!("record {}\nanswer {}\n", size_of::<Record>(), size_of::<Answer>());
    expected += &format!("blame {}\n", size_of::<Blame>());
    expected += &format!("parts {MAX_PARTS}, state {}, more {MORE}\n", size_of::<Parts>());
    expected += "hash of nothing 0, blame 7 8 9\nno bundle 2, blame 0 0 0\nwork 0\n";
    expected += "no path 2, blame 0 0 0\nno paths 2, blame 0 0 0\nno list 5, blame 0 0 0\n";
    expected += "no leaves 2, blame 0 0 0\nno room 22, blame 0 0 0\na leaf 0, blame 7 8 9\n";
    expected += "leaves 1: 0 1 3 7\nfound 0, at 7\nfound 1, at 3\n";
    expected += "nothing to merge 2, blame 0 0 0\nno client 13, blame 0 0 0\n";
    expected += "no set 0, blame 7 8 9\nno proposal 0, blame 7 8 9\nnot that 30, blame 0 0 0\n";
    expected += "too many 5, blame 0 0 0\nno second 2, blame 60 0 0\ntransaction 1\n";
    expected += "no proof to turn 2, blame 0 0 0\nno BUMP to turn 2, blame 0 0 0\n";
    expected += "no proofs 2, blame 0 0 0\nas many layers 23, blame 0 0 0\n";
    expected += "first is transaction 7\n";
    expected += &format!("first part {MORE}, blame 7 8 9\nsecond part 11, blame 4 0 0\n");
    expected += &format!("no part {MORE}, blame 7 8 9\nno parts 2, blame 0 0 0\n");
    expected += "missing 14, blame 0 0 20\n";
    for standard in ["c99", "c11", "c17"] {
        let program = build(standard, "bindings/rust/barrowtide/tests/c/header.c");
        assert_eq!(run(&program, &[]), (Some(0), expected.clone()));
    }
}

/// The header promises it to those who link without a C library.
#[test]
fn needs_memcpy_and_memset_alone() {
    let output =
        Command::new("nm").arg("--undefined-only").arg(ARCHIVE).output().expect("nm starts");
    assert!(output.status.success());
    let listed = String::from_utf8(output.stdout).expect("text");
    let symbol = |line: &str| line.trim().strip_prefix("U ").map(str::to_string);
    let needed: BTreeSet<String> = listed.lines().filter_map(symbol).collect();
    assert_eq!(needed, BTreeSet::from(["memcpy", "memset"].map(str::to_string)));
}

#[test]
fn header_in_cpp() {
    let source = PathBuf::from(env!("CARGO_TARGET_TMPDIR")).join("header.cpp");
    fs::write(&source, "#include \"barrowtide.h\"\n").expect("a file for the test");
    for standard in ["c++98", "c++11", "c++17"] {
        let read = Command::new("gcc")
            .args([&format!("-std={standard}"), "-Wall", "-Wextra", "-Wpedantic", "-Werror"])
            .args([Path::new("-fsyntax-only"), Path::new("-I"), &file("include"), &source])
            .status()
            .expect("gcc starts");
        assert!(read.success(), "{standard}");
    }
}

#[test]
fn example() {
    let root = "bb6f640cc4ee56bf38eb5a1969ac0c16caa2d3d202b22bf3735d10eec0ca6e00";
    let bundle = file("bindings/rust/tests/data/004-bundle.hex");
    let program = build("c11", "examples/c/judge.c");
    let judge = |bundle: &Path, more: &[&str]| {
        run(&program, &[&[bundle.to_str().expect("a plain path"), root], more].concat())
    };
    let (status, text) = judge(&bundle, &[]);
    assert_eq!(status, Some(0), "{text}");
    assert!(text.starts_with("accepted, transactions: 2\n"), "{text}");
    assert!(text.contains("anchored by BUMP 0 at position 21"), "{text}");
    assert!(text.contains("outputs 1  total 26174"), "{text}");
    assert!(text.ends_with("\nSHA-256 compressions: 31\n"), "{text}");
    assert_eq!(judge(&bundle, &["1"]), (Some(0), text));
    let refused = "refused 28 TOO_LITTLE at transaction 1: inputs not more than outputs plus \
         the fee\nSHA-256 compressions: 31\n";
    for fee in ["2", "18446744073709551615"] {
        assert_eq!(judge(&bundle, &[fee]), (Some(1), refused.to_string()));
    }
    for fee in ["", "-1", "1x", "18446744073709551616"] {
        assert_eq!(judge(&bundle, &[fee]), (Some(2), String::new()));
    }

    let other = PathBuf::from(env!("CARGO_TARGET_TMPDIR")).join("missing.hex");
    fs::write(&other, encode(&without_sibling())).expect("a file for the test");
    let refused = "refused 14 MISSING at transaction 0: sibling not written and not to be worked \
         out, sibling 20 of layer 0\nSHA-256 compressions: 10\n";
    assert_eq!(judge(&other, &[]), (Some(1), refused.to_string()));
    for (bytes, said) in [
        (&[1, 0, 0xbe, 0xef, 0, 0][..], "12 EMPTY at byte 5: BEEF with no transaction"),
        (&[1, 0, 0xbe, 0xed], "10 BAD_VERSION: first four bytes not BEEF's"),
    ] {
        fs::write(&other, encode(bytes)).expect("a file for the test");
        let refused = format!("refused {said}\nSHA-256 compressions: 0\n");
        assert_eq!(judge(&other, &[]), (Some(1), refused));
    }
}

#[test]
fn example_in_parts() {
    let program = build("c11", "examples/c/parts.c");
    let room = PathBuf::from(env!("CARGO_TARGET_TMPDIR"));
    let parts = |name: &str, bytes: &[u8]| {
        let path = room.join(name);
        fs::write(&path, bytes).expect("a file for the test");
        run(&program, &[path.to_str().expect("a plain path")])
    };
    // More than one part: a script of 9,000 bytes.
    let head = [&[1, 0, 0, 0, 1][..], &[0xaa; 36], &[0xfd, 0x28, 0x23]].concat();
    let raw = [&head[..], &[7; 9_000 + 4], &[1], &[0; 8 + 1 + 4]].concat();
    let id = barrowtide::read_transaction(&raw).expect("a transaction").id;
    let text = format!("accepted, bytes: 9062, inputs: 1, outputs: 1\nid {id}\n");
    assert_eq!(parts("raw.bin", &raw), (Some(0), text));
    let refused = "refused 2 SHORT at 44\n".to_string();
    assert_eq!(parts("cut.bin", &raw[..9_000]), (Some(1), refused));
    let refused = "refused 9 EXTRA at 9062\n".to_string();
    assert_eq!(parts("longer.bin", &[&raw[..], &[0; 5_000]].concat()), (Some(1), refused));
}
