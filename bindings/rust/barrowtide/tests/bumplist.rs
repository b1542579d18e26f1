//! The program `bumplist` against the reference.
//!
//! It is looked for in `crates/bumplist/out` at the top of the repository, or where
//! `BARROWTIDE_BUMPLIST` says; since other commands make it, these tests run only when asked for:
//!
//! ```text
//! (cd ../../crates/bumplist && rt run <stdin)
//! cargo test --offline --test bumplist -- --ignored
//! ```

use std::env;
use std::io::Write;
use std::path::{Path, PathBuf};
use std::process::{Command, Stdio};

use reference::bumplist::text;
use reference::generate::damage::{field_edits, random_edit, truncations};
use reference::generate::path::Plan;
use reference::generate::random::{rounds, Random};
use reference::generate::tree::Tree;
use reference::hex::{decode, expand, show};

/// Runs the program on an input and compares what it prints.
fn check(input: &[u8]) -> String {
    let program = env::var_os("BARROWTIDE_BUMPLIST").map_or_else(
        || Path::new(env!("CARGO_MANIFEST_DIR")).join("../../../crates/bumplist/out/bumplist"),
        PathBuf::from,
    );
    let mut child =
        Command::new(&program).stdin(Stdio::piped()).stdout(Stdio::piped()).spawn().unwrap_or_else(
            |error| panic!("{}: {error}; run `rt run` in crates/bumplist", program.display()),
        );
    let mut stdin = child.stdin.take().expect("a pipe");
    // The program may stop reading an input that is too long.
    let _ = stdin.write_all(input);
    drop(stdin);
    let output = child.wait_with_output().expect("the program's output");
    let printed = String::from_utf8(output.stdout).expect("text");
    assert_eq!(printed, text(input), "{}", show(input));
    printed
}

#[test]
#[ignore = "needs crates/bumplist/out/bumplist"]
fn examples() {
    assert_eq!(
        check(&expand("00 01 01 01 01")),
        "block 0\nheight 1\nlevel 0 leaves 1\nleaf 1 copy\nok\n"
    );
    assert_eq!(check(&expand("00 00")), "refused 4 at 1\n");
    assert_eq!(check(&expand("00 01 00")), "block 0\nheight 1\nlevel 0 leaves 0\nok\n");
    assert_eq!(check(&[]), "refused 2 at 0\n");
    check(&expand("05 01 02 01 01 00 02 01{31} 02"));
    check(&expand("fe ff ff ff ff 40 00{64}"));
    let last = check(&expand("00 40 01 ff{9} 01 00{63}"));
    assert!(last.contains("\nleaf 18446744073709551615 copy\n"), "{last}");
    assert!(
        check(&decode(include_str!("../../tests/data/004-bump.hex"))).starts_with("block 814435\n")
    );
}

#[test]
#[ignore = "needs crates/bumplist/out/bumplist"]
fn sizes() {
    let mut input = expand("00 01 00 00{65534}");
    assert_eq!(check(&input), "refused 1 at 0\n");
    input.pop();
    assert_eq!(check(&input), "refused 9 at 3\n");
}

#[test]
#[ignore = "needs crates/bumplist/out/bumplist"]
fn sound_and_damaged_paths() {
    let mut random = Random::of("sound_and_damaged_paths");
    for count in [2, 3, 11, 700] {
        let tree = Tree::random(&mut random, count);
        let plan = Plan::random(&mut random, &tree);
        check(&plan.bump().bytes);
    }
    let tree = Tree::random(&mut random, 3);
    let draft = Plan::random(&mut random, &tree).bump();
    truncations(&draft.bytes).for_each(|cut| drop(check(cut)));
    field_edits(&draft).step_by(7).for_each(|edit| drop(check(&edit)));
    for _ in 0..rounds() / 10 {
        check(&random_edit(&mut random, &draft));
    }
}
