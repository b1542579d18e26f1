//! The program `barrowtide` as a person runs it: every command accepted, refused and with input that
//! it can't use.

#[path = "common/program.rs"]
mod program;

use std::env;
use std::ffi::{OsStr, OsString};
use std::fs::{self, File};
use std::io::Write;
use std::os::unix::fs::symlink;
use std::process::{self, Command, Stdio};

use barrowtide::{join, Hash, Reason};
use program::{
    accepts, bad_descriptor, cannot_use, command, data, file, in_shell, ran, refuses,
    refuses_beside, run, run_on,
};
use program::{DATA, ID, PROGRAM, ROOT};
use reference::hex::{decode, encode};
use reference::published::without_sibling;

const COMMANDS: [&str; 16] = [
    "judge", "prove", "clients", "list", "extract", "index", "compare", "write", "page", "convert",
    "order", "diff", "shorter", "merge", "draw", "batch",
];

const JUDGED: &str = "\
accepted: each transaction is mined under a trusted root or spends what earlier ones of the bundle pay, once, and leaves more than the fee; 2 transactions
  no     start    length  anchored  bump    position  outputs             total  id
   0       291       192  yes          0          21        1             26174  3ecead27a44d013ad1aae40038acbb1883ac9242406808bb4667c15b4f164eac
   1       485       191  no           -           -        1             26172  157428aee67d11123203735e4c540fa1bdab3b36d5882c6f8c5ff79f07d20d1c
mined under these roots, the block height by the sender's word:
  no  block height  root
   0        814435  bb6f640cc4ee56bf38eb5a1969ac0c16caa2d3d202b22bf3735d10eec0ca6e00
";

/// The refusal of 004's bundle without a sibling.
const GAP: &str =
    "refused 14 MISSING at transaction 0: the sender must add the node at layer 0, position 20.";

/// Which transaction of 004's bundle is refused by its BUMP, and which without one.
const BY_BUMP: &str = "\
id        3ecead27a44d013ad1aae40038acbb1883ac9242406808bb4667c15b4f164eac
bump      0, block height 814435 by the sender's word";
const BY_NONE: &str = "\
id        157428aee67d11123203735e4c540fa1bdab3b36d5882c6f8c5ff79f07d20d1c
bump      none";

#[test]
fn judge() {
    accepts(&["judge", "004-bundle.hex", "004-roots.txt"], JUDGED);
    let binary = file("bundle.beef", data("004-bundle.hex"));
    accepts(&["judge", &binary, "004-roots.txt"], JUDGED);
    let judged = (Some(0), JUDGED.to_string(), String::new());
    assert_eq!(run_on(&data("004-bundle.hex"), &["judge", "-", "004-roots.txt"]), judged);
    assert_eq!(run_on(ROOT.as_bytes(), &["judge", "004-bundle.hex", "-"]), judged);

    let none = file("none.txt", "# no roots\n\n");
    refuses(
        &["judge", "004-bundle.hex", &none],
        "refused 17 UNTRUSTED at transaction 0: its proof leads to a root that is not in your list. \
         Bring the list up to date; if the root is still not in it, don't accept the payment.\n\
         id        3ecead27a44d013ad1aae40038acbb1883ac9242406808bb4667c15b4f164eac\n\
         bump      0, block height 814435 by the sender's word\n\
         root      bb6f640cc4ee56bf38eb5a1969ac0c16caa2d3d202b22bf3735d10eec0ca6e00\n\
         look up   the root of the block at height 814435",
    );
    let gap = file("gap.beef", without_sibling());
    refuses(&["judge", &gap, "004-roots.txt"], &format!("{GAP}\n{BY_BUMP}"));
    let short = file("short.hex", "0100beef");
    refuses(
        &["judge", &short, "004-roots.txt"],
        "refused 2 SHORT at byte 4: the bytes end inside the field that starts here. Ask the sender \
         for the whole bundle, and check that this is one.",
    );
    refuses(
        &["judge", "004-bump.hex", "004-roots.txt"],
        "refused 10 BAD_VERSION: this looks like a BUMP. Check that it is the right file, or ask the \
         sender for a BEEF (BRC-62).",
    );
    let none = file("none.beef", [7; 40]);
    refuses(
        &["judge", &none, "004-roots.txt"],
        "refused 10 BAD_VERSION: the first four bytes are not 0100beef, so this is no BEEF of that \
         version. Ask the sender for one.",
    );

    cannot_use(&["judge"], "usage: barrowtide judge BEEF ROOTS [--fee N]");
    cannot_use(&["judge", "no such file", "004-roots.txt"], "no such file: ");
    cannot_use(&["judge", "004-bundle.hex", "004-bundle.hex"], "line 1: not 64 hex digits");
    cannot_use(&["judge", "004-roots.txt", "004-roots.txt"], "text that is not hex: '#'");
    cannot_use(&["judge", "-", "-"], "standard input can be read once");
}

/// Fields of the second transaction of 004's bundle: its count of inputs, then the only one, of which
/// the output number starts at OUTPUT, and the amount of its output.
const INPUTS: usize = 489;
const OUTPUT: usize = 522;
const AMOUNT: usize = 638;

/// 004's bundle with other bytes from a place on.
fn changed(name: &str, at: usize, bytes: &[u8]) -> String {
    let mut bundle = data("004-bundle.hex");
    bundle[at..at + bytes.len()].copy_from_slice(bytes);
    file(name, bundle)
}

#[test]
fn judge_amounts() {
    let judge = |words: &[&'static str]| {
        [&["judge", "004-bundle.hex", "004-roots.txt"][..], words].concat()
    };
    for fee in ["0", "1"] {
        accepts(&judge(&["--fee", fee]), JUDGED);
    }
    accepts(&["judge", "--fee", "1", "004-bundle.hex", "004-roots.txt"], JUDGED);
    let too_little = "refused 28 TOO_LITTLE at transaction 1: what it spends is not more than what \
         it pays out and the fee that you ask for. Ask the sender for a payment that leaves more, or \
         ask for a smaller fee.";
    for fee in ["2", "18446744073709551615"] {
        refuses(&judge(&["--fee", fee]), &format!("{too_little}\n{BY_NONE}"));
    }
    let (status, text, _) = run(&judge(&["--json", "--fee", "2"]));
    let start = "{\"accepted\":false,\"refusal\":{\"number\":28,\"name\":\"TOO_LITTLE\",\
         \"input\":null,\"place\":null,\"transaction\":1,";
    assert!(text.starts_with(start), "{text}");
    assert_eq!(status, Some(1));

    refuses(
        &["judge", &changed("amount.beef", AMOUNT + 7, &[1]), "004-roots.txt"],
        "refused 25 BAD_AMOUNT at byte 638: the amount here is over 2100000000000000 satoshi, or \
         brings the outputs of its transaction over that, which is more than there is. The software \
         that wrote the bundle is at fault.",
    );
    let (_, text, _) = run(&["list", "beef", &changed("list.beef", AMOUNT + 7, &[1])]);
    assert!(text.starts_with("refused 25 BAD_AMOUNT at byte 638: "), "{text}");
    // The transaction has another id, as its bytes are others.
    let refuses_transaction = |bundle: &[u8], raw: std::ops::Range<usize>, words: &str| {
        let id = barrowtide::read_transaction(&bundle[raw]).expect("a transaction").id;
        let text = format!("{words}\nid        {id}\nbump      none");
        refuses(&["judge", &file("transaction.beef", bundle), "004-roots.txt"], &text);
    };
    let output = fs::read(changed("output.beef", OUTPUT, &[1])).expect("the file");
    refuses_transaction(
        &output,
        485..485 + 191,
        "refused 26 NO_OUTPUT at transaction 1: it spends an output that its parent does not have. \
         Don't accept the payment; ask the sender for one that spends what is there.",
    );
    let mut twice = data("004-bundle.hex");
    let input = twice[INPUTS + 1..AMOUNT - 1].to_vec();
    twice[INPUTS] = 2;
    twice.splice(INPUTS + 1..INPUTS + 1, input);
    refuses_transaction(
        &twice,
        485..twice.len() - 1,
        "refused 27 SPENT_TWICE at transaction 1: it spends an output that was spent already, by \
         itself or by an earlier transaction of the bundle. Don't accept the payment; the sender \
         must leave one of the two out.",
    );
    cannot_use(&judge(&["--fee"]), "usage: barrowtide judge BEEF ROOTS [--fee N]");
    cannot_use(&judge(&["--fee", "1", "--fee", "1"]), "usage: barrowtide judge");
    cannot_use(&judge(&["--fee", "much"]), "not a fee: much");
    cannot_use(&judge(&["--fee", "-1"]), "not a fee: -1; it is a number from 0 on");
    cannot_use(&["list", "--fee", "1"], "no option --fee");
}

#[test]
fn judge_with_cost() {
    let judge = |words: &[&'static str]| {
        [&["judge", "004-bundle.hex", "004-roots.txt"][..], words].concat()
    };
    let counted = format!("{JUDGED}SHA-256 compressions: 31\n");
    accepts(&judge(&["--cost"]), &counted);
    accepts(&["judge", "--cost", "004-bundle.hex", "--fee", "1", "004-roots.txt"], &counted);
    let (status, text, _) = run(&judge(&["--cost", "--fee", "2"]));
    assert!(text.starts_with("refused 28 TOO_LITTLE at transaction 1: "), "{text}");
    let end = format!("smaller fee.\n{BY_NONE}\nSHA-256 compressions: 31\n");
    assert!(text.ends_with(&end), "{text}");
    assert_eq!(status, Some(1));
    // The climb stops at layer 0, so only the ids count; nothing counts in reading.
    let gap = file("gap-cost.beef", without_sibling());
    let missing = format!("{GAP}\n{BY_BUMP}\nSHA-256 compressions: 10");
    refuses(&["judge", "--cost", &gap, "004-roots.txt"], &missing);
    let short = file("short-cost.hex", "0100beef");
    assert!(run(&["judge", &short, "004-roots.txt", "--cost"])
        .1
        .ends_with("\nSHA-256 compressions: 0\n"));

    let (_, plain, _) = run(&judge(&["--json"]));
    let (_, text, _) = run(&judge(&["--json", "--cost"]));
    let plain = plain.strip_suffix("}\n").expect("an object");
    assert_eq!(text, format!("{plain},\"compressions\":31}}\n"));
    let (status, text, _) = run(&["judge", "--json", &gap, "004-roots.txt", "--cost"]);
    assert!(text.starts_with("{\"accepted\":false,\"refusal\":{\"number\":14,"), "{text}");
    assert!(text.ends_with(",\"block_height\":814435,\"compressions\":10}\n"), "{text}");
    assert_eq!(status, Some(1));
    cannot_use(&judge(&["--fee", "--cost"]), "not a fee: --cost");
    cannot_use(&["prove", "--cost", "tsc", "000-proof.hex"], "no option --cost");
}

#[test]
fn judge_for_scripts() {
    let (status, text, error) = run(&["judge", "--json", "004-bundle.hex", "004-roots.txt"]);
    let expected = "{\"accepted\":true,\"transactions\":[\
         {\"start\":291,\"length\":192,\
         \"id\":\"3ecead27a44d013ad1aae40038acbb1883ac9242406808bb4667c15b4f164eac\",\
         \"anchored\":true,\"bump\":0,\"position\":21,\"outputs\":1,\"total\":26174,\
         \"root\":\"bb6f640cc4ee56bf38eb5a1969ac0c16caa2d3d202b22bf3735d10eec0ca6e00\",\
         \"block_height\":814435},\
         {\"start\":485,\"length\":191,\
         \"id\":\"157428aee67d11123203735e4c540fa1bdab3b36d5882c6f8c5ff79f07d20d1c\",\
         \"anchored\":false,\"bump\":null,\"position\":null,\"outputs\":1,\"total\":26172,\
         \"root\":null,\"block_height\":null}]}\n";
    assert_eq!((status, text.as_str(), error.as_str()), (Some(0), expected, ""));
    let gap = file("gap-json.beef", without_sibling());
    let (status, text, _) = run(&["judge", &gap, "004-roots.txt", "--json"]);
    let expected = "{\"accepted\":false,\"refusal\":{\"number\":14,\"name\":\"MISSING\",\
         \"input\":null,\"place\":null,\"transaction\":0,\"layer\":0,\"sibling\":20,\
         \"words\":\"the sender must add the node at layer 0, position 20.\"},\
         \"id\":\"3ecead27a44d013ad1aae40038acbb1883ac9242406808bb4667c15b4f164eac\",\
         \"bump\":0,\"block_height\":814435}\n";
    assert_eq!((status, text.as_str()), (Some(1), expected));
    let (status, text, error) = run(&["--json", "judge", "\"no\"", "004-roots.txt"]);
    assert!(text.starts_with("{\"unusable\":\"\\\"no\\\": "), "{text}");
    assert_eq!((status, error.as_str()), (Some(2), ""));
}

/// What a file looks like is said if it is of another form than the one asked for.
#[test]
fn another_form() {
    let whole = data("004-bundle.hex");
    let looks = |command: &[&str], bytes: &[u8], like: &str, asked: &str| {
        let words = [command, &["-"]].concat();
        let (status, text, _) = run_on(bytes, &words);
        let text = text.split_once(": ").map_or("", |(_, text)| text);
        let expected = format!(
            "this looks like {like}. Check that it is the right file, or ask the sender for {asked}.\n"
        );
        assert_eq!((status, text), (Some(1), expected.as_str()), "{words:?}");
    };
    let (beef, path) = ("a BEEF (BRC-62)", "a compound path");
    let v2 = [&[0x02][..], &whole[1..]].concat();
    let atomic = [&[0x01; 4][..], &[0xaa; 32], &whole].concat();
    looks(&["list", "beef"], &data("004-bump.hex"), "a BUMP", beef);
    looks(&["list", "beef"], &data("001-path.hex"), path, beef);
    looks(&["list", "beef"], &data("000-proof.hex"), "a TSC proof", beef);
    looks(&["list", "beef"], &whole[291..291 + 192], "a transaction", beef);
    let v2_name = "a BEEF V2 (BRC-96), which this library does not take";
    looks(&["list", "beef"], &v2, v2_name, beef);
    let atomic_name = "an Atomic BEEF (BRC-95), which this library does not take";
    looks(&["list", "beef"], &atomic, atomic_name, beef);
    looks(&["list", "bump"], &atomic, atomic_name, "a BUMP");
    for form in ["bump", "cmp", "tsc", "transaction"] {
        let (_, text, _) = run_on(&whole[..whole.len() - 1], &["list", form, "-"]);
        assert!(text.contains(": this looks like a BEEF (BRC-62). "), "{text}");
    }
    looks(&["clients"], &whole, beef, "a BUMP");
    looks(&["list", "cmp"], &data("004-bump.hex"), "a BUMP", path);
    let (_, text, _) = run(&["diff", "004-bump.hex", "004-bundle.hex"]);
    assert!(text.starts_with("refused 4 BAD_HEIGHT in the second at byte 1: this looks"), "{text}");
    let (_, text, _) = run(&["compare", "tsc", "004-bump.hex", "tsc", "000-proof.hex"]);
    assert!(text.contains(" in the first at byte 0: this looks like a BUMP."), "{text}");
    // A bundle that is cut is a bundle, and one that is not trusted is no other form.
    let (_, text, _) = run_on(&whole[..whole.len() - 1], &["list", "beef", "-"]);
    assert!(text.starts_with("refused 2 SHORT at byte 676: the bytes end inside"), "{text}");
    assert!(!run_on(&whole, &["judge", "-", &file("untrusted.txt", "")]).1.contains("looks"));
}

/// Hex and lists as editors save them that don't save plain text: said so, and where.
#[test]
fn text_that_is_not_plain() {
    let wide = |text: &str, end: fn(u16) -> [u8; 2]| -> Vec<u8> {
        text.encode_utf16().flat_map(end).collect()
    };
    let read = |name: &str| fs::read_to_string(format!("{DATA}/{name}")).expect("test data");
    let hex = read("004-bundle.hex");
    let (mark, utf16) = ("a byte order mark before the text; save", "text in UTF-16; save");
    let roots = read("004-roots.txt");
    for (case, bytes, roots, words) in [
        (
            "mark",
            format!("\u{feff}{hex}").into_bytes(),
            format!("\u{feff}{roots}").into_bytes(),
            mark,
        ),
        ("le", wide(&hex, u16::to_le_bytes), wide(&roots, u16::to_le_bytes), utf16),
        ("be", wide(&hex, u16::to_be_bytes), wide(&roots, u16::to_be_bytes), utf16),
        (
            "marked-le",
            wide(&format!("\u{feff}{hex}"), u16::to_le_bytes),
            wide(&format!("\u{feff}{roots}"), u16::to_le_bytes),
            utf16,
        ),
    ] {
        let bundle = file(&format!("{case}.hex"), bytes);
        cannot_use(&["judge", &bundle, "004-roots.txt"], &format!("{bundle}: {words}"));
        let list = file(&format!("{case}.txt"), roots);
        cannot_use(&["judge", "004-bundle.hex", &list], &format!("{list}: {words}"));
        cannot_use(&["page", "004-bump.hex", &list], &format!("{list}: {words}"));
    }
    // A blank that does not break a line, in UTF-8 and in Latin-1; an old end of file; a quote.
    let hex = hex.trim_end();
    for (stray, words) in [
        (&b"\xc2\xa0"[..], "U+00A0"),
        (b"\xa0", "the byte a0"),
        (b"\x1a", "U+001A"),
        (b"\0", "U+0000"),
        (b"'", "'''"),
        ("\u{201c}".as_bytes(), "U+201C"),
    ] {
        let bundle = file("stray.hex", [b"0100\n beef", stray, hex[8..].as_bytes()].concat());
        let words = format!("{bundle}, line 2: text that is not hex: {words} at character 6\n");
        cannot_use(&["judge", &bundle, "004-roots.txt"], &words);
    }
    for (stray, words) in [("\u{200b}", "U+200B"), ("x", "'x'"), (" .", "'.'")] {
        let list = file("stray.txt", format!("# roots \u{2013} today\n{ROOT}\n{stray}{ROOT}\n"));
        let words = format!("{list}, line 3: not 64 hex digits, but {words} at character 1: ");
        cannot_use(&["judge", "004-bundle.hex", &list], &words);
    }
    let list = file("short.txt", &ROOT[1..]);
    cannot_use(
        &["judge", "004-bundle.hex", &list],
        &format!("line 1: not 64 hex digits: {}", &ROOT[1..]),
    );
    // Lines that end as on Windows are plain.
    let lines = file("lines.hex", hex.replace('\n', "\r\n"));
    let list = file("lines.txt", roots.replace('\n', "\r\n"));
    accepts(&["judge", &lines, &list], JUDGED);
}

#[test]
fn prove() {
    let text = format!(
        "accepted: the id is under this root, and worth as much as the root is trusted\n\
         id        {ID}\nposition  21\nlayers    7\nroot      {ROOT}\n"
    );
    accepts(&["prove", "bump", "004-bump.hex", ID], &text);
    let (status, text, _) = run(&["prove", "tsc", "000-proof.hex", "--json"]);
    assert_eq!(status, Some(0));
    assert!(text.contains("\"position\":12,\"layers\":"), "{text}");

    // A tree of one layer, as a compound path.
    let path = file("cmp.bin", [&[0, 2, 0][..], &[0xaa; 32], &[1], &[0xbb; 32]].concat());
    let (status, text, _) = run(&["prove", "cmp", &path, &"bb".repeat(32)]);
    assert_eq!(status, Some(0));
    assert!(text.contains("position  1\nlayers    1\n"), "{text}");

    refuses(
        &["prove", "bump", "004-bump-gap.hex", ID],
        "refused 14 MISSING: the sender must add the node at layer 0, position 20.",
    );
    // Printed and stored order are not to be mixed up.
    let stored = encode(&decode(ID).into_iter().rev().collect::<Vec<u8>>());
    refuses(
        &["prove", "bump", "004-bump.hex", &stored],
        "refused 13 NOT_LISTED: the BUMP does not list this id. Check the id; if it is right, ask \
         the sender for the proof of this transaction.",
    );
    let twin = file("twin.bin", [&[0, 2, 0][..], &[0xaa; 32], &[1, 0], &[0; 32]].concat());
    let (status, text, _) = run(&["prove", "cmp", &twin, &"bb".repeat(32)]);
    assert_eq!(status, Some(1), "{text}");
    let other = [&[4, 0][..], &[0xaa; 32], &[0xbb; 32], &[0]].concat();
    let (status, text, _) = run(&["prove", "tsc", &file("other.tsc", other)]);
    assert!(text.starts_with("refused 16 ROOTS_DIFFER: "), "{text}");
    assert_eq!(status, Some(1));

    cannot_use(&["prove", "bump", "004-bump.hex", "3ecead27"], "not an id");
    cannot_use(&["prove", "bump", "004-bump.hex"], "usage: barrowtide prove");
    cannot_use(&["prove", "pump", "004-bump.hex", ID], "usage: barrowtide prove");
    cannot_use(&["prove", "tsc", "000-proof.hex", ID], "usage: barrowtide prove");
    cannot_use(&["prove", "bump", &file("odd.hex", "abc"), ID], "an odd number of hex digits");
}

#[test]
fn clients() {
    let text = format!("accepted: all clients lead to this root; 1 client\nroot      {ROOT}\n");
    accepts(&["clients", "004-bump.hex"], &text);
    let (_, text, _) = run(&["clients", "004-bump.hex", "--json"]);
    let expected = format!("{{\"accepted\":true,\"clients\":1,\"root\":\"{ROOT}\"}}\n");
    assert_eq!(text, expected);
    refuses(
        &["clients", &file("none.bump", [0, 1, 0])],
        "refused 13 NOT_LISTED: no leaf is marked as a client's, so there is nothing to check. Ask \
         about an id with prove.",
    );
    cannot_use(&["clients"], "usage: barrowtide clients BUMP");
    cannot_use(&["clients", DATA], "directory");
}

#[test]
fn list() {
    accepts(
        &["list", "bump", &file("copy.bump", [7, 2, 1, 1, 1, 0])],
        "accepted: a BUMP\nblock height  7\ntree height   2\nleaves        1\n\
         level 0, 1 leaf\n         1  copy\nlevel 1, 0 leaves\n",
    );
    let (_, text, _) = run(&["list", "bump", "004-bump.hex"]);
    assert!(text.contains("\nlevel 0, 2 leaves\n        20  node 0dc75b4e"), "{text}");
    assert!(text.contains(&format!("\n        21  client {ID}\nlevel 1, 1 leaf\n")), "{text}");
    let (_, text, _) = run(&["list", "bump", "--json", &file("json.bump", [7, 1, 1, 1, 1])]);
    let expected = "{\"accepted\":true,\"block_height\":7,\"tree_height\":1,\"leaves\":1,\
         \"levels\":[[{\"offset\":1,\"leaf\":{\"kind\":\"copy\",\"hash\":null}}]]}\n";
    assert_eq!(text, expected);

    // Levels of a compound path are written from the top down, and listed from the bottom up.
    let (status, text, _) = run(&["list", "cmp", "001-path.hex"]);
    assert_eq!(status, Some(0));
    assert!(text.starts_with("accepted: a compound path\ntree height   3\n"), "{text}");
    assert!(text.find("level 0, 4 leaves").expect("level 0") < text.find("level 2, 1").expect("2"));

    let transaction = file("transaction.bin", &data("004-bundle.hex")[291..291 + 192]);
    let (_, text, _) = run(&["list", "transaction", &transaction]);
    let expected = format!(
        "accepted: a transaction\nid            {ID}\nlength        192\ninputs        1\n           \
         0  output 1 of 2990a70423d7bbf11049d088a3d9291fd360e2e755761e0d92567b3cac4c4ecd\n\
         outputs       1\n           0  26174 satoshi\n"
    );
    assert_eq!(text, expected);
    assert_eq!(run(&["list", "transaction", "004-transaction.hex"]).1, text);

    refuses(
        &["list", "bump", &file("high.bump", [0, 0])],
        "refused 4 BAD_HEIGHT at byte 1: a tree of the height written here is not allowed. The \
         software that wrote the BUMP is at fault.",
    );
    for form in ["bump", "cmp", "tsc", "transaction", "beef"] {
        let (status, text, _) = run(&["list", form, &file("empty.bin", "")]);
        assert!(text.starts_with("refused 2 SHORT at byte 0: "), "{text}");
        assert_eq!(status, Some(1));
    }
    cannot_use(&["list", "004-bump.hex"], "usage: barrowtide list");
    cannot_use(&["list", "text", "004-bump.hex"], "usage: barrowtide list");
}

/// A transaction comes in parts, in hex or not, and a refusal ends the reading.
#[test]
fn list_in_parts() {
    let head = [&[1, 0, 0, 0, 1][..], &[0xaa; 36], &[0xfe, 0x40, 0x42, 0x0f, 0x00]].concat();
    let raw = [&head[..], &[7; 1_000_000 + 4], &[1], &[0; 8 + 1 + 4]].concat();
    let id = barrowtide::read_transaction(&raw).expect("a transaction").id.to_string();
    let parent = "aa".repeat(32);
    let text = format!(
        "accepted: a transaction\nid            {id}\nlength        1000064\n\
         inputs        1\n           0  output 2863311530 of {parent}\n\
         outputs       1\n           0  0 satoshi\n"
    );
    let told = (Some(0), text, String::new());
    assert_eq!(run_on(&raw, &["list", "transaction", "-"]), told);
    // A digit of a byte in one part, the other in the next; a line break anywhere.
    let hex = encode(&raw);
    let lines: Vec<&str> =
        (0..hex.len()).step_by(77).map(|at| &hex[at..hex.len().min(at + 77)]).collect();
    for text in [hex.clone(), lines.join("\n"), format!(" {hex}\n")] {
        assert_eq!(run_on(text.as_bytes(), &["list", "transaction", "-"]), told);
    }
    let fields = format!(
        "{{\"accepted\":true,\"id\":\"{id}\",\"length\":1000064,\"inputs\":1,\"outputs\":1,\
         \"input_list\":[{{\"parent\":\"{parent}\",\"output\":2863311530,\"transaction\":null}}],\
         \"amounts\":[0]}}\n"
    );
    assert_eq!(run_on(&raw, &["list", "transaction", "-", "--json"]).1, fields);

    let short = "refused 2 SHORT at byte 46: ";
    assert!(run_on(&raw[..900_000], &["list", "transaction", "-"]).1.starts_with(short));
    let zeros = "refused 11 BAD_TX at byte 4: ";
    let (_, text, _) = run(&["list", "transaction", "/dev/zero"]);
    assert!(text.starts_with(zeros), "{text}");

    let other = format!("{}g{}", &hex[..300_000], &hex[300_000..]);
    cannot_use(
        &["list", "transaction", &file("other.hex", &other)],
        "other.hex, line 1: text that is not hex: 'g' at character 300001",
    );
    cannot_use(
        &["list", "transaction", &file("lost.hex", &hex[..hex.len() - 1])],
        "an odd number of hex digits, so one is lost",
    );
    cannot_use(&["list", "transaction", "no such file"], "no such file: ");
}

/// An accepted comparison would be a collision of double SHA-256.
#[test]
fn compare() {
    let tsc = ["tsc", "000-proof.hex"];
    let bump = ["bump", "004-bump.hex", ID];
    let gap = ["bump", "004-bump-gap.hex", ID];
    let both = |first: &[&'static str], second: &[&'static str]| {
        [&["compare"][..], first, second].concat()
    };
    refuses(
        &both(&tsc, &tsc),
        "refused 24 SAME_ID: the two proofs agree: one id, at one position, under one root.",
    );
    refuses(
        &both(&bump, &tsc),
        "refused 23 UNLIKE: the two proofs differ in root, position or number of layers, so they do \
         not contradict each other.",
    );
    let missing = |which| {
        format!("refused 14 MISSING in the {which}: the sender must add the node at layer 0, position 20.")
    };
    refuses(&both(&gap, &bump), &missing("first"));
    refuses(&both(&bump, &gap), &missing("second"));
    let (_, text, _) = run(&both(&["--json", "tsc", "000-proof.hex"], &gap));
    assert!(text.contains("\"name\":\"MISSING\",\"input\":\"second\""), "{text}");
    cannot_use(&both(&tsc, &[]), "usage: barrowtide compare");
    cannot_use(&both(&tsc, &["tsc", "no such file"]), "no such file");
}

/// Two proofs of different numbers of layers, with a transaction: an inner node of a block of four
/// poses as a payment of 64 bytes, which are two of its ids.
#[test]
fn compare_with_transaction() {
    let mut raw = [0; 64];
    (raw[0], raw[4], raw[41], raw[50]) = (1, 1, 4, 1);
    let ids: [[u8; 32]; 2] = [0, 32].map(|at| std::array::from_fn(|i| raw[at + i]));
    let [left, right] = ids.map(Hash::from_stored);
    let payment = join(&left, &right);
    let beside = [[0x00][..].to_vec(), vec![0xcc; 32]].concat();
    let id_at = |offset: u8, id: &Hash| [&[offset, 0x02][..], id.stored()].concat();
    let short = [&[0, 1, 2][..], &id_at(0, &payment), &[1], &beside].concat();
    let pair = [id_at(0, &left), id_at(1, &right)].concat();
    let long = [&[0, 2, 2][..], &pair, &[1, 1], &beside].concat();
    let (short, long) = (file("posing-short.bin", short), file("posing-long.bin", long));
    let (payment, left) = (payment.to_string(), left.to_string());
    let posing = file("posing.bin", raw);
    raw[41] = 3;
    let other = file("not-posing.bin", [&raw[..42], &raw[43..]].concat());
    let one: [&str; 3] = ["bump", &short, &payment];
    let two: [&str; 3] = ["bump", &long, &left];
    let with = |first: &[&str], second: &[&str], raw: &str| {
        let words = [&["compare"][..], first, second, &["--transaction", raw]].concat();
        let (status, text, error) = run(&words);
        assert_eq!(error, "");
        (status, text)
    };
    // Both proofs stand: nothing in them shows that the id is an inner node's.
    for proof in [one, two] {
        assert_eq!(run(&[&["prove"][..], &proof].concat()).0, Some(0));
    }
    let sized = "the transaction that starts here has 64 bytes, as two nodes of a tree have, so that \
                 a node of a block can pose as this payment. Don't accept it; ask the sender for one \
                 of another size.\n";
    let refused = format!("refused 11 BAD_TX in the transaction at byte 0: {sized}");
    assert_eq!(with(&one, &two, &posing), (Some(1), refused.clone()));
    assert_eq!(with(&two, &one, &posing), (Some(1), refused));
    let unlike = "refused 23 UNLIKE: the two proofs and the transaction do not contradict each \
                  other: the roots differ, both proofs have as many layers, the places do not lie \
                  one above the other, or the transaction is not the one that the shorter proof \
                  proves.\n";
    assert_eq!(with(&one, &two, &other), (Some(1), unlike.to_string()));
    assert_eq!(with(&one, &one, &other), (Some(1), unlike.to_string()));
    let gap = ["bump", "004-bump-gap.hex", ID];
    let missing = |which| {
        format!("refused 14 MISSING in the {which}: the sender must add the node at layer 0, position 20.\n")
    };
    assert_eq!(with(&gap, &two, &posing), (Some(1), missing("first")));
    assert_eq!(with(&one, &gap, &posing), (Some(1), missing("second")));
    let (_, text) = with(&one, &two, &file("not-a-transaction.bin", &raw[..5]));
    assert!(text.starts_with("refused 2 SHORT in the transaction at byte 5: "), "{text}");
    let json = [&["--json", "compare"][..], &one, &two, &["--transaction", &posing]].concat();
    let start = "{\"accepted\":false,\"refusal\":{\"number\":11,\"name\":\"BAD_TX\",\
                 \"input\":\"transaction\",\"place\":0,";
    assert!(run(&json).1.starts_with(start), "{}", run(&json).1);
    // The same words wherever it is read.
    let told = |words: &[&str]| run(words).1;
    assert_eq!(
        told(&["list", "transaction", &posing]),
        format!("refused 11 BAD_TX at byte 0: {sized}")
    );
    let order = told(&["order", &other, &posing]);
    assert_eq!(order, format!("refused 11 BAD_TX at byte 0 in transaction 1: {sized}"));
    let raw = fs::read(&posing).expect("the file");
    let beef = [&[1, 0, 0xbe, 0xef, 0, 1][..], &raw, &[0]].concat();
    let (_, text, _) = run_on(&beef, &["list", "beef", "-"]);
    assert_eq!(text, format!("refused 11 BAD_TX at byte 6: {sized}"));
    let tsc = [&[5, 0, 64][..], &raw, &[0xbb; 32], &[0]].concat();
    let (_, text, _) = run_on(&tsc, &["prove", "tsc", "-"]);
    assert_eq!(text, format!("refused 11 BAD_TX at byte 3: {sized}"));
    let words = [&["compare"][..], &one, &two].concat();
    cannot_use(&[&words[..], &["--transaction"]].concat(), "usage: barrowtide compare");
    cannot_use(&[&words[..], &["--transaction", "no such file"]].concat(), "no such file: ");
}

#[test]
fn write_and_page() {
    let (status, bump, error) = run(&["write", "814435", "ids.txt", "1", "4", "1"]);
    assert_eq!((status, error.as_str()), (Some(0), ""));
    let (_, binary, _) = {
        let output = command(&["write", "814435", "ids.txt", "1", "4", "--binary"]).output();
        let output = output.expect("the program starts");
        (output.status, output.stdout, output.stderr)
    };
    assert_eq!(bump, encode(&binary) + "\n");
    let (_, json, _) = run(&["write", "814435", "ids.txt", "4", "1", "--json"]);
    let expected = format!(
        "{{\"accepted\":true,\"bytes\":{},\"hex\":\"{}\"}}\n",
        binary.len(),
        bump.trim_end()
    );
    assert_eq!(json, expected);

    let (status, text, _) = run_on(bump.as_bytes(), &["page", "-", "ids.txt"]);
    let ids = fs::read_to_string(format!("{DATA}/ids.txt")).expect("test data");
    let ids: Vec<&str> = ids.lines().skip(1).collect();
    let lines: Vec<&str> = text.lines().collect();
    assert_eq!((status, lines[0], lines.len()), (Some(1), "proved: 3 of 5 ids", 6));
    assert!(lines[2].starts_with(&format!("{}  proved at position 1, 3 layers, root ", ids[1])));
    assert!(lines[3].starts_with(&format!("{}  refused 13 NOT_LISTED: ", ids[2])));
    let chosen = file("chosen.txt", format!("{}\n{}\n", ids[4], ids[1]));
    let (status, text, _) = run_on(&binary, &["page", "-", &chosen, "--json"]);
    assert_eq!(status, Some(0));
    assert!(
        text.starts_with("{\"accepted\":true,\"proved\":2,\"ids\":[{\"proved\":true,"),
        "{text}"
    );

    let write = |words: &[&'static str]| [&["write"][..], words].concat();
    refuses_beside(&write(&["7", "ids.txt"]), "refused 13 NOT_LISTED: you chose no position.");
    refuses_beside(
        &write(&["7", "ids.txt", "5"]),
        "refused 6 BAD_OFFSET: you chose a position outside the list; the first id has position 0.",
    );
    refuses_beside(
        &write(&["4294967296", "ids.txt", "0"]),
        "refused 5 OVER_LIMIT: this library takes 2 to 1024 ids and a block height of at most \
         4294967295; you gave more, or too few ids.",
    );
    let equal = file("equal.txt", format!("{ID}\n{ID}\n"));
    refuses_beside(
        &["write", "7", &equal, "0"],
        "refused 19 SAME_TX: two ids of your list are equal.",
    );
    cannot_use(&write(&["7"]), "usage: barrowtide write");
    cannot_use(&write(&["high", "ids.txt", "1"]), "not a block height: high");
    cannot_use(&write(&["7", "ids.txt", "one"]), "not a position: one");
    cannot_use(&write(&["7", "ids.txt", "-1"]), "not a position: -1; it is a number from 0 on");
    cannot_use(&write(&["7", "004-bump.hex", "1"]), "not 64 hex digits");

    let many = file("many.txt", format!("{ID}\n").repeat(257));
    refuses(
        &["page", "004-bump.hex", &many],
        "refused 5 OVER_LIMIT: that is more than this library takes, which is 256 ids at once.",
    );
    let (status, text, _) = run_on(&[0xff; 9], &["page", "-", &chosen]);
    let words =
        "the count or block height here is more than this library takes. Ask the sender for a \
         smaller BUMP.\n";
    assert_eq!(text, format!("refused 5 OVER_LIMIT at byte 0: {words}"));
    assert_eq!(status, Some(1));
    cannot_use(&["page", "004-bump.hex"], "usage: barrowtide page");
    cannot_use(&["page", "004-bump.hex", "ids.txt", "--binary"], "--binary is for a proof");
}

#[test]
fn convert() {
    let (status, tsc, error) = run(&["convert", "to-tsc", "004-bump.hex", ID]);
    assert_eq!((status, error.as_str()), (Some(0), ""));
    let (status, bump, _) = run_on(tsc.as_bytes(), &["convert", "to-bump", "-", "814435"]);
    assert_eq!((status, decode(&bump)), (Some(0), data("004-bump.hex")));
    let (_, json, _) = run_on(tsc.as_bytes(), &["convert", "to-bump", "-", "814435", "--json"]);
    assert!(json.starts_with("{\"accepted\":true,\"bytes\":285,\"hex\":\"fe636d0c00"), "{json}");

    refuses_beside(
        &["convert", "to-tsc", "004-bump-gap.hex", ID],
        "refused 14 MISSING: the sender must add the node at layer 0, position 20.",
    );
    let alone = file("alone.tsc", [&[4, 0][..], &[0xaa; 32], &[0xaa; 32], &[0]].concat());
    refuses_beside(
        &["convert", "to-bump", &alone, "7"],
        "refused 4 BAD_HEIGHT at byte 66: the proof has no nodes: its transaction is alone in the \
         block, and no BUMP can say so. Keep the TSC proof.",
    );
    cannot_use(&["convert", "to-bump", "000-proof.hex", "4294967296"], "at most 4294967295");
    cannot_use(&["convert", "to-bump", "000-proof.hex"], "usage: barrowtide convert");
    cannot_use(&["convert", "to-cmp", "000-proof.hex", "7"], "usage: barrowtide convert");
}

#[test]
fn order() {
    let child = "157428aee67d11123203735e4c540fa1bdab3b36d5882c6f8c5ff79f07d20d1c";
    let text = |order: &str, rows: &[(u64, &str)]| {
        let head = "accepted: each transaction comes after its parents among them";
        let count = if rows.len() == 1 { "transaction" } else { "transactions" };
        let mut text = format!("{head}; {} {count}\norder     {order}\n", rows.len());
        rows.iter().for_each(|(number, id)| text += &format!("{number:8}  {id}\n"));
        text
    };
    let in_order = text("1,0", &[(1, ID), (0, child)]);
    accepts(&["order", "004-set.hex"], &in_order);
    accepts(&["order", "004-set.hex", "--check", "1,0"], &in_order);
    accepts(&["order", "--check", "1, 0", "004-set.hex"], &in_order);
    // The same in files of their own, in hex over several lines or as they stand.
    let bundle = data("004-bundle.hex");
    let payment = file("payment.tx", &bundle[485..485 + 191]);
    accepts(&["order", &payment, "004-transaction.hex"], &in_order);
    accepts(&["order", "004-transaction.hex", &payment], &text("0,1", &[(0, ID), (1, child)]));
    accepts(&["order", &payment], &text("0", &[(0, child)]));
    let both = run_on(&bundle[485..485 + 191], &["order", "004-transaction.hex", "-"]);
    assert_eq!(both.1, text("0,1", &[(0, ID), (1, child)]));
    accepts(&["order", &file("nothing.hex", "# none\n\n")], &text("", &[]));
    let (_, json, _) = run(&["order", "004-set.hex", "--json"]);
    let expected =
        format!("{{\"accepted\":true,\"order\":[1,0],\"ids\":[\"{ID}\",\"{child}\"]}}\n");
    assert_eq!(json, expected);

    let bad = "refused 30 BAD_ORDER: the order does not hold each transaction once, after its \
         parents among them. Ask for one without --check.";
    for order in ["0,1", "", "1", "1,0,0", "1,1", "1,2", "18446744073709551615,0"] {
        refuses(&["order", "004-set.hex", "--check", order], bad);
    }
    refuses(
        &["order", &payment, &payment],
        "refused 19 SAME_TX: two of the transactions are the same. Leave one of them out.",
    );
    // A transaction that is cut is told by itself, though the next one's bytes follow.
    let cut = file("cut.tx", &bundle[485..485 + 190]);
    refuses(
        &["order", "004-transaction.hex", &cut, &payment],
        "refused 2 SHORT at byte 187 in transaction 1: the bytes end inside the field that starts \
         here. Ask the sender for the whole transaction, and check that this is one.",
    );
    let (_, json, _) = run(&["order", "004-transaction.hex", &cut, "--json"]);
    let start = "{\"accepted\":false,\"refusal\":{\"number\":2,\"name\":\"SHORT\",\"input\":null,\
         \"place\":187,\"transaction\":1,";
    assert!(json.starts_with(start), "{json}");
    let (_, text, _) = run(&["order", "004-transaction.hex", "004-bump.hex"]);
    assert!(text.contains(" in transaction 1: this looks like a BUMP. "), "{text}");
    let many = file("many.hex", format!("{}\n", encode(&bundle[485..485 + 191])).repeat(257));
    refuses(
        &["order", &many],
        "refused 5 OVER_LIMIT: that is more than this library takes, which is 256 transactions at \
         once.",
    );
    let script = vec![7; (1 << 24) + 4];
    let long = [&[1, 0, 0, 0, 1][..], &[0xaa; 36], &[0xfe, 0, 0, 0, 1], &script, &[1], &[0; 13]];
    let long = file("long.tx", long.concat());
    refuses(
        &["order", &long],
        "refused 1 TOO_LONG: the transactions are over 16777216 bytes, more than this library \
         takes. Put fewer of them in order at once.",
    );
    cannot_use(&["order"], "usage: barrowtide order TXS.. [--check ORDER]");
    cannot_use(&["order", "--check", "0"], "usage: barrowtide order");
    cannot_use(&["order", "004-set.hex", "--check"], "usage: barrowtide order");
    cannot_use(&["order", "004-set.hex", "--check", "1;0"], "not a number: 1;0");
    cannot_use(
        &["order", "004-set.hex", "--check", "-1"],
        "not a number: -1; it is a number from 0 on",
    );
    cannot_use(&["order", "no such file"], "no such file: ");
    let lines = file("lines-set.hex", "# a set\n00ff\n0g\n");
    cannot_use(&["order", &lines], "line 3: text that is not hex: 'g' at character 2");
}

#[test]
fn diff() {
    let node = "0dc75b4efeeddb95d8ee98ded75d781fcf95d35f9d88f7f1ce54a77a0c7c50fe";
    accepts(
        &["diff", "004-bump.hex", "004-bump-gap.hex"],
        &format!("1 difference\nlevel 0, offset 20: only in the first: node {node}\n"),
    );
    accepts(
        &["diff", "004-bump-gap.hex", "004-bump.hex"],
        &format!("1 difference\nlevel 0, offset 20: only in the second: node {node}\n"),
    );
    accepts(
        &["diff", "004-bump.hex", "004-bump.hex"],
        "no difference: both hold the same, but perhaps in another order\n",
    );
    let hash = "aa".repeat(32);
    let first = file("first.bump", [&[7, 1, 1, 1, 0][..], &[0xaa; 32]].concat());
    let second = file("second.bump", [9, 2, 1, 1, 1, 0]);
    accepts(
        &["diff", &first, &second],
        &format!(
            "3 differences\nblock height: 7 in the first, 9 in the second\n\
             tree height: 1 in the first, 2 in the second\n\
             level 0, offset 1: node {hash} in the first, copy in the second\n"
        ),
    );
    let (_, json, _) = run(&["diff", &first, &second, "--json"]);
    let expected = format!(
        "{{\"accepted\":true,\"differences\":[\
         {{\"what\":\"block height\",\"first\":7,\"second\":9}},\
         {{\"what\":\"tree height\",\"first\":1,\"second\":2}},\
         {{\"what\":\"leaf\",\"level\":0,\"offset\":1,\
         \"first\":{{\"kind\":\"node\",\"hash\":\"{hash}\"}},\
         \"second\":{{\"kind\":\"copy\",\"hash\":null}}}}]}}\n"
    );
    assert_eq!(json, expected);
    let (status, text, _) = run_on(b"\0", &["diff", "004-bump.hex", "-"]);
    assert!(text.starts_with("refused 2 SHORT in the second at byte 1: "), "{text}");
    assert_eq!(status, Some(1));
    let (_, text, _) = run_on(b"\0", &["diff", "-", "004-bump.hex"]);
    assert!(text.starts_with("refused 2 SHORT in the first at byte 1: "), "{text}");
    cannot_use(&["diff", "004-bump.hex"], "usage: barrowtide diff");
}

#[test]
fn shorter() {
    let (status, text, note) = run(&["shorter", "004-bump-surplus.hex", "004-bump.hex", ID]);
    assert_eq!((status, decode(&text)), (Some(0), data("004-bump.hex")));
    assert_eq!(note, "the second: 285 bytes; the first has 319, the second 285\n");
    let (_, json, note) = run(&["shorter", "--json", "004-bump.hex", "004-bump-surplus.hex", ID]);
    assert!(json.starts_with("{\"accepted\":true,\"which\":\"first\",\"bytes\":285,"), "{json}");
    assert_eq!(note, "");
    let (_, _, note) = run(&["shorter", "004-bump.hex", "004-bump.hex", ID]);
    assert!(note.starts_with("the first: "), "{note}");
    refuses_beside(
        &["shorter", "004-bump.hex", "004-bump-gap.hex", ID],
        "refused 14 MISSING in the second: the sender must add the node at layer 0, position 20.",
    );
    let id = decode(ID).into_iter().rev().collect::<Vec<u8>>();
    let other = file("other.bump", [&[7, 1, 2, 1, 1, 0, 2][..], &id].concat());
    let (status, text, error) = run(&["shorter", "004-bump.hex", &other, ID]);
    assert_eq!((status, text.as_str()), (Some(1), ""));
    assert!(error.starts_with("refused 23 UNLIKE: the two lead to different roots"), "{error}");
    cannot_use(&["shorter", "004-bump.hex", "004-bump.hex"], "usage: barrowtide shorter");
}

#[test]
fn index() {
    // Block height, tree height and a count stand before the first leaf.
    let places: [(u64, u64, u64); 8] = [
        (0, 20, 7),
        (0, 21, 41),
        (1, 11, 76),
        (2, 4, 111),
        (3, 3, 146),
        (4, 0, 181),
        (5, 1, 216),
        (6, 1, 251),
    ];
    let mut text = "accepted: a BUMP; each leaf with the place of its first byte, by level and \
         offset; 8 leaves\n level                offset     place\n"
        .to_string();
    for (level, offset, place) in places {
        text += &format!("{level:6}  {offset:20}  {place:8}\n");
    }
    accepts(&["index", "004-bump.hex"], &text);
    let (_, json, _) = run_on(&[7, 1, 2, 1, 1, 0, 0], &["index", "-", "--json"]);
    assert!(json.starts_with("{\"accepted\":false,\"refusal\":{\"number\":2,"), "{json}");
    let bump = [&[7, 1, 2, 1, 1, 0, 0][..], &[0xaa; 32]].concat();
    let (status, json, _) = run_on(&bump, &["index", "-", "--json"]);
    let leaves = "[{\"level\":0,\"offset\":0,\"place\":5},{\"level\":0,\"offset\":1,\"place\":3}]";
    assert_eq!(json, format!("{{\"accepted\":true,\"leaves\":{leaves}}}\n"));
    assert_eq!(status, Some(0));
    refuses(
        &["index", &file("low.bump", [0, 0])],
        "refused 4 BAD_HEIGHT at byte 1: a tree of the height written here is not allowed. The \
         software that wrote the BUMP is at fault.",
    );
    cannot_use(&["index"], "usage: barrowtide index BUMP");
    cannot_use(&["index", "no such file"], "no such file: ");
}

#[test]
fn merge() {
    let write = |positions: &[&'static str]| {
        let (status, text, _) = run(&[&["write", "814435", "ids.txt"][..], positions].concat());
        assert_eq!(status, Some(0));
        text
    };
    assert_eq!(write(&["4"]), fs::read_to_string(format!("{DATA}/ids-bump.hex")).expect("data"));
    let first = write(&["1"]);
    let (status, merged, error) = run_on(first.as_bytes(), &["merge", "-", "ids-bump.hex"]);
    assert_eq!((status, error.as_str()), (Some(0), ""));
    let root = |bump: &str| run_on(bump.as_bytes(), &["clients", "-"]).1;
    assert!(root(&merged).starts_with("accepted: all clients lead to this root; 2 clients\n"));
    assert_eq!(root(&merged).lines().nth(1), root(&first).lines().nth(1));
    // The other way round, in binary and for scripts it is the same.
    assert_eq!(run_on(first.as_bytes(), &["merge", "ids-bump.hex", "-"]).1, merged);
    let path = file("first-to-merge.hex", &first);
    let binary = command(&["merge", &path, "ids-bump.hex", "--binary"]).output();
    assert_eq!(encode(&binary.expect("the program starts").stdout) + "\n", merged);
    let (_, json, _) = run(&["merge", &path, "ids-bump.hex", "--json"]);
    let (length, hex) = (merged.trim_end().len() / 2, merged.trim_end());
    assert_eq!(json, format!("{{\"accepted\":true,\"bytes\":{length},\"hex\":\"{hex}\"}}\n"));
    accepts(&["merge", "004-bump.hex", "004-bump.hex"], &(encode(&data("004-bump.hex")) + "\n"));

    let gap =
        "refused 14 MISSING in the second: the sender must add the node at layer 0, position \
         20.";
    refuses_beside(&["merge", "004-bump.hex", "004-bump-gap.hex"], gap);
    let (_, json, _) = run(&["merge", "004-bump-gap.hex", "004-bump.hex", "--json"]);
    assert!(json.contains("\"name\":\"MISSING\",\"input\":\"first\""), "{json}");
    refuses_beside(
        &["merge", &file("no-client.bump", [7, 1, 0]), "004-bump.hex"],
        "refused 13 NOT_LISTED in the first: no leaf is marked as a client's, so there is no root \
         to merge by. Ask the sender for a BUMP with its clients marked.",
    );
    refuses_beside(
        &["merge", "004-bump.hex", "ids-bump.hex"],
        "refused 23 UNLIKE: the two differ in block height, tree height or root, so they are not of \
         one block, or one of them is wrong. Compare both roots with the block's header.",
    );
    // A leaf that no climb asks for, with another hash in each.
    let surplus = |byte: u8| {
        let leaf = |offset: u8, flags: u8, byte: u8| [&[offset, flags][..], &[byte; 32]].concat();
        let leaves = [leaf(0, 2, 0xaa), leaf(1, 0, 0xab), leaf(2, 0, byte)].concat();
        [&[7, 2, 3][..], &leaves, &[1], &leaf(1, 0, 0xac)].concat()
    };
    let (one, other) = (file("one.bump", surplus(1)), file("another.bump", surplus(2)));
    refuses_beside(
        &["merge", &one, &other],
        "refused 16 ROOTS_DIFFER: the two contradict each other: at one place they have different \
         leaves, or a leaf of one is wrong that only the other's clients need. diff shows where \
         they differ; keep both, and ask the sender of the wrong one for one without it.",
    );
    cannot_use(&["merge", "004-bump.hex"], "usage: barrowtide merge BUMP BUMP");
    cannot_use(&["merge", "-", "-"], "standard input can be read once");
}

/// More leaves in a level than the library takes.
#[test]
fn merge_too_many() {
    let ids: Vec<String> = (0..1_024).map(|at| format!("{:064x}", at + 1)).collect();
    let list = file("block.txt", ids.join("\n"));
    let written = |from: usize, to: usize| {
        let positions: Vec<String> = (from..to).map(|at| at.to_string()).collect();
        let mut words = vec!["write", "900000", &list];
        words.extend(positions.iter().map(String::as_str));
        run(&words).1
    };
    // With a root of its own above, so that level 0 has room for more than it may hold.
    let (first, second) =
        (file("half.hex", written(0, 512)), file("other-half.hex", written(512, 1_024)));
    assert_eq!(run(&["merge", &first, &second]).0, Some(0));
    let higher = |text: &str, offset: usize, name: &str| {
        let tree = decode(text);
        // Block height in five bytes, then the tree height: one level more, whose other node is new.
        let mut bump = tree.clone();
        bump[5] += 1;
        bump.extend([&[1, offset as u8, 0][..], &[0xcc; 32]].concat());
        file(name, bump)
    };
    let (first, second) = (written(0, 1_024), written(0, 512));
    let (first, second) = (higher(&first, 1, "full.bump"), higher(&second, 1, "half.bump"));
    assert_eq!(run(&["merge", &first, &second]).0, Some(0));
    let mut more = fs::read(&second).expect("the file");
    // A leaf at offset 1,500 of level 0, whose count takes three bytes.
    assert_eq!(more[6..9], [0xfd, 0x00, 0x02]);
    more[7] += 1;
    more.splice(9..9, [&[0xfd, 0xdc, 0x05, 0][..], &[7; 32]].concat());
    refuses_beside(
        &["merge", &first, &file("more.bump", more)],
        "refused 5 OVER_LIMIT: a level of the merged BUMP would have more than 1024 leaves. Keep \
         both, or ask for BUMPs of fewer transactions.",
    );
}

/// A picture of the documents.
fn document(name: &str) -> String {
    let path = format!("{}/../../../docs/{name}", env!("CARGO_MANIFEST_DIR"));
    fs::read_to_string(path).expect("a document")
}

/// Asks that every element of a picture is closed, in order.
fn well_formed(svg: &str) {
    let mut open = Vec::new();
    for tag in svg.split('<').skip(1) {
        let (tag, text) = tag.split_once('>').expect("a tag ends");
        assert!(!text.contains(['>', '&']), "{text}");
        if let Some(name) = tag.strip_prefix('/') {
            assert_eq!(open.pop(), Some(name));
        } else if !tag.ends_with('/') {
            open.push(tag.split(' ').next().expect("a name"));
        }
    }
    assert!(open.is_empty(), "{open:?}");
}

#[test]
fn draw() {
    let (status, svg, note) = run(&["draw", "004-bump.hex", ID]);
    assert_eq!((status, note.as_str()), (Some(0), ""));
    well_formed(&svg);
    assert!(svg.contains(&format!("root {ROOT}")));
    assert!(svg.contains("level 0: 21 is odd, hash(0dc75b4e, 3ecead27) = "));
    assert!(svg.contains("level 6: 0 is even, "));
    assert!(svg == document("climb.svg"), "README.md shows another: draw docs/climb.svg anew");

    let (status, svg, note) = run(&["draw", "004-bump-gap.hex", ID]);
    let missing = "refused 14 MISSING: the sender must add the node at layer 0, position 20.\n";
    assert_eq!((status, note.as_str()), (Some(1), missing));
    well_formed(&svg);
    assert!(svg.contains(missing.trim_end()) && svg.contains("20 missing"));
    assert!(svg.contains("level 0: node 20 is missing"));
    assert!(svg == document("missing.svg"), "docs/REFUSALS.md shows another: draw it anew");

    // Position 3 of four, where the node beside its parent equals it.
    let (id, sibling) = ([0xaa; 32], [0xbb; 32]);
    let parent = reference::sha256::join(&sibling, &id);
    let twin = [&[7, 2, 2, 2, 0][..], &sibling, &[3, 2], &id, &[1, 0, 0], &parent].concat();
    let (status, svg, _) = run(&["draw", &file("twin.bump", twin), &"aa".repeat(32)]);
    well_formed(&svg);
    assert!(svg.contains("level 1: node 0 equals the working hash"), "{svg}");
    assert_eq!(status, Some(1));

    let (status, svg, _) = run(&["draw", "004-bump.hex", ROOT]);
    well_formed(&svg);
    assert!(svg.contains("refused 13 NOT_LISTED"));
    assert_eq!(status, Some(1));
    // Without an id the first client climbs, which the library is asked about.
    let (status, svg, note) = run(&["draw", "004-bump-surplus.hex"]);
    well_formed(&svg);
    assert_eq!((status, note.as_str()), (Some(0), ""));
    let told = "no id was given, so the first client's climb is drawn";
    let (_, with_id, _) = run(&["draw", "004-bump-surplus.hex", ID]);
    assert!(svg.contains(told) && !with_id.contains(told));
    assert!(svg.contains(&format!("id   {ID}")) && svg.contains(&format!("root {ROOT}")));
    let (_, json, _) = run(&["draw", "004-bump-surplus.hex", "--json"]);
    assert!(json.starts_with(&format!("{{\"accepted\":true,\"id\":\"{ID}\",")), "{json}");
    let (status, svg, note) = run(&["draw", "004-bump-gap.hex"]);
    assert_eq!((status, note.as_str()), (Some(1), missing));
    assert!(svg.contains(told) && svg.contains("20 missing"));
    // Of two clients that with the lesser offset, in whichever order they stand.
    let leaf = |offset: u8, byte: u8| [&[offset, 2][..], &[byte; 32]].concat();
    let two = [&[7, 1, 2][..], &leaf(1, 0xaa), &leaf(0, 0xbb)].concat();
    let (_, svg, _) = run(&["draw", &file("two-clients.bump", two)]);
    assert!(svg.contains(&format!("id   {}", "bb".repeat(32))), "{svg}");
    let (_, json, _) = run(&["draw", "--json", "004-bump.hex", ID]);
    assert!(json.contains("\"position\":21,") && json.contains("\"svg\":\"<svg "), "{json}");
    refuses_beside(
        &["draw", &file("extra.bump", [7, 1, 0, 0])],
        "refused 9 EXTRA at byte 3: the BUMP ends before this byte, and more bytes follow. Ask the \
         sender for the BUMP alone.",
    );
    cannot_use(&["draw"], "usage: barrowtide draw");
    cannot_use(&["draw", "no such file"], "no such file");
}

/// The height at which a text stands in a picture.
fn height_of<'a>(svg: &'a str, text: &str) -> &'a str {
    let line = svg.lines().find(|line| line.contains(text)).expect("the text");
    let (_, y) = line.split_once(" y=\"").expect("a height");
    y.split('"').next().expect("it ends")
}

/// A level stands at one height on both sides, and by one name.
#[test]
fn draw_levels() {
    let (_, svg, _) = run(&["draw", "004-bump.hex", ID]);
    for level in 0..7 {
        let left: f64 = height_of(&svg, &format!(">level {level}<")).parse().expect("a number");
        let right: f64 = height_of(&svg, &format!(">level {level}: ")).parse().expect("a number");
        assert!((left - right).abs() < 5.0, "{left} and {right}");
    }
    assert!(!svg.contains("layer"), "{svg}");
}

/// Without a client nothing climbs: what lies below the nodes shown is folded, and has no rows. A
/// node of which nothing is known is a dot, which the legend explains.
#[test]
fn draw_without_a_client() {
    let leaves: Vec<u8> = (0..64).flat_map(|at| [&[at, 0][..], &[at; 32]].concat()).collect();
    let bump = [&[7, 6, 64][..], &leaves, &[0; 5]].concat();
    let (status, svg, note) = run(&["draw", &file("no-client.bump", bump)]);
    well_formed(&svg);
    assert_eq!((status, note.as_str()), (Some(0), ""));
    for level in 0..6 {
        assert_eq!(svg.contains(&format!(">level {level}<")), level >= 2, "level {level}");
    }
    assert!(svg.contains(">levels 0 to 1 folded<") && svg.contains(">4 leaves<"), "{svg}");
    let height = svg.split("height=\"").nth(1).and_then(|rest| rest.split('"').next());
    let height: f64 = height.expect("a height").parse().expect("a number");
    let lowest: f64 = height_of(&svg, ">level 2<").parse().expect("a number");
    assert!(height - lowest < 130.0, "{height} and {lowest}");

    let alone = [&[7, 2, 1, 2, 0][..], &[0xaa; 32], &[0]].concat();
    let (_, svg, _) = run(&["draw", &file("alone.bump", alone)]);
    let dots = svg.matches("<circle ").count();
    assert!(dots == 3 && svg.contains(">value not known<"), "{dots} dots: {svg}");
    assert!(svg.contains(">level 0<") && !svg.contains("level 0 folded"), "{svg}");
    assert!(svg.contains(">tree height 2, 1 leaf written, "), "{svg}");
}

/// A busy block: what is not on the climb is folded, so the picture stays small.
#[test]
fn draw_a_thousand_leaves() {
    let ids: Vec<String> = (0..1_000).map(|at| format!("{:064x}", at + 1)).collect();
    let list = file("thousand.txt", ids.join("\n"));
    let positions: Vec<String> = (0..1_000).map(|at| at.to_string()).collect();
    let mut words = vec!["write", "900000", &list];
    words.extend(positions.iter().map(String::as_str));
    let bump = file("thousand.bump", run(&words).1);
    let (status, svg, _) = run(&["draw", &bump, &ids[650]]);
    well_formed(&svg);
    assert_eq!(status, Some(0));
    assert!(svg.contains("512 leaves") && svg.len() < 30_000, "{} bytes", svg.len());
    let (status, svg, _) = run(&["draw", &bump]);
    well_formed(&svg);
    assert_eq!(status, Some(0));
    assert!(svg.len() < 30_000, "{} bytes", svg.len());
}

/// A tall tree: the climb stands straight, so the picture stays narrow.
#[test]
fn draw_many_layers() {
    let level = [1, 1, 1].repeat(29);
    let bump = [&[7, 30, 2, 0, 2][..], &[0xaa; 32], &[1, 1], &level].concat();
    let (status, svg, _) = run(&["draw", &file("tall.bump", bump), &"aa".repeat(32)]);
    well_formed(&svg);
    assert_eq!(status, Some(0));
    assert!(svg.contains("level 29: 0 is even, ") && svg.contains("1 copy"));
    let width = svg.split("width=\"").nth(1).and_then(|rest| rest.split('"').next());
    assert!(width.expect("a width").parse::<u32>().expect("a number") < 1_200);
}

#[test]
fn help() {
    let (status, text, error) = run(&["--help"]);
    assert_eq!((status, error.as_str()), (Some(0), ""));
    for name in COMMANDS {
        assert!(text.contains(&format!("\n  {name} ")), "{text}");
    }
    assert_eq!(run(&["help"]).1, text);
    cannot_use(&[], "usage: barrowtide COMMAND");
    cannot_use(&["frobnicate"], "no command frobnicate");
    cannot_use(&["judge", "--frobnicate"], "no option --frobnicate");
    let version = format!("barrowtide {}\n", env!("CARGO_PKG_VERSION"));
    accepts(&["--version"], &version);
}

/// The examples of the help, as printed. Only comparing can't show an acceptance.
#[test]
fn examples() {
    // As at the top of a fresh clone, where nothing was built; what they write stays in here. Outside the checkout, where
    // rt ci takes no link.
    let top = env::temp_dir().join(format!("barrowtide-examples-{}", process::id()));
    fs::create_dir(&top).expect("a folder");
    let bindings = concat!(env!("CARGO_MANIFEST_DIR"), "/../..");
    symlink(bindings, top.join("bindings")).expect("a link");
    for name in COMMANDS {
        let (status, text, error) = run(&[name, "--help"]);
        assert_eq!((status, error.as_str()), (Some(0), ""));
        let indented: Vec<&str> = text.lines().filter(|line| line.starts_with("    ")).collect();
        let script = indented.join("\n").replace("./barrowtide", "\"$PROGRAM\"");
        assert!(script.contains("$PROGRAM"), "{name}: {script}");
        let mut shell = Command::new("sh");
        shell.args(["-e", "-c", &script]).env("PROGRAM", PROGRAM).current_dir(&top);
        let (status, text, error) = ran(shell.output().expect("the shell starts"));
        let expected = if name == "compare" { 1 } else { 0 };
        assert_eq!(status, Some(expected), "{script}\n{text}{error}");
    }
    fs::remove_dir_all(&top).expect("it is removed");
}

/// Support staff find each refusal in the document, and no other.
#[test]
fn refusals_explained() {
    let text = document("REFUSALS.md");
    let row = |line: &str| {
        let mut cells = line.split('|').map(str::trim).skip(1);
        Some((cells.next()?.parse::<u32>().ok()?, cells.next()?.to_string()))
    };
    let named = |row: &(u32, String)| !row.1.contains(' ');
    let rows: Vec<_> = text.lines().filter_map(row).filter(named).collect();
    let reasons = (1..).map_while(Reason::from_number);
    let expected: Vec<_> = reasons.map(|reason| (reason.number(), reason.name().into())).collect();
    assert_eq!(rows, expected);
}

/// What acceptance does not say is said in one wording, whoever reads it.
#[test]
fn unsaid_everywhere() {
    let file = |path: &str| {
        let path = format!("{}/../../../{path}", env!("CARGO_MANIFEST_DIR"));
        fs::read_to_string(path).expect("a file of the repository")
    };
    let heading = "What acceptance does not say";
    let readme = file("README.md");
    let section = readme.split(heading).nth(1).expect("the section");
    let items: Vec<&str> =
        section.trim_start().lines().map_while(|l| l.strip_prefix("- ")).collect();
    assert!(items.len() > 2, "{items:?}");
    // Words alone, whatever marks a comment or a list.
    let words = |text: &str| -> String {
        let word = |c: char| if c.is_alphanumeric() { c } else { ' ' };
        text.chars().map(word).collect::<String>().split_whitespace().collect::<Vec<_>>().join(" ")
    };
    let list = words(&items.join(" "));
    let said = [
        ("include/barrowtide.h", format!("{heading} {list} Refused")),
        ("bindings/rust/barrowtide/src/lib.rs", format!("{heading} {list} Cost")),
        ("bindings/rust/barrowtide/src/judge.rs", format!("{heading} {list} use")),
        ("docs/REFUSALS.md", format!("{heading} {list} Each refusal")),
        ("docs/PROMISES.md", format!("{heading} of a bundle {list} What")),
    ];
    for (path, said) in said {
        assert!(words(&file(path)).contains(&said), "{path}");
    }
    let help = run(&["judge", "--help"]).1;
    assert!(words(&help).contains(&format!("{heading} {list} For example")), "{help}");
}

/// What is typed a little differently from the help, and means the same.
#[test]
fn as_people_type() {
    let proof = run(&["prove", "bump", "004-bump.hex", ID]);
    for id in [format!("{ID} "), format!(" {ID}\n"), ID.to_uppercase()] {
        assert_eq!(run(&["prove", "bump", "004-bump.hex", &id]), proof);
    }
    let commented = format!("# roots\n{ROOT} # block 814435\n  # none\n\t{ROOT}#again \r\n");
    accepts(&["judge", "004-bundle.hex", &file("commented.txt", commented)], JUDGED);
    let wrong = file("wrong.txt", format!("{ROOT}\n{} # short\n", &ROOT[1..]));
    cannot_use(
        &["judge", "004-bundle.hex", &wrong],
        &format!("line 2: not 64 hex digits: {}\n", &ROOT[1..]),
    );

    cannot_use(
        &["judge", "004-bundle.hex", ROOT],
        &format!("{ROOT}: no such file; roots or ids stand in a file, one on a line\n"),
    );
    cannot_use(&["judge", "004-bundle.hex", &ROOT[1..]], "No such file or directory");

    let clients = run(&["clients", "004-bump.hex"]);
    let dashed = file("--dashed.hex", data("004-bump.hex"));
    let (folder, name) = dashed.rsplit_once('/').expect("a path");
    for words in [&["--", "clients", name][..], &["clients", "--", name]] {
        let mut command = command(words);
        assert_eq!(ran(command.current_dir(folder).output().expect("it starts")), clients);
    }
    cannot_use(&["clients", name], "no option --dashed.hex; --help lists them");
    cannot_use(
        &["judge", "--", "004-bundle.hex", "004-roots.txt", "--cost"],
        "usage: barrowtide judge",
    );

    assert_eq!(run(&["help", "judge"]), run(&["judge", "--help"]));
    assert_eq!(run(&["help", "--json", "judge"]), run(&["judge", "--help", "--json"]));
    cannot_use(&["help", "frobnicate"], "no command frobnicate");
    cannot_use(&["--", "--json"], "no command --json");
}

/// Nothing at standard input is no file of the sender's, but a command that failed before.
#[test]
fn nothing_came() {
    let nothing = "standard input: nothing came; perhaps the command before it failed\n";
    for words in ["clients -", "judge 004-bundle.hex -", "judge - 004-roots.txt", "order -"] {
        let split: Vec<&str> = words.split(' ').collect();
        assert_eq!(run_on(b"", &split), (Some(2), String::new(), nothing.to_string()));
        // Closed, and open for writing alone.
        for other in ["<&-", "0>/dev/null"] {
            assert_eq!(in_shell(&format!("{words} {other}")), bad_descriptor("standard input"));
        }
    }
    assert_eq!(in_shell("clients 004-bump.hex <&-"), run(&["clients", "004-bump.hex"]));
}

/// Names and words of others go to no terminal as they are.
#[test]
fn no_control_characters() {
    let plain =
        |text: &str| text.chars().all(|c| c == '\n' || !(c.is_control() || c == '\u{202e}'));
    let bad = "a\u{1b}[31m\u{7f}\n\u{9b}\u{202e}b";
    for words in [
        &["clients", bad][..],
        &[bad],
        &["clients", &format!("--{bad}")],
        &["help", bad],
        &["prove", "bump", "004-bump.hex", bad],
        &["write", "1", "ids.txt", bad],
        &["judge", "004-bundle.hex", &file("control.txt", bad)],
        &["clients", &file("control.hex", "0000000000\u{1b}")],
        &["batch", bad],
    ] {
        let (status, text, error) = run(words);
        assert_eq!((status, text.as_str()), (Some(2), ""), "{words:?}");
        assert!(plain(&error), "{words:?}: {error:?}");
        let (_, json, _) = run(&[&["--json"][..], words].concat());
        assert!(plain(&json) && json.starts_with("{\"unusable\":\""), "{words:?}: {json:?}");
    }
}

/// 1, 3 and 5 say that it is this library which does not take more.
#[test]
fn more_than_this_library_takes() {
    let takes = |input: &[u8], words: &[&str], number: &str| {
        let (status, text, _) = run_on(input, words);
        assert_eq!(status, Some(1));
        assert!(text.starts_with(&format!("refused {number}")), "{text}");
        assert!(text.contains("more than this library takes"), "{text}");
    };
    takes(&vec![0; (1 << 24) + 1], &["list", "bump", "-"], "1 TOO_LONG");
    takes(&[0xfd, 1, 0], &["list", "bump", "-"], "3 LONG_VARINT");
    takes(&[0xff; 9], &["list", "bump", "-"], "5 OVER_LIMIT");
    takes(b"\x01\0\xbe\xef\x41", &["list", "beef", "-"], "5 OVER_LIMIT");
}

/// A reader that goes away is no fault; a full disk is.
#[test]
fn closed_output() {
    for words in [&["list", "bump", "-"][..], &["draw", "-", ID], &["list", "beef", "-"]] {
        let mut command = command(words);
        command.stdin(Stdio::piped()).stdout(Stdio::piped()).stderr(Stdio::piped());
        let mut child = command.spawn().expect("the program starts");
        drop(child.stdout.take());
        let mut stdin = child.stdin.take().expect("piped");
        stdin.write_all(&data("004-bump.hex")).expect("it reads");
        drop(stdin);
        let output = child.wait_with_output().expect("it ends");
        let expected = if words[1] == "beef" { 1 } else { 0 };
        assert_eq!((output.status.code(), output.stderr.as_slice()), (Some(expected), &b""[..]));
    }
    let full = File::options().write(true).open("/dev/full").expect("a full device");
    let output = command(&["clients", "004-bump.hex"]).stdout(full).output();
    let (status, _, error) = ran(output.expect("the program starts"));
    assert_eq!(status, Some(2));
    assert!(error.starts_with("standard output: "), "{error}");
}

/// An answer that can't be written is not passed over, be it an acceptance, a refusal, bytes or help;
/// where there is none, nothing is amiss.
#[test]
fn no_output() {
    for (words, status) in [
        ("clients 004-bump.hex", 0),
        ("judge 004-bundle.hex /dev/null", 1),
        ("extract bump 0 004-bundle.hex --binary", 0),
        ("clients --json", 2),
        ("judge --help", 0),
        ("--version", 0),
    ] {
        // Closed, and open for reading alone.
        for other in [">&-", "1</dev/null", "<&- >&-"] {
            let ran = in_shell(&format!("{words} {other}"));
            assert_eq!(ran, bad_descriptor("standard output"), "{words} {other}");
        }
        assert_eq!(in_shell(&format!("{words} >&- 2>&-")).0, Some(2), "{words}");
        for other in [">/dev/null", "1<>/dev/null", ">/dev/null <&-"] {
            let ran = in_shell(&format!("{words} {other} 2>/dev/null"));
            assert_eq!(ran, (Some(status), String::new(), String::new()), "{words} {other}");
        }
    }
    for words in ["clients", "frobnicate", "write 1 004-roots.txt 0"] {
        let split: Vec<&str> = words.split(' ').collect();
        assert_eq!(in_shell(&format!("{words} >&-")), run(&split));
    }
}

/// Whatever the bytes, a command ends with an answer.
#[test]
fn damaged_input() {
    use std::os::unix::ffi::OsStringExt;
    let whole = data("004-bump.hex");
    for at in (0..whole.len()).step_by(7) {
        let mut changed = whole.clone();
        changed[at] ^= 0x81;
        for (bytes, least) in [(&whole[..at], 1), (&changed[..], 0)] {
            for words in [&["draw", "-", ID][..], &["list", "bump", "-"], &["list", "tsc", "-"]] {
                let (status, _, error) = run_on(bytes, words);
                let status = status.expect("it ends by itself");
                assert!((least..=2).contains(&status), "{words:?}: {status}");
                assert!(!error.contains("panicked"), "{error}");
            }
        }
    }
    let odd = OsString::from_vec(vec![0xff, 0xfe]);
    for words in
        [vec![OsStr::new("judge"), &odd, &odd], vec![&odd], vec![OsStr::new("clients"), &odd]]
    {
        let output = Command::new(PROGRAM).args(&words).output().expect("the program starts");
        assert_eq!(output.status.code(), Some(2), "{words:?}");
        assert!(!output.stdout.starts_with(b"accepted"));
    }
    // Longer than any input can be, in hex or not.
    let (status, text, _) = run_on(&vec![0; (1 << 24) + 1], &["list", "beef", "-"]);
    assert!(text.starts_with("refused 1 TOO_LONG: it is over 16777216 bytes"), "{text}");
    assert_eq!(status, Some(1));
}
