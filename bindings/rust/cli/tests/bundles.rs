//! What the program shows of bundles and TSC proofs beside the library's answer: against an
//! independent reading.

#[path = "common/program.rs"]
mod program;

use std::fmt::Display;
use std::ops::Range;

use barrowtide::{join, Hash};
use program::{accepts, cannot_use, data, file, refuses, refuses_beside, run, run_on, ID, ROOT};
use reference::generate::bundle::Plan;
use reference::generate::damage::random_edit;
use reference::generate::random::Random;
use reference::generate::tsc;
use reference::hex::{encode, printed};
use reference::published::without_sibling;
use reference::{beef, bump, prove};

const CHILD: &str = "157428aee67d11123203735e4c540fa1bdab3b36d5882c6f8c5ff79f07d20d1c";
const PARENT: &str = "2990a70423d7bbf11049d088a3d9291fd360e2e755761e0d92567b3cac4c4ecd";

/// What `list beef` says of 004's BUMP.
fn listed_bump() -> String {
    format!(
        "bump 0\n  start         5\n  length        285\n  block height  814435, by the sender's \
         word\n  tree height   7\n  leaves        8\n  root          {ROOT}, of all clients\n"
    )
}

#[test]
fn list_beef() {
    let transactions = format!(
        "transaction 0\n  id            {ID}\n  start         291\n  length        192\n  bump          \
         0\n  inputs        1\n           0  output 1 of {PARENT}\n  outputs       1\n           0  26174 \
         satoshi\n\
         transaction 1\n  id            {CHILD}\n  start         485\n  length        191\n  bump          \
         none, so each input must spend an earlier one\n  inputs        1\n           0  output 0 of \
         {ID}, transaction 0 of the bundle\n  outputs       1\n           0  26172 satoshi\n"
    );
    let head = "accepted: a BEEF bundle, well formed; judge says whether it can be trusted\n";
    let counts = "bumps         1\ntransactions  2\n";
    let text = format!("{head}{counts}{}{transactions}", listed_bump());
    accepts(&["list", "beef", "004-bundle.hex"], &text);
    // A BUMP whose clients lead to no root is listed with the refusal.
    let (status, text, _) = run_on(&without_sibling(), &["list", "beef", "-"]);
    let none = "\n  root          none: 14 MISSING: the sender must add the node at layer 0, position 20.\n";
    assert!(text.starts_with(head) && text.contains(none), "{text}");
    assert_eq!(status, Some(0));

    // A bundle that is cut: the refusal first, then what is whole before it.
    let whole = data("004-bundle.hex");
    let short = |place: usize| {
        format!(
            "refused 2 SHORT at byte {place}: the bytes end inside the field that starts here. Ask \
             the sender for the whole bundle, and check that this is one.\n"
        )
    };
    let before = |place| format!("what is whole before byte {place}, and no part of an answer:\n");
    let bump_alone = format!("bumps         1\ntransactions  0\n{}", listed_bump());
    let bump_before = |place| format!("{}{bump_alone}", before(place));
    for (length, place, before) in [
        (5 + 285, 290, bump_before(290)),
        (5 + 284, 258, String::new()),
        (291 + 100, 333, bump_before(333)),
    ] {
        let (status, text, _) = run_on(&whole[..length], &["list", "beef", "-"]);
        assert_eq!((status, text), (Some(1), short(place) + &before), "{length}");
    }
    let (_, json, _) = run_on(&whole[..291 + 192], &["list", "beef", "-", "--json"]);
    assert!(json.contains(",\"whole_before\":{\"bump_list\":[{\"start\":5,"), "{json}");
    // A place before which nothing is read, and none.
    let (_, text, _) = run_on(b"\x01\0\xbe\xef", &["list", "beef", "-"]);
    assert_eq!(text, short(4));
    let (_, text, _) = run_on(&[7; 40], &["list", "beef", "-"]);
    assert_eq!(text.lines().count(), 1, "{text}");
}

/// A list of JSON values.
fn list(items: impl IntoIterator<Item = impl Display>) -> String {
    let items: Vec<String> = items.into_iter().map(|item| item.to_string()).collect();
    format!("[{}]", items.join(","))
}

/// What `list beef --json` has to say, by the independent reading; the refusal of a BUMP's clients
/// is left out.
fn expected(data: &[u8]) -> Option<(String, String)> {
    let beef::Beef { bumps, entries } = beef::read(data).ok()?;
    let mut start = 4 + 1;
    let bump = |bump: &bump::Bump| {
        let bytes = bump::bytes(bump);
        let (block, tree) = (bump.block_height, bump.path.tree_height());
        let root = prove::clients_root(&bump.path);
        let root = root.map_or("null".to_string(), |root| format!("\"{}\"", printed(&root)));
        let text = format!(
            "{{\"start\":{start},\"length\":{},\"block_height\":{block},\"tree_height\":{tree},\
             \"leaves\":{},\"root\":{root},",
            bytes.len(),
            bump.path.leaves()
        );
        start += bytes.len();
        text
    };
    let bumps: Vec<String> = bumps.iter().map(bump).collect();
    let ids: Vec<_> = entries.iter().map(|entry| entry.transaction.id).collect();
    let transaction = |(number, entry): (usize, &beef::Entry)| {
        let told = &entry.transaction;
        let input = |input: &reference::transaction::Input| {
            let parent = ids[..number].iter().position(|id| *id == input.parent);
            let parent = parent.map_or("null".to_string(), |number| number.to_string());
            format!(
                "{{\"parent\":\"{}\",\"output\":{},\"transaction\":{parent}}}",
                printed(&input.parent),
                input.output
            )
        };
        let anchor = entry.anchor.map_or("null".to_string(), |bump| bump.to_string());
        format!(
            "{{\"start\":{},\"length\":{},\"id\":\"{}\",\"bump\":{anchor},\"input_list\":{},\
             \"amounts\":{}}}",
            told.start,
            told.length,
            printed(&told.id),
            list(told.inputs.iter().map(input)),
            list(told.outputs.iter().map(|output| output.amount))
        )
    };
    let transactions = list(entries.iter().enumerate().map(transaction));
    Some((list(bumps), transactions))
}

/// The same text without what is said of a BUMP's refusal.
fn without_refusals(json: &str) -> String {
    let mut text = String::new();
    let mut pieces = json.split("\"refusal\":");
    text += pieces.next().unwrap_or_default();
    for piece in pieces {
        // An object without others in it, or null.
        let end = piece.find(if piece.starts_with('{') { '}' } else { 'l' }).expect("it ends");
        let end = if piece.starts_with('{') { end + 1 } else { end + 2 };
        text += piece[end..].strip_prefix('}').expect("the BUMP ends");
    }
    text
}

/// Random bundles, sound and damaged.
#[test]
fn random_bundles() {
    let mut random = Random::of("random_bundles");
    let (mut sound, mut refused, mut untrusted, mut parents) = (0, 0, 0, 0);
    for round in 0..240 {
        let transactions = random.within(1..=6);
        let mut plan = Plan::random(&mut random, transactions);
        if round % 3 == 1 {
            plan.spoil(&mut random);
        }
        let draft = plan.draft();
        let bytes =
            if round % 3 == 2 { random_edit(&mut random, &draft) } else { draft.bytes.clone() };
        if bytes.is_empty() {
            continue;
        }
        let (status, json, error) = run_on(&bytes, &["list", "beef", "-", "--json"]);
        let Some((bumps, entries)) = expected(&bytes) else {
            assert_eq!((status, error.as_str()), (Some(1), ""), "{}", encode(&bytes));
            refused += 1;
            continue;
        };
        assert_eq!((status, error.as_str()), (Some(0), ""), "{}", encode(&bytes));
        let listed = format!(",\"bump_list\":{bumps},\"transaction_list\":{entries}}}\n");
        assert!(without_refusals(&json).ends_with(&listed), "{json}\n{listed}");
        sound += 1;

        // The verdict is the library's; what is beside it comes of the independent reading.
        let roots: Vec<String> = plan.roots.iter().map(printed).collect();
        let fee = plan.fee.to_string();
        let whole = beef::read(&bytes).expect("read above");
        for roots in [roots.join("\n"), "# none".to_string()] {
            let roots = file("random-roots.txt", roots);
            let (_, json, _) = run_on(&bytes, &["judge", "-", &roots, "--fee", &fee, "--json"]);
            if json.starts_with("{\"accepted\":true") {
                for entry in &whole.entries {
                    let Some(anchor) = entry.anchor else { continue };
                    let bump = &whole.bumps[anchor as usize];
                    let climb = prove::climb_path(&bump.path, &entry.transaction.id);
                    let root = climb.expect("a climb").root();
                    let said = format!(
                        "\"total\":{},\"root\":\"{}\",\"block_height\":{}}}",
                        entry.transaction.total(),
                        printed(&root),
                        bump.block_height
                    );
                    assert!(json.contains(&said), "{json}\n{said}");
                }
            } else if json.contains("\"name\":\"UNTRUSTED\"") {
                untrusted += 1;
                let (_, number) = json.split_once("\"transaction\":").expect("a transaction");
                let number: usize = number.split(',').next().unwrap_or("").parse().expect("one");
                let entry = &whole.entries[number];
                let anchor = entry.anchor.expect("anchored");
                let bump = &whole.bumps[anchor as usize];
                let id = entry.transaction.id;
                let root = prove::climb_path(&bump.path, &id).expect("a climb").root();
                let said = format!(
                    "\"id\":\"{}\",\"bump\":{anchor},\"block_height\":{},\"root\":\"{}\"}}\n",
                    printed(&id),
                    bump.block_height,
                    printed(&root)
                );
                assert!(json.ends_with(&said), "{json}\n{said}");
            } else if json.contains("\"name\":\"NO_PARENT\"") {
                parents += 1;
                assert!(json.contains(",\"bump\":null,\"parent\":\""), "{json}");
            }
        }
    }
    assert!(
        sound > 100 && refused > 20 && untrusted > 50 && parents > 0,
        "{sound} {refused} {untrusted} {parents}"
    );
}

/// Whatever the bytes, what is shown agrees with the library: no command ends because it doesn't.
#[test]
fn shown_as_answered() {
    let mut random = Random::of("shown_as_answered");
    let (mut lines, mut answered) = (Vec::new(), [0; 3]);
    for round in 0..300 {
        let transactions = random.within(1..=8);
        let mut plan = Plan::random(&mut random, transactions);
        if round % 2 == 1 {
            plan.spoil(&mut random);
        }
        let proof = tsc::Plan::random(&mut random, 20);
        let path = plan.bumps[random.index(plan.bumps.len())].bump();
        let drafts = [plan.draft(), proof.draft(), path];
        let [bundle, proof, path] = drafts.map(|draft| {
            let whole = random.one_in(2);
            let bytes = if whole { draft.bytes.clone() } else { random_edit(&mut random, &draft) };
            format!("{{\"hex\":\"{}\"}}", encode(&bytes))
        });
        let roots: Vec<String> =
            plan.roots.iter().map(|root| format!("\"{}\"", printed(root))).collect();
        let roots = format!("[{}]", roots.join(","));
        let id = plan.entries.first().map_or_else(|| random.hash(), |entry| entry.0.id());
        let (id, fee) = (printed(&id), plan.fee);
        for (command, arguments) in [
            ("judge", format!("{bundle},{roots},\"--fee\",{fee}")),
            ("judge", format!("{bundle},[],\"--cost\"")),
            ("list", format!("\"beef\",{bundle}")),
            ("prove", format!("\"beef\",{bundle},\"{id}\"")),
            ("draw", format!("{bundle},\"{id}\"")),
            ("draw", path.clone()),
            ("draw", format!("{path},\"{id}\"")),
            ("extract", format!("\"tx\",0,{bundle}")),
            ("list", format!("\"tsc\",{proof}")),
            ("prove", format!("\"tsc\",{proof}")),
        ] {
            lines.push(format!("{{\"command\":\"{command}\",\"arguments\":[{arguments}]}}\n"));
        }
    }
    let (status, text, error) = run_on(lines.concat().as_bytes(), &["batch"]);
    assert_eq!((status, error.as_str()), (Some(0), ""));
    assert_eq!(text.lines().count(), lines.len());
    for (line, answer) in lines.iter().zip(text.lines()) {
        let kind = ["{\"accepted\":true", "{\"accepted\":false", "{\"unusable\":\"the bundle has "];
        let kind = kind.iter().position(|start| answer.starts_with(start));
        answered[kind.unwrap_or_else(|| panic!("{line}{answer}"))] += 1;
    }
    assert!(answered[0] > 800 && answered[1] > 800, "{answered:?}");
}

#[test]
fn extract() {
    let whole = data("004-bundle.hex");
    let hex = |at: Range<usize>| encode(&whole[at]) + "\n";
    accepts(&["extract", "bump", "0", "004-bundle.hex"], &hex(5..290));
    accepts(&["extract", "tx", "0", "004-bundle.hex"], &hex(291..291 + 192));
    accepts(&["extract", "tx", "1", "004-bundle.hex"], &hex(485..485 + 191));
    assert_eq!(whole[5..290], data("004-bump.hex"));
    let (_, json, _) = run(&["extract", "tx", "1", "004-bundle.hex", "--json"]);
    assert!(
        json.starts_with("{\"accepted\":true,\"bytes\":191,\"hex\":\"0100000001ac4e"),
        "{json}"
    );
    let binary = program::command(&["extract", "bump", "0", "004-bundle.hex", "--binary"]).output();
    assert_eq!(binary.expect("the program starts").stdout, whole[5..290]);

    let (cut, one) = (file("cut.beef", &whole[..600]), "004-bundle.hex");
    let (status, text, error) = run(&["extract", "tx", "0", &cut]);
    assert_eq!((status, text.as_str()), (Some(1), ""));
    assert!(error.starts_with("refused 2 SHORT at byte 527: "), "{error}");
    refuses_beside(
        &["extract", "tx", "0", "004-bump.hex"],
        "refused 10 BAD_VERSION: this looks like a BUMP. Check that it is the right file, or ask the \
         sender for a BEEF (BRC-62).",
    );
    cannot_use(
        &["extract", "bump", "1", one],
        "the bundle has 1 BUMP, counted from 0: there is no 1",
    );
    cannot_use(&["extract", "tx", "18446744073709551615", one], "has 2 transactions");
    cannot_use(&["extract", "tx", "-1", one], "not a number: -1");
    cannot_use(&["extract", "cmp", "0", one], "usage: barrowtide extract");
    cannot_use(&["extract", "tx", "0"], "usage: barrowtide extract");
}

#[test]
fn prove_beef() {
    let proof = format!(
        "accepted: the id is under this root, and worth as much as the root is trusted\n\
         id        {ID}\nposition  21\nlayers    7\nroot      {ROOT}\n"
    );
    let by = "block height 814435 by the sender's word\n";
    let named = format!("by        BUMP 0 of the bundle, which transaction 0 names, {by}");
    accepts(&["prove", "beef", "004-bundle.hex", ID], &format!("{proof}{named}"));
    let (_, json, _) = run(&["prove", "beef", "004-bundle.hex", ID, "--json"]);
    let end = format!("\"root\":\"{ROOT}\",\"bump\":0,\"block_height\":814435}}\n");
    assert!(json.ends_with(&end), "{json}");
    // The sibling is listed, too, though no transaction has its id.
    let sibling = "0dc75b4efeeddb95d8ee98ded75d781fcf95d35f9d88f7f1ce54a77a0c7c50fe";
    let (status, text, _) = run(&["prove", "beef", "004-bundle.hex", sibling]);
    assert!(text.contains("\nposition  20\n"), "{text}");
    assert!(text.ends_with(&format!("the first that lists the id, {by}")), "{text}");
    assert_eq!(status, Some(0));
    let none =
        "refused 13 NOT_LISTED: no BUMP of the bundle lists this id. A transaction that names \
         none rests on its parents, which list beef shows: ask about these. Else check the id.";
    refuses(&["prove", "beef", "004-bundle.hex", CHILD], none);
    let gap = file("gap-prove.beef", without_sibling());
    let missing = "refused 14 MISSING: the sender must add the node at layer 0, position 20.";
    refuses(&["prove", "beef", &gap, ID], &format!("{missing}\n{}", named.trim_end()));
    let alone = [&[1, 0, 0xbe, 0xef, 0, 1][..], &data("004-transaction.hex"), &[0]].concat();
    cannot_use(&["prove", "beef", &file("alone.beef", alone), ID], "the bundle has no BUMP");
    cannot_use(&["prove", "beef", "004-bundle.hex"], "usage: barrowtide prove");

    // The picture is that of the BUMP, but for a line that says where it is from.
    let (status, svg, note) = run(&["draw", "004-bundle.hex", ID]);
    assert_eq!((status, note.as_str()), (Some(0), ""));
    assert!(svg.contains(">BUMP 0 of the bundle, which transaction 0 names</text>"), "{svg}");
    assert!(svg.contains("hash(0dc75b4e, 3ecead27) = "));
    let (status, svg, note) = run(&["draw", &gap, ID]);
    assert_eq!((status, note), (Some(1), format!("{missing}\n")));
    assert!(svg.contains("20 missing"));
    refuses_beside(&["draw", "004-bundle.hex", CHILD], none);
    assert_eq!(run(&["draw", "004-bundle.hex"]).0, Some(0));
}

/// Of several BUMPs the one that the transaction names is asked.
#[test]
fn prove_by_the_bump_that_is_named() {
    let whole = data("004-bundle.hex");
    let leaf = |hash: &Hash| [&[0, 0][..], hash.stored()].concat();
    let id: Hash = ID.parse().expect("an id");
    // A BUMP of another block that lists the id, too, before the one that is named.
    let other = [&[9, 1, 2][..], &leaf(&id), &[1, 1]].concat();
    let mut bundle = [&whole[..4], &[2], &other, &whole[5..]].concat();
    let number = 291 + other.len() + 192 + 1;
    assert_eq!(bundle[number - 1..number + 1], [1, 0]);
    bundle[number] = 1;
    let named = file("two.beef", &bundle);
    let (_, text, _) = run(&["prove", "beef", &named, ID]);
    assert!(
        text.contains(&format!("root      {ROOT}\nby        BUMP 1 of the bundle, which")),
        "{text}"
    );
    let text = run(&["judge", &named, "004-roots.txt"]).1;
    assert!(text.ends_with(&format!("   0        814435  {ROOT}\n")), "{text}");
    bundle[number] = 0;
    let (_, text, _) = run(&["prove", "beef", &file("first.beef", &bundle), ID]);
    let root = join(&id, &id);
    assert!(
        text.contains(&format!("root      {root}\nby        BUMP 0 of the bundle, which")),
        "{text}"
    );
    cannot_use(&["draw", &named], "the bundle has 2 BUMPs: give an id");
}

#[test]
fn tsc_proofs() {
    let id = "ffeff11c25cde7c06d407490d81ef4d0db64aad6ab3d14393530701561a465ef";
    let (_, text, _) = run(&["list", "tsc", "000-proof.hex"]);
    let target = "75edb0a69eb195cdd81e310553aa4d25e18450e08f168532a2c2e9cf447bf169";
    let start = format!(
        "accepted: a TSC proof\nholds     id\nid        {id}\nindex     12\ntarget    block hash \
         {target}\n          compared with nothing, here and in prove tsc\nnodes     5\n     0  b9ef07a6"
    );
    assert!(text.starts_with(&start), "{text}");
    assert_eq!(text.lines().count(), 7 + 5, "{text}");
    let (_, text, _) = run(&["prove", "tsc", "000-proof.hex"]);
    let nothing = "compared with nothing: look up the block of this hash, and compare its root";
    assert!(
        text.contains(&format!("\ntarget    block hash {target}\n          {nothing}\n")),
        "{text}"
    );
    let (_, json, _) = run(&["prove", "tsc", "000-proof.hex", "--json"]);
    let said =
        format!(",\"target\":\"block hash\",\"compared\":false,\"target_value\":\"{target}\"");
    assert!(json.contains(&said), "{json}");

    // A transaction of two in its block, with a root, a header or a block hash; the other is a copy.
    let raw = data("004-transaction.hex");
    let id: Hash = ID.parse().expect("an id");
    let root = join(&id, &id);
    let header = [&[7; 36][..], root.stored(), &[9; 12]].concat();
    for (flags, target, shown, compared) in [
        (5, root.stored().to_vec(), format!("root {root}"), "it is this root"),
        (
            3,
            header.clone(),
            format!("header {}\n          with root {root}", encode(&header)),
            "it holds this root; its own hash and work are not looked at",
        ),
        (1, vec![0xbb; 32], format!("block hash {}", "bb".repeat(32)), nothing),
    ] {
        let proof = [&[flags, 0, 192][..], &raw, &target, &[1, 1]].concat();
        let (status, text, _) = run_on(&proof, &["prove", "tsc", "-"]);
        let expected = format!(
            "accepted: the id is under this root, and worth as much as the root is trusted\n\
             id        {ID}\nposition  0\nlayers    1\nroot      {root}\ntarget    {shown}\n          \
             {compared}\nnodes     1\n     0  copy\n"
        );
        assert_eq!((status, text), (Some(0), expected));
        let (_, text, _) = run_on(&proof, &["list", "tsc", "-"]);
        assert!(text.starts_with(&format!(
            "accepted: a TSC proof\nholds     transaction\nid        {ID}\n"
        )));
        let (_, json, _) = run_on(&proof, &["list", "tsc", "-", "--json"]);
        assert!(json.ends_with(",\"node_list\":[null]}\n"), "{json}");
    }
}

/// Outputs of a transaction that the library takes whole are listed, and of a longer one counted.
#[test]
fn long_transactions() {
    let script = vec![7; 1 << 24];
    let long = |script: &[u8]| {
        let length = (script.len() as u32).to_le_bytes();
        let head = [&[1, 0, 0, 0, 1][..], &[0xaa; 36], &[0xfe], &length].concat();
        [&head[..], script, &[0; 4], &[2], &[5, 0, 0, 0, 0, 0, 0, 0, 0], &[0xff; 8], &[0], &[0; 4]]
            .concat()
    };
    let (status, text, _) = run_on(&long(&script[..(1 << 24) - 81]), &["list", "transaction", "-"]);
    assert_eq!(status, Some(0), "{text}");
    assert!(text.ends_with("outputs       2\n           0  5 satoshi\n           1  18446744073709551615 satoshi\n"), "{text}");
    let (status, text, _) = run_on(&long(&script), &["list", "transaction", "-"]);
    assert_eq!(status, Some(0), "{text}");
    assert!(text.ends_with("outputs       2, not listed of over 16777216 bytes\n"), "{text}");
}
