//! Proving ids by BUMP, CMP and TSC, and checking clients: the library against the reference, and
//! against the trees that the proofs were made from.

mod common;
#[path = "common/proofs.rs"]
mod proofs;

use barrowtide::{ffi, MAX_INPUT};
use common::{expected, plain, GUARDED};
use proofs::{check_bump, check_clients, check_cmp, fill, number, proof, stored, Answer, Proof};
use reference::generate::damage::{field_edits, random_edit, truncations};
use reference::generate::path::{Leaf, Plan};
use reference::generate::random::{rounds, Random};
use reference::generate::tally::Tally;
use reference::generate::tree::Tree;
use reference::generate::tsc;
use reference::hex::{decode, expand, printed, show};
use reference::prove;
use reference::refusal::Refusal;
use reference::Hash;

fn check_tsc(data: &[u8]) -> Answer {
    let told = prove::by_tsc(data).map(proof);
    let (mut guarded, mut lent) = (GUARDED, fill([0xa5; 32]));
    let Proof { id, position, layers, root } = &mut lent;
    let number = ffi::prove_tsc(data, &mut guarded.blame, id, position, layers, root);
    assert_eq!((number, guarded, lent), expected(told, fill([0xa5; 32])), "{}", show(data));
    assert_eq!(barrowtide::prove_tsc(data).map(stored).map_err(plain), told, "{}", show(data));
    told
}

#[test]
fn bump_examples() {
    let answer = |example: &str, id: u8| number(check_bump(&expand(example), &[id; 32]));
    // P7.
    assert_eq!(answer("00 01 00", 0x00), 13);
    // Of several leaves with the id the least offset, even if only another one would climb.
    assert_eq!(answer("00 02 03 03 00 [aa] 00 00 [aa] 01 00 [bb] 01 01 00 [cc]", 0xaa), 0);
    assert_eq!(answer("00 02 03 03 02 [aa] 02 00 [bb] 00 00 [aa] 01 00 00 [cc]", 0xaa), 14);
    // Any flags; a copy carries no id.
    assert_eq!(answer("00 01 02 00 00 [aa] 01 02 [bb]", 0xaa), 0);
    assert_eq!(answer("00 01 02 00 00 [aa] 01 01", 0xaa), 0);
    assert_eq!(answer("00 01 02 00 02 [aa] 01 01", 0xbb), 13);
    // Equal siblings are allowed at an even position and refused at an odd one.
    assert_eq!(answer("00 01 02 00 00 [bb] 01 02 [bb]", 0xbb), 0);
    assert_eq!(answer("00 02 02 02 02 [aa] 03 00 [bb] 00", 0xaa), 14);
    // A leaf on the climb's own way is surplus.
    assert_eq!(answer("00 02 02 00 02 [aa] 01 00 [ab] 02 00 00 [00] 01 00 [02]", 0xaa), 0);
    // The id above level 0 is not listed.
    assert_eq!(answer("00 02 00 01 00 00 [aa]", 0xaa), 13);
}

#[test]
fn client_examples() {
    let answer = |example: &str| number(check_clients(&expand(example)));
    assert_eq!(answer("00 01 00"), 13);
    assert_eq!(answer("00 01 02 00 00 [bb] 01 02 [bb]"), 15);
    let differs_second = "00 03 05 00 02 [aa] 01 00 [ab] 02 02 [ac] 03 00 [ad] 06 02 [ae] \
                          02 00 00 [01] 01 00 [02] 01 01 00 [03]";
    assert_eq!(answer(differs_second), 16);
    let misses_second = "00 03 05 00 02 [aa] 01 00 [ab] 06 02 [ae] 02 02 [ac] 03 00 [ad] \
                         02 00 00 [01] 01 00 [02] 01 01 00 [03]";
    assert_eq!(answer(misses_second), 14);
}

#[test]
fn tsc_examples() {
    let answer = |example: &str| number(check_tsc(&expand(example)));
    assert_eq!(answer("00 01 [aa] [bb] 01 01"), 15);
    assert_eq!(answer("00 00 [aa] [bb] 01 01"), 0);
    assert_eq!(answer("00 01 [aa] [bb] 01 00 [aa]"), 15);
    assert_eq!(answer("00 00 [aa] [bb] 00"), 0);
    assert_eq!(answer("04 00 [aa] [bb] 00"), 16);
    assert_eq!(answer("04 00 [aa] [aa] 00"), 0);
    assert_eq!(answer("02 00 [aa] 11{36} [aa] 22{12} 00"), 0);
    assert_eq!(answer("02 00 [aa] 11{4} [aa] 22{44} 00"), 16);
    assert_eq!(answer("04 01 [aa] [bb] 01 01"), 15);
}

/// 14 and 15 name the sibling; 13 and 16 name none.
#[test]
fn blamed_siblings() {
    let blamed = |number, layer, sibling| Some(Refusal::of_sibling(number, layer, sibling));
    let bump = |example: &str| check_bump(&expand(example), &[0xaa; 32]).err();
    let cmp = |example: &str| check_cmp(&expand(example), &[0xaa; 32]).err();
    let tsc = |example: &str| check_tsc(&expand(example)).err();
    let clients = |example: &str| check_clients(&expand(example)).err();
    // A sibling on the right, one on the left, and one higher up.
    assert_eq!(bump("00 02 02 00 02 [aa] 01 00 [ab] 00"), blamed(14, 1, 1));
    assert_eq!(bump("00 02 02 02 02 [aa] 03 00 [ab] 00"), blamed(14, 1, 0));
    assert_eq!(cmp("02 00 01 03 [01] 02 05 [aa] 04 [ab]"), blamed(14, 2, 0));
    // Of two that are missing the lower one.
    assert_eq!(bump("00 03 01 05 02 [aa] 01 03 00 [01] 00"), blamed(14, 0, 4));
    assert_eq!(cmp("02 00 01 03 [01] 01 05 [aa]"), blamed(14, 0, 4));
    // The gap is lower down: at (0, 0), as the copy beside it has no value either.
    assert_eq!(bump("00 02 03 01 01 02 02 [aa] 03 00 [ab] 00"), blamed(14, 1, 0));
    // Twins are on the left, and so are copies in a TSC proof at an odd position.
    assert_eq!(tsc("00 01 [aa] [bb] 01 01"), blamed(15, 0, 0));
    assert_eq!(tsc("00 03 [aa] [bb] 02 00 [cc] 01"), blamed(15, 1, 0));
    assert_eq!(tsc("04 05 [aa] [bb] 03 00 [cc] 00 [dd] 01"), blamed(15, 2, 0));
    assert_eq!(tsc("04 07 [aa] [bb] 03 00 [cc] 01 01"), blamed(15, 1, 2));
    // The all-clients check blames a sibling of the first leaf, as written, that has a fault.
    assert_eq!(clients("00 01 02 00 00 [bb] 01 02 [bb]"), blamed(15, 0, 0));
    assert_eq!(clients("00 03 02 06 02 [aa] 01 02 [bb] 00 00"), blamed(14, 0, 7));
    assert_eq!(clients("00 03 02 01 02 [bb] 06 02 [aa] 00 00"), blamed(14, 0, 0));
    // 13 and 16.
    assert_eq!(bump("00 01 00"), Some(Refusal::new(13, 0)));
    assert_eq!(cmp("00 00"), Some(Refusal::new(13, 0)));
    assert_eq!(clients("00 01 00"), Some(Refusal::new(13, 0)));
    assert_eq!(tsc("04 00 [aa] [bb] 00"), Some(Refusal::new(16, 0)));
}

/// 004's BUMP, whose leaves are P13's siblings of 21 over 7 layers; 000's proof; and 001's path,
/// whose nodes may be invented.
#[test]
fn published_proofs() {
    let bump = decode(include_str!("../../tests/data/004-bump.hex"));
    let root = check_clients(&bump).unwrap();
    let block = "bb6f640cc4ee56bf38eb5a1969ac0c16caa2d3d202b22bf3735d10eec0ca6e00";
    assert_eq!(printed(&root), block);
    let id: Hash = std::array::from_fn(|i| bump[43 + i]);
    let proved = Proof { id, position: 21, layers: 7, root };
    assert_eq!(check_bump(&bump, &id), Ok(proved));

    let proof = decode(include_str!("../../tests/data/000-proof.hex"));
    let answer = check_tsc(&proof).unwrap();
    assert_eq!((answer.position, answer.layers), (12, 5));
    let block = "96cbb75fd2ef98e4309eebc8a54d2386333d936ded2a0f3e06c23a91bb612f70";
    assert_eq!(printed(&answer.root), block);
    let id = "ffeff11c25cde7c06d407490d81ef4d0db64aad6ab3d14393530701561a465ef";
    assert_eq!(printed(&answer.id), id);

    let path = decode(include_str!("../../tests/data/001-path.hex"));
    for at in [104, 137, 170, 203] {
        let _ = check_cmp(&path, &std::array::from_fn(|i| path[at + i]));
    }
}

/// Every id of trees of every small size is proved by every form, to the tree's root; the slip of
/// folding only one layer, or of taking the next position as every sibling, cannot pass.
#[test]
fn every_id_of_small_trees() {
    let mut random = Random::of("every_id_of_small_trees");
    for count in 2..=33 {
        let tree = Tree::random(&mut random, count);
        let all: Vec<u64> = (0..count as u64).collect();
        let whole = Plan::of(&tree, &all);
        assert_eq!(check_clients(&whole.bump().bytes), Ok(tree.root()));
        for position in all {
            let id = tree.ids()[position as usize];
            let layers = tree.height() as u64;
            let proved = Ok(Proof { id, position, layers, root: tree.root() });
            let single = Plan::of(&tree, &[position]);
            for plan in [&whole, &single] {
                assert_eq!(check_bump(&plan.bump().bytes, &id), proved);
                assert_eq!(check_cmp(&plan.cmp().bytes, &id), proved);
            }
            for kind in [0, 2, 4] {
                let mut proof = tsc::Plan::of(&tree, position);
                proof.aim(kind, &mut random);
                assert_eq!(check_tsc(&proof.draft().bytes), proved);
            }
        }
    }
}

/// Larger trees, odd layers among them, and single ids of a block.
#[test]
fn large_trees() {
    let mut random = Random::of("large_trees");
    for count in [255, 256, 257, 509, 769, 1_000, 1_023, 1_024] {
        let tree = Tree::random(&mut random, count);
        let mut positions = vec![0, 1, count as u64 - 2, count as u64 - 1];
        positions.extend((0..4).map(|_| random.index(count) as u64));
        let plan = Plan::of(&tree, &positions);
        assert_eq!(check_clients(&plan.bump().bytes), Ok(tree.root()));
        for position in positions {
            let id = tree.ids()[position as usize];
            let layers = tree.height() as u64;
            let proved = Ok(Proof { id, position, layers, root: tree.root() });
            assert_eq!(check_bump(&plan.bump().bytes, &id), proved);
            assert_eq!(check_cmp(&plan.cmp().bytes, &id), proved);
            assert_eq!(check_tsc(&tsc::Plan::of(&tree, position).draft().bytes), proved);
        }
    }
}

/// The tallest paths: one id, up to 64 layers, and positions up to the last.
#[test]
fn tall_paths() {
    let mut random = Random::of("tall_paths");
    for height in 1..=64usize {
        let last = u64::MAX >> (64 - height);
        for position in [0, 1, last - 1, last, random.within(0..=last)] {
            let beside = |layer| (position >> layer) ^ 1;
            let id = random.hash();
            let mut levels: Vec<Vec<Leaf>> = (0..height)
                .map(|layer| {
                    let hash = random.hash();
                    vec![Leaf { offset: beside(layer), flags: 0, hash }]
                })
                .collect();
            let nodes = levels.iter().map(|level| (0, level[0].hash)).collect();
            levels[0].push(Leaf { offset: position, flags: 2, hash: id });
            let plan = Plan { block_height: 0, levels };
            let by_bump = check_bump(&plan.bump().bytes, &id).unwrap();
            assert_eq!((by_bump.position, by_bump.layers), (position, height as u64));
            assert_eq!(check_cmp(&plan.cmp().bytes, &id), Ok(by_bump));
            let mut proof = tsc::Plan::of(&Tree::new(vec![id]), 0);
            (proof.index, proof.nodes, proof.target) = (position, nodes, by_bump.root.to_vec());
            assert_eq!(check_tsc(&proof.draft().bytes), Ok(by_bump));
        }
    }
}

/// Surplus leaves, other orders and plain flags give every client the same proof.
#[test]
fn surplus_is_ignored() {
    let mut random = Random::of("surplus_is_ignored");
    for _ in 0..rounds() {
        let count = random.within(2..=50) as usize;
        let tree = Tree::random(&mut random, count);
        // Position 0 keeps its place if surplus leaves carry its id, too.
        let position = if random.one_in(4) { 0 } else { 1 + random.index(count - 1) as u64 };
        let mut plan = Plan::of(&tree, &[position]);
        plan.vary(&mut random, &tree);
        let id = tree.ids()[position as usize];
        let layers = tree.height() as u64;
        let proved = Ok(Proof { id, position, layers, root: tree.root() });
        assert_eq!(check_bump(&plan.bump().bytes, &id), proved);
        assert_eq!(check_cmp(&plan.cmp().bytes, &id), proved);
        let _ = check_clients(&plan.bump().bytes);
    }
}

/// Every change of one field and every truncation of some proofs.
#[test]
fn damaged_fields() {
    let mut random = Random::of("damaged_fields");
    let (mut bumps, mut cmps) = (Tally::default(), Tally::default());
    let (mut tscs, mut clients) = (Tally::default(), Tally::default());
    for count in [2, 3, 7, 21] {
        let tree = Tree::random(&mut random, count);
        let plan = Plan::random(&mut random, &tree);
        let id = tree.ids()[random.index(count)];
        let (bump, cmp) = (plan.bump(), plan.cmp());
        for edit in field_edits(&bump) {
            bumps.note(check_bump(&edit, &id));
            clients.note(check_clients(&edit));
        }
        field_edits(&cmp).for_each(|edit| cmps.note(check_cmp(&edit, &id)));
        truncations(&bump.bytes).for_each(|cut| bumps.note(check_bump(cut, &id)));
        truncations(&cmp.bytes).for_each(|cut| cmps.note(check_cmp(cut, &id)));
    }
    for _ in 0..12 {
        let draft = tsc::Plan::random(&mut random, 40).draft();
        field_edits(&draft).for_each(|edit| tscs.note(check_tsc(&edit)));
        truncations(&draft.bytes).for_each(|cut| tscs.note(check_tsc(cut)));
    }
    bumps.assert_met(&[2, 3, 4, 5, 6, 7, 8, 9]);
    cmps.assert_met(&[2, 3, 4, 5, 6, 8, 9]);
    clients.assert_met(&[2, 3, 4, 5, 6, 7, 8, 9]);
    tscs.assert_met(&[0, 2, 3, 5, 6, 7, 9, 11, 16]);
}

/// Paths with a leaf dropped, moved, repeated or changed, asked for each id that they carry.
#[test]
fn spoilt_proofs() {
    let mut random = Random::of("spoilt_proofs");
    let (mut paths, mut clients, mut tscs) = (Tally::default(), Tally::default(), Tally::default());
    for _ in 0..rounds() {
        let count = random.within(2..=24) as usize;
        let tree = Tree::random(&mut random, count);
        let mut plan = Plan::random(&mut random, &tree);
        for _ in 0..random.within(1..=2) {
            plan.spoil(&mut random);
        }
        let mut ids: Vec<Hash> = plan.levels.iter().flatten().map(|leaf| leaf.hash).collect();
        ids.push(random.hash());
        for id in ids.iter().take(4).chain(ids.last()) {
            paths.note(check_bump(&plan.bump().bytes, id));
            paths.note(check_cmp(&plan.cmp().bytes, id));
        }
        clients.note(check_clients(&plan.bump().bytes));

        let mut proof = tsc::Plan::random(&mut random, 24);
        proof.spoil(&mut random);
        tscs.note(check_tsc(&proof.draft().bytes));

        let id = tree.ids()[random.index(count)];
        let _ = check_bump(&random_edit(&mut random, &plan.bump()), &id);
        let _ = check_cmp(&random_edit(&mut random, &plan.cmp()), &id);
        let _ = check_clients(&random_edit(&mut random, &plan.bump()));
        let _ = check_tsc(&random_edit(&mut random, &proof.draft()));
    }
    if rounds() >= 1_000 {
        paths.assert_met(&[0, 13, 14, 15]);
        clients.assert_met(&[0, 13, 14, 15, 16]);
        tscs.assert_met(&[0, 15, 16]);
    }
}

#[test]
fn sizes() {
    let longer = vec![0; MAX_INPUT + 1];
    let id = [0; 32];
    assert_eq!(number(check_bump(&longer, &id)), 1);
    assert_eq!(number(check_cmp(&longer, &id)), 1);
    assert_eq!(number(check_tsc(&longer)), 1);
    assert_eq!(number(check_clients(&longer)), 1);
    let greatest = &longer[1..];
    assert!(check_bump(greatest, &id).is_err());
    assert!(check_cmp(greatest, &id).is_err());
    assert!(check_tsc(greatest).is_err());
    assert!(check_clients(greatest).is_err());
}
