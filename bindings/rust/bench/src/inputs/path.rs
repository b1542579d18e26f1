//! Paths and TSC proofs.

use reference::generate::path::{Leaf, Plan};
use reference::generate::random::Random;
use reference::generate::tree::Tree;
use reference::generate::{transaction, tsc};
use reference::Hash;

use crate::stored::join;

/// A path of so many levels with as many leaves on each as fit, up to 1,024, their offsets falling.
/// Copies stand on odd offsets and take ten bytes at most.
pub fn falling(height: u32, copies: bool) -> Plan {
    let step = if copies { 2 } else { 1 };
    let level = |level: u32| {
        let last = u64::MAX >> (64 - (height - level));
        let leaf = |n| Leaf { offset: last - step * n, flags: u8::from(copies), hash: [0xaa; 32] };
        (0..(last / step).min(1_023) + 1).map(leaf).collect()
    };
    Plan { block_height: 1, levels: (0..height).map(level).collect() }
}

/// Puts the leaves of each level 4,096 or the greatest power of two apart that it has room for: then
/// all of them share a slot of the reader's, and each is looked for among all before it.
pub fn apart(path: &mut Plan) {
    let height = path.levels.len();
    for (level, leaves) in path.levels.iter_mut().enumerate() {
        let step = 1 << (height - level).saturating_sub(10).clamp(1, 12);
        let count = leaves.len() as u64;
        (0..count).rev().zip(leaves).for_each(|(n, leaf)| leaf.offset = step * n + 1);
    }
}

/// Puts the leaves of each level in the order of their offsets.
pub fn rise(path: &mut Plan) {
    path.levels.iter_mut().for_each(|leaves| leaves.sort_by_key(|leaf| leaf.offset));
}

/// Puts them in no order.
pub fn shuffle(random: &mut Random, path: &mut Plan) {
    path.levels.iter_mut().for_each(|leaves| random.shuffle(leaves));
}

/// A path without its leaves above level 0.
pub fn ids_alone(mut path: Plan) -> Plan {
    path.levels[1..].iter_mut().for_each(Vec::clear);
    path
}

/// The tree whose ids are the nodes above those of another.
pub fn above(tree: &Tree) -> Tree {
    Tree::new((0..tree.ids().len() as u64 / 2).map(|place| tree.hash(1, place)).collect())
}

/// A path of so many levels with one leaf each.
pub fn small_bump(height: u8) -> Vec<u8> {
    let level = |level| vec![Leaf { offset: 1, flags: 0, hash: [level; 32] }];
    Plan { block_height: 1, levels: (0..height).map(level).collect() }.bump().bytes
}

/// A TSC proof of so many nodes.
pub fn small_tsc(count: u8) -> Vec<u8> {
    let mut proof = tsc::Plan::of(&Tree::new(vec![[7; 32], [8; 32]]), 0);
    proof.nodes.resize(count.into(), (0, [9; 32]));
    proof.draft().bytes
}

/// A TSC proof of a transaction of a block of 1,000, with the whole of it.
pub fn whole_tsc(random: &mut Random, mined: &transaction::Plan) -> Vec<u8> {
    let mut ids = vec![[7; 32]; 1_000];
    ids[777] = mined.id();
    let mut proof = tsc::Plan::of(&Tree::new(ids), 777);
    proof.body = mined.draft();
    proof.stated = Some(proof.body.bytes.len() as u64);
    proof.aim(4, random);
    proof.draft().bytes
}

/// A path of 32 levels with these ids at the last even offsets of the lowest, and nothing else.
pub fn without_siblings(ids: &[Hash]) -> Plan {
    let first = (1 << 32) - 2 * ids.len() as u64;
    let leaf = |(n, &hash): (u64, &Hash)| Leaf { offset: first + 2 * n, flags: 2, hash };
    let mut levels = vec![Vec::new(); 32];
    levels[0] = (0..).zip(ids).map(leaf).collect();
    Plan { block_height: 1, levels }
}

/// A path of so many levels full of falling leaves; those that the climbs of a small tree's ids ask
/// for are written last. And its root.
pub fn buried(tree: &Tree, positions: &[u64], height: u32) -> (Plan, Hash) {
    let mut path = falling(height, false);
    let asked = Plan::of(tree, positions);
    let mut root = tree.root();
    for (level, leaves) in path.levels.iter_mut().enumerate() {
        let mut own = asked.levels.get(level).cloned().unwrap_or_else(|| {
            let sibling = Leaf { offset: 1, flags: 0, hash: [level as u8; 32] };
            root = join(&root, &sibling.hash);
            vec![sibling]
        });
        own.reverse();
        let end = 1 << tree.height().saturating_sub(level).max(1);
        leaves.retain(|leaf| leaf.offset >= end);
        leaves.truncate(1_024 - own.len());
        leaves.append(&mut own);
    }
    (path, root)
}

/// A path of falling leaves at the offsets of [`falling`], or at others where there are any.
pub fn beside(height: u32, apart: bool) -> Plan {
    let mut path = falling(height, false);
    for leaf in path.levels.iter_mut().flatten() {
        leaf.hash = [0xbb; 32];
    }
    if apart {
        for leaves in path.levels.iter_mut().filter(|leaves| leaves.len() == 1_024) {
            let least = leaves[1_023].offset;
            leaves.iter_mut().for_each(|leaf| leaf.offset -= least);
        }
    }
    path
}

/// The path of most joins that 1,024 leaves a level allow, and how many its climb from position 0
/// makes. Under the top sibling each level has as many worked-out nodes as its leaves below allow:
/// of two children the left one is worked out, too, or written, and the right one is written or a
/// copy. Where they are written the levels are filled up with surplus leaves.
pub fn halving(height: usize, copies: bool) -> (Plan, usize) {
    let leaf = |offset| Leaf { offset, flags: u8::from(copies && offset % 2 == 1), hash: [7; 32] };
    let mut levels = vec![Vec::new(); height];
    let mut worked_out = vec![0];
    for level in 1..=height - 11 {
        worked_out.push((worked_out[level - 1] + 1_022) / 2);
    }
    let joins = height + 1_023 + worked_out.iter().sum::<usize>();
    // The node at offset 1 of the top level stands over 1,024 nodes ten levels lower.
    let mut nodes: Vec<u64> = (1_024..2_048).collect();
    for level in (0..=height - 11).rev() {
        let written = nodes.split_off(worked_out[level]);
        levels[level].extend(written.into_iter().map(leaf));
        if level > 0 {
            levels[level - 1].extend(nodes.iter().map(|node| leaf(2 * node + 1)));
            nodes.iter_mut().for_each(|node| *node *= 2);
        }
    }
    levels[0].push(Leaf { hash: [8; 32], ..leaf(0) });
    for (level, leaves) in levels[..height - 1].iter_mut().enumerate() {
        leaves.push(leaf(1));
        let surplus = (2..1 << (height - 1 - level)).take(1_024 - leaves.len());
        if level > 0 && !copies {
            leaves.extend(surplus.map(leaf));
        }
    }
    (Plan { block_height: 1, levels }, joins)
}

/// A path of copies at offset 1 of every level below the last; of the left half only the first
/// leaf is written besides, and the client is the first of the right half, beside copies, too. So
/// the top sibling is worked out over all levels below it.
pub fn copied(height: usize, id: Hash) -> Plan {
    let position = 1u64 << (height - 1);
    let leaf = |offset, flags| Leaf { offset, flags, hash: [7; 32] };
    let mut levels = vec![Vec::new(); height];
    for (level, leaves) in levels[..height - 1].iter_mut().enumerate() {
        leaves.extend([leaf(1, 1), leaf((position >> level) + 1, 1)]);
    }
    levels[0].extend([leaf(0, 0), Leaf { hash: id, ..leaf(position, 2) }]);
    Plan { block_height: 1, levels }
}

/// How many levels [`two_parts`] has.
pub const HEIGHT: usize = 64;
/// The level of the two siblings that are worked out over all leaves that a level may have.
const TOP: usize = 62;
/// How many levels below it the first leaves stand.
const DEPTH: usize = 9;

/// Clients at the start of each half of a tree, which take turns at level 0. Copies stand beside
/// them up to the top; there the sibling of each half's is worked out, over copies and as many
/// leaves as a level may have, and then the other half, with its clients. Without its last leaf
/// the right half has no value.
pub fn two_parts(random: &mut Random, ids: &[Hash], missing: bool) -> Plan {
    let half = ids.len() / 2;
    let copy = |offset| Leaf { offset, flags: 1, hash: [0; 32] };
    let mut levels = vec![Vec::new(); HEIGHT];
    let start = |part: usize| (part as u64) << (HEIGHT - 1);
    for (number, &hash) in ids.iter().enumerate() {
        levels[0].push(Leaf { offset: start(number % 2) + number as u64 / 2, flags: 2, hash });
    }
    let full = half.next_power_of_two().trailing_zeros() as usize;
    for part in [0, 1] {
        for (level, leaves) in levels.iter_mut().enumerate().take(TOP).skip(full) {
            leaves.push(copy((start(part) >> level) + 1));
        }
    }
    // At each level so many nodes are worked out; the others are written, or copies.
    let mut worked_out = vec![0, (1_024 - ids.len()) / 4];
    for level in 2..=TOP - DEPTH {
        worked_out.push((worked_out[level - 1] + 510) / 2);
    }
    for sibling in [1, 3] {
        let mut nodes: Vec<u64> = (0..1 << DEPTH).map(|node| (sibling << DEPTH) + node).collect();
        for level in (0..=TOP - DEPTH).rev() {
            let written = nodes.split_off(worked_out[level]);
            let leaf = |offset| Leaf { offset, flags: 0, hash: random.hash() };
            levels[level].extend(written.into_iter().map(leaf));
            if level > 0 {
                levels[level - 1].extend(nodes.iter().map(|node| copy(2 * node + 1)));
                nodes.iter_mut().for_each(|node| *node *= 2);
            }
        }
    }
    levels[1..].iter_mut().for_each(|level| random.shuffle(level));
    if missing {
        let last = |leaf: &Leaf| leaf.flags == 0 && leaf.offset >> TOP == 3;
        let place =
            levels[0].iter().rposition(last).expect("a leaf under the right half's sibling");
        levels[0].remove(place);
    }
    Plan { block_height: 1, levels }
}
