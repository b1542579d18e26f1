//! Writing the BUMP of a block's ids (02, Item 1).

use std::collections::{BTreeSet, HashSet};

use crate::climb::{beside, climb, Sibling};
use crate::generate::draft::varint;
use crate::refusal::{refuse, Refusal, BAD_OFFSET, NOT_LISTED, NO_ROOM, OVER_LIMIT, SAME_TX};
use crate::sha256::join;
use crate::Hash;

/// The BUMP that proves the ids at the chosen positions of a block's list, for a room of so many
/// bytes. The ids stand end to end.
pub fn write_bump(
    block_height: u64,
    ids: &[u8],
    positions: &[u64],
    room: usize,
) -> Result<Vec<u8>, Refusal> {
    let count = ids.len() / 32;
    let whole = ids.len() % 32 == 0;
    if block_height > 4_294_967_295 || !(2..=1_024).contains(&count) || !whole {
        return refuse(OVER_LIMIT, 0);
    }
    if positions.is_empty() {
        return refuse(NOT_LISTED, 0);
    }
    if positions.iter().any(|&position| position >= count as u64) {
        return refuse(BAD_OFFSET, 0);
    }
    let ids: Vec<Hash> = ids.chunks_exact(32).map(|id| std::array::from_fn(|i| id[i])).collect();
    if ids.iter().collect::<HashSet<_>>().len() < count {
        return refuse(SAME_TX, 0);
    }
    let chosen: BTreeSet<u64> = positions.iter().copied().collect();
    let tree = layers(ids);
    if let Some(refusal) = twin(&tree, &chosen) {
        return Err(refusal);
    }
    let bytes = bump(block_height, &tree, &chosen);
    if bytes.len() > room {
        return refuse(NO_ROOM, 0);
    }
    Ok(bytes)
}

/// The layers that a climb needs siblings of, from the ids upwards: all of the tree but its root.
fn layers(ids: Vec<Hash>) -> Vec<Vec<Hash>> {
    let mut tree = vec![ids];
    loop {
        let parents: Vec<Hash> = tree[tree.len() - 1]
            .chunks(2)
            .map(|pair| join(&pair[0], pair.last().expect("one node or two")))
            .collect();
        if parents.len() == 1 {
            return tree;
        }
        tree.push(parents);
    }
}

/// What stands at a position of a layer: a node, or beside the last of an odd number its copy.
fn node(layer: &[Hash], position: u64) -> Sibling {
    layer.get(position as usize).map_or(Sibling::Copy, |hash| Sibling::Value(*hash))
}

/// The refusal of the least chosen position whose climb meets a twin; a tree misses no sibling.
fn twin(tree: &[Vec<Hash>], chosen: &BTreeSet<u64>) -> Option<Refusal> {
    let sibling = |layer: usize, offset| node(&tree[layer], offset);
    let from = |&position| climb(tree[0][position as usize], position, tree.len() as u64, sibling);
    chosen.iter().find_map(|position: &u64| from(position).err())
}

/// The bytes: at each level the siblings that the chosen positions' climbs need, and at level 0 the
/// chosen ids, offsets rising. Above level 0 a sibling is left out if a chosen position lies under
/// it.
fn bump(block_height: u64, tree: &[Vec<Hash>], chosen: &BTreeSet<u64>) -> Vec<u8> {
    let mut bytes = varint(block_height);
    bytes.push(tree.len() as u8);
    for (level, layer) in tree.iter().enumerate() {
        let above: BTreeSet<u64> = chosen.iter().map(|position| position >> level).collect();
        let mut offsets: BTreeSet<u64> = above.iter().map(|&offset| beside(offset)).collect();
        if level == 0 {
            offsets.extend(&above);
        } else {
            offsets.retain(|offset| !above.contains(offset));
        }
        bytes.extend(varint(offsets.len() as u64));
        for offset in offsets {
            bytes.extend(varint(offset));
            match node(layer, offset) {
                Sibling::Value(hash) => {
                    bytes.push(if level == 0 && chosen.contains(&offset) { 2 } else { 0 });
                    bytes.extend(hash);
                }
                _ => bytes.push(1),
            }
        }
    }
    bytes
}

#[cfg(test)]
mod tests {
    use super::*;
    use crate::hex::expand;
    use crate::refusal::TWIN;

    fn written(ids: &str, positions: &[u64]) -> Vec<u8> {
        write_bump(0, &expand(ids), positions, 999).expect("a sound list")
    }

    #[test]
    fn examples() {
        let (left, right) = (join(&[0xaa; 32], &[0xbb; 32]), join(&[0xcc; 32], &[0xcc; 32]));
        assert_eq!(written("[aa] [bb]", &[1, 1]), expand("00 01 02 00 00 [aa] 01 02 [bb]"));
        assert_eq!(
            written("[aa] [bb] [cc]", &[2]),
            [expand("00 02 02 02 02 [cc] 03 01 01 00 00"), left.to_vec()].concat()
        );
        assert_eq!(
            written("[aa] [bb] [cc]", &[0]),
            [expand("00 02 02 00 02 [aa] 01 00 [bb] 01 01 00"), right.to_vec()].concat()
        );
        assert_eq!(
            written("[aa] [bb] [cc]", &[0, 2]),
            expand("00 02 04 00 02 [aa] 01 00 [bb] 02 02 [cc] 03 01 00")
        );
    }

    /// No list of different ids leads to a twin that is known, so trees are made by hand. In the
    /// first the nodes of layer 1 are equal, which only the climb that comes from the right refuses.
    #[test]
    fn twins() {
        let blamed = |tree: &[Vec<Hash>], positions: &[u64]| {
            let chosen = positions.iter().copied().collect();
            twin(tree, &chosen).map(|refusal| {
                assert_eq!((refusal.number, refusal.carried), (TWIN, 0));
                (refusal.layer, refusal.sibling)
            })
        };
        let hash = |byte: u8| [byte; 32];
        let parent = join(&hash(0xcc), &hash(0xcc));
        let tree = [vec![hash(0xaa), hash(0xbb), hash(0xcc)], vec![parent, parent]];
        let told = [0, 1, 2].map(|position| blamed(&tree, &[position]));
        assert_eq!(told, [None, None, Some((1, 0))]);
        assert_eq!(blamed(&tree, &[1, 2, 0]), Some((1, 0)));

        // The climb from 3 has twins at layers 0 and 1, from 2 at layer 1, from 5 at layer 0: the
        // lowest layer of the least chosen position is blamed, not the lowest of all.
        let leaves = [1, 2, 3, 3, 5, 5, 7, 8].map(hash);
        let low = [join(&leaves[2], &leaves[3]), hash(9), hash(10), hash(11)];
        let tree = [leaves.to_vec(), low.to_vec(), vec![hash(12), hash(13)]];
        assert_eq!(blamed(&tree, &[3]), Some((0, 2)));
        assert_eq!(blamed(&tree, &[5, 3, 2]), Some((1, 0)));
        assert_eq!(blamed(&tree, &[5, 3]), Some((0, 2)));
        assert_eq!(blamed(&tree, &[7, 5]), Some((0, 4)));
        assert_eq!(blamed(&tree, &[7, 4, 1, 0]), None);
    }
}
