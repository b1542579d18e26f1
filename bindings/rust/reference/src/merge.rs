//! Two BUMPs of one block merged (02, Item 14; 003, "Merging").

use std::collections::BTreeMap;

use crate::bump::{self, Bump};
use crate::leaves::{self, Row};
use crate::path::{Leaf, Node, Path, MAX_LEAVES};
use crate::prove::clients_root;
use crate::refusal::{refuse, Refusal, NO_ROOM, OVER_LIMIT, ROOTS_DIFFER, UNLIKE};
use crate::Hash;

/// A merged path and the list of its leaves.
#[derive(Debug, Clone, PartialEq, Eq)]
pub struct Merged {
    /// The bytes.
    pub bytes: Vec<u8>,
    /// The list.
    pub list: Vec<Row>,
}

/// A level's leaves by offset.
type Level = BTreeMap<u64, Node>;

/// Merges two BUMPs into room for so many bytes and so many leaves.
pub fn merge(
    first: &[u8],
    second: &[u8],
    bytes_room: usize,
    list_room: usize,
) -> Result<Merged, Refusal> {
    // "After each path's own, its check's included in merging."
    let ((first, root), (second, other)) = (checked(first)?, checked(second)?);
    let heights = |bump: &Bump| (bump.block_height, bump.path.tree_height());
    if heights(&first) != heights(&second) || root != other {
        return refuse(UNLIKE, 0);
    }
    let block_height = first.block_height;
    let (first, second) = (by_offset(&first), by_offset(&second));
    let pairs: Vec<(&Level, &Level)> = first.iter().zip(&second).collect();
    if pairs.iter().any(|pair| offsets(*pair).len() as u64 > MAX_LEAVES) {
        return refuse(OVER_LIMIT, 0);
    }
    let levels = pairs.into_iter().map(united).collect::<Option<Vec<_>>>();
    let merged = levels.map(|levels| Bump { block_height, path: Path { levels } });
    // "The merged path still has it"; whatever its check would say is 16.
    let Some(merged) = merged.filter(|bump| clients_root(&bump.path) == Ok(root)) else {
        return refuse(ROOTS_DIFFER, 0);
    };
    let (bytes, list) = (bump::bytes(&merged), leaves::list(&merged));
    if bytes.len() > bytes_room || list.len() > list_room {
        return refuse(NO_ROOM, 0);
    }
    Ok(Merged { bytes, list })
}

/// A path and "the root its all-clients check gives".
fn checked(data: &[u8]) -> Result<(Bump, Hash), Refusal> {
    let bump = bump::read(data)?;
    let root = clients_root(&bump.path)?;
    Ok((bump, root))
}

fn by_offset(bump: &Bump) -> Vec<Level> {
    let level = |leaves: &Vec<Leaf>| leaves.iter().map(|leaf| (leaf.offset, leaf.node)).collect();
    bump.path.levels.iter().map(level).collect()
}

/// The offsets that either has, rising.
fn offsets((first, second): (&Level, &Level)) -> Vec<u64> {
    let mut offsets: Vec<u64> = first.keys().chain(second.keys()).copied().collect();
    offsets.sort();
    offsets.dedup();
    offsets
}

/// "Every leaf of either once and no other", if no two contradict each other.
fn united((first, second): (&Level, &Level)) -> Option<Vec<Leaf>> {
    let node = |offset: u64| match (first.get(&offset), second.get(&offset)) {
        (Some(one), Some(other)) => {
            let written = |level: &Level, hash: &Hash| {
                let left = offset.checked_sub(1).and_then(|left| level.get(&left));
                left.and_then(Node::hash) == Some(hash)
            };
            agreed(*one, *other, |hash| written(first, hash) || written(second, hash))
        }
        (one, other) => one.or(other).copied(),
    };
    let leaf = |offset| node(offset).map(|node| Leaf { offset, node });
    offsets((first, second)).into_iter().map(leaf).collect()
}

/// What is kept of two leaves at one place, if they agree. `on_left` says whether the left neighbour
/// is written with a hash, in either path.
fn agreed(one: Node, other: Node, on_left: impl Fn(&Hash) -> bool) -> Option<Node> {
    match (one.hash(), other.hash()) {
        (None, None) => Some(Node::Copy),
        // "A hash over a copy whose left neighbour has that hash."
        (Some(hash), None) => on_left(hash).then_some(one),
        (None, Some(hash)) => on_left(hash).then_some(other),
        // "A client flag wins over a plain one."
        (Some(hash), Some(same)) if hash == same => {
            Some(if matches!(one, Node::Client(_)) { one } else { other })
        }
        (Some(_), Some(_)) => None,
    }
}

#[cfg(test)]
mod tests {
    use super::*;
    use crate::hex::{encode, expand};
    use crate::refusal::NOT_LISTED;
    use crate::sha256::join;

    fn hashes(text: &str) -> Vec<u8> {
        let node = |left: u8, right: u8| encode(&join(&[left; 32], &[right; 32]));
        let text =
            text.replace("J(aa,ab)", &node(0xaa, 0xab)).replace("J(ac,ac)", &node(0xac, 0xac));
        expand(&text.replace("J(ac,ad)", &node(0xac, 0xad)))
    }

    fn merged(first: &str, second: &str, room: (usize, usize)) -> Result<Vec<u8>, Refusal> {
        let merged = merge(&hashes(first), &hashes(second), room.0, room.1)?;
        assert_eq!(leaves::build(&merged.bytes, room.1), Ok(merged.list));
        Ok(merged.bytes)
    }

    #[test]
    fn examples() {
        let refused = |number| refuse(number, 0);
        let pair = "01 01 02 00 02 [aa] 01 00 [ab]";
        let turned = "01 01 02 01 02 [ab] 00 00 [aa]";
        let both = expand("01 01 02 00 02 [aa] 01 02 [ab]");
        assert_eq!(merged(pair, turned, (71, 2)), Ok(both.clone()));
        assert_eq!(merged(turned, pair, (71, 2)), Ok(both));
        assert_eq!(merged(pair, turned, (70, 2)), refused(NO_ROOM));
        assert_eq!(merged(pair, turned, (71, 1)), refused(NO_ROOM));
        // Heights and roots.
        let other_block = "02 01 02 00 02 [aa] 01 00 [ab]";
        assert_eq!(merged(pair, other_block, (0, 0)), refused(UNLIKE));
        assert_eq!(merged(pair, "01 01 02 00 02 [aa] 01 00 [ac]", (0, 0)), refused(UNLIKE));
        let upper = "01 01 02 00 02 J(aa,ab) 01 00 J(ac,ad)";
        let lower = "01 02 02 00 02 [aa] 01 00 [ab] 01 01 00 J(ac,ad)";
        assert_eq!(merged(upper, lower, (0, 0)), refused(UNLIKE));
        // The first's own, then the second's.
        assert_eq!(merged("01 01 02 00 00 [aa] 01 00 [ab]", "00", (0, 0)), refused(NOT_LISTED));
        assert_eq!(merged(pair, "00", (0, 0)), refuse(2, 1));
    }

    #[test]
    fn copies_and_hashes() {
        let copied = "01 02 02 02 02 [ac] 03 01 01 00 00 J(aa,ab)";
        let written = "01 02 03 00 02 [aa] 01 00 [ab] 03 00 [ac] 01 01 00 J(ac,ac)";
        let both = hashes(
            "01 02 04 00 02 [aa] 01 00 [ab] 02 02 [ac] 03 00 [ac] \
             02 00 00 J(aa,ab) 01 00 J(ac,ac)",
        );
        assert_eq!(merged(copied, written, (999, 9)), Ok(both.clone()));
        assert_eq!(merged(written, copied, (999, 9)), Ok(both));
        // The left neighbour is written in neither.
        let alone = "01 02 03 00 02 [aa] 01 00 [ab] 03 01 01 01 00 J(ac,ac)";
        assert_eq!(merged(alone, written, (999, 9)), refuse(ROOTS_DIFFER, 0));
        assert_eq!(merged(alone, alone, (999, 9)), Ok(hashes(alone)));
    }

    /// A leaf of the second that its own climb does not ask for, and the first's does: another hash
    /// at a place of the first, and one from which the merged path works out something else.
    #[test]
    fn surplus_leaves() {
        let first = "01 02 02 00 02 [aa] 01 00 [ab] 01 01 00 J(ac,ad)";
        let second = "01 02 02 02 02 [ac] 03 00 [ad] 02 00 00 J(aa,ab) 01 00 [0b]";
        assert_eq!(merged(first, second, (999, 9)), refuse(ROOTS_DIFFER, 0));
        let second = "01 02 03 02 02 [ac] 03 00 [ad] 01 00 [ab] 01 00 00 J(aa,ab)";
        let both = "01 02 04 00 02 [aa] 01 00 [ab] 02 02 [ac] 03 00 [ad] \
                    02 00 00 J(aa,ab) 01 00 J(ac,ad)";
        assert_eq!(merged(first, second, (999, 9)), Ok(hashes(both)));
        // The sibling at (2, 1) is worked out in the first; in the second it is written, wrongly.
        let ids = "04 00 [a4] 05 00 [a5] 06 00 [a6] 07 00 [a7]";
        let first = format!("01 03 08 00 02 [aa] 01 00 [ab] 02 00 [ac] 03 00 [ad] {ids} 00 00");
        let second = "01 03 08 00 00 [aa] 01 00 [ab] 02 00 [ac] 03 00 [ad] \
                      04 02 [a4] 05 00 [a5] 06 00 [a6] 07 00 [a7] 00 01 01 00 [0c]";
        assert_eq!(merged(&first, second, (999, 99)), refuse(ROOTS_DIFFER, 0));
    }
}
