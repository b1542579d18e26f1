//! Hash work, counted (02, Item 11): SHA-256 block compressions, by 02's words and not by what the
//! code here hashes.

use crate::climb::{beside, Climb};
use crate::path::Path;
use crate::prove::start;
use crate::refusal::{Refusal, TWIN};
use crate::Hash;

/// "For each join, 3."
pub const JOIN: u64 = 3;

/// "For a transaction of n bytes, (n + 72) / 64 rounded down, plus 1."
pub fn of_transaction(length: usize) -> u64 {
    (length as u64 + 72) / 64 + 1
}

/// What a climb in a path costs that came to this answer.
pub fn of_climb(path: &Path, id: &Hash, answer: &Result<Climb, Refusal>) -> u64 {
    let Some(position) = start(path, id) else { return 0 };
    let sibling = |layer| of_node(path, layer, beside(position >> layer));
    let layers = |count| (0..count).map(|layer| JOIN + sibling(layer)).sum::<u64>();
    match answer {
        Ok(_) => layers(path.tree_height()),
        // "A refused climb counts the layers below its fault and, for 15, what the sibling there
        // cost." So one that can't be had is never asked about: it costs none.
        Err(fault) if fault.number == TWIN => layers(fault.layer) + sibling(fault.layer),
        Err(fault) => layers(fault.layer),
    }
}

/// "A computed sibling costs its own join and those of its children, a copy none"; one that is
/// written takes no join.
fn of_node(path: &Path, level: u64, offset: u64) -> u64 {
    if path.leaf(level as usize, offset).is_some() {
        return 0;
    }
    let child = |side| of_node(path, level - 1, 2 * offset + side);
    JOIN + child(0) + child(1)
}

#[cfg(test)]
mod tests {
    use super::*;
    use crate::bump;
    use crate::hex::{encode, expand};
    use crate::prove::climb_path;
    use crate::sha256::join;

    /// The formula is the number of blocks that a message and then its digest are padded to.
    #[test]
    fn transactions() {
        let blocks = |length: usize| (length + 1 + 8).div_ceil(64) as u64;
        for length in 0..1_000 {
            assert_eq!(of_transaction(length), blocks(length) + blocks(32), "{length}");
        }
        assert_eq!(JOIN, of_transaction(64));
    }

    /// The joins of the climb of `[aa]`.
    fn work(example: &str) -> u64 {
        let path = bump::read(&expand(example)).expect("a sound path").path;
        let id = [0xaa; 32];
        of_climb(&path, &id, &climb_path(&path, &id)) / JOIN
    }

    #[test]
    fn climbs() {
        let pair = "02 02 [aa] 03 00 [ab]";
        assert_eq!(work("00 01 00"), 0);
        assert_eq!(work("00 01 02 00 02 [aa] 01 00 [ab]"), 1);
        assert_eq!(work("00 01 02 00 02 [aa] 01 01"), 1);
        // 14 at layer 0, and at layer 1.
        assert_eq!(work("00 01 01 00 02 [aa]"), 0);
        assert_eq!(work("00 02 02 00 02 [aa] 01 00 [ab] 00"), 1);
        // The sibling at layer 1 is worked out, from two nodes, and from a node and a copy.
        assert_eq!(work(&format!("00 02 04 00 00 [0a] 01 00 [0b] {pair} 00")), 3);
        assert_eq!(work(&format!("00 02 04 00 00 [0a] 01 01 {pair} 00")), 3);
        // It is written over its children; it lacks a child.
        assert_eq!(work(&format!("00 02 04 00 00 [0a] 01 00 [0b] {pair} 01 00 00 [0c]")), 2);
        assert_eq!(work(&format!("00 02 03 00 00 [0a] {pair} 00")), 1);
        // A twin that is written, and one that is worked out: the join of its layer does not count.
        let parent = encode(&join(&[0xab; 32], &[0xaa; 32]));
        assert_eq!(work(&format!("00 02 02 02 00 [ab] 03 02 [aa] 01 00 00 {parent}")), 1);
        let twin =
            format!("00 03 02 04 00 [ab] 05 02 [aa] 03 00 00 {parent} 01 00 [cc] 03 00 [cc] 00");
        assert_eq!(work(&twin), 3);
    }

    /// One of the two children of the top sibling is worked out, the other can't be had: nothing of
    /// it counts.
    #[test]
    fn a_part_of_what_cannot_be_had() {
        let own = "04 02 [aa] 05 00 [bb]";
        let below = |leaves: &str| work(&format!("00 03 {leaves} {own} 01 03 00 [cc] 00"));
        assert_eq!(below("04 00 00 [0a] 01 00 [0b]"), 2);
        assert_eq!(below("06 00 00 [0a] 01 00 [0b] 02 00 [0c] 03 00 [0d]"), 6);
    }
}
