//! To and from TSC proofs (02, Item 6).

use crate::bump::{self, Bump};
use crate::climb::{beside, Climb, Layer};
use crate::generate::draft::varint;
use crate::path::{Leaf, Node, Path};
use crate::prove::{climb_path, climb_tsc};
use crate::refusal::{refuse, Refusal, BAD_HEIGHT, NO_ROOM};
use crate::tsc::{self, Tsc};
use crate::Hash;

/// The BUMP with one client leaf that says what a TSC proof says, for a room of so many bytes.
pub fn tsc_to_bump(data: &[u8], block_height: u32, room: usize) -> Result<Vec<u8>, Refusal> {
    let proof = tsc::read(data)?;
    climb_tsc(&proof)?;
    if proof.nodes.is_empty() {
        return refuse(BAD_HEIGHT, proof.count_place);
    }
    let bump = Bump { block_height: u64::from(block_height), path: path(&proof) };
    fitting(bump::bytes(&bump), room)
}

/// The TSC proof, with id and root target, of an id's climb in a BUMP, for a room of so many bytes.
pub fn bump_to_tsc(data: &[u8], id: &Hash, room: usize) -> Result<Vec<u8>, Refusal> {
    let path = bump::read(data)?.path;
    let climb = climb_path(&path, id)?;
    fitting(tsc_bytes(&climb, &nodes(&path, &climb)), room)
}

/// 22 exactly when the bytes needed exceed the room.
fn fitting(bytes: Vec<u8>, room: usize) -> Result<Vec<u8>, Refusal> {
    if bytes.len() > room {
        return refuse(NO_ROOM, 0);
    }
    Ok(bytes)
}

/// The sibling at each level, and beside the lowest one the client's id; offsets rise.
fn path(proof: &Tsc) -> Path {
    let sibling = |(level, node): (usize, &tsc::Node)| {
        let node = match node {
            tsc::Node::Hash(hash) => Node::Plain(*hash),
            tsc::Node::Copy => Node::Copy,
        };
        vec![Leaf { offset: beside(proof.index >> level), node }]
    };
    let mut levels: Vec<Vec<Leaf>> = proof.nodes.iter().enumerate().map(sibling).collect();
    levels[0].push(Leaf { offset: proof.index, node: Node::Client(proof.id) });
    levels[0].sort_by_key(|leaf| leaf.offset);
    Path { levels }
}

/// The siblings of an accepted climb: a copy where one is written, else the value that was hashed.
fn nodes(path: &Path, climb: &Climb) -> Vec<tsc::Node> {
    let node = |(level, layer): (usize, &Layer)| {
        let at = climb.position >> level;
        if path.leaf(level, beside(at)).is_some_and(|leaf| leaf.node == Node::Copy) {
            return tsc::Node::Copy;
        }
        let start = if at % 2 == 0 { 32 } else { 0 };
        tsc::Node::Hash(std::array::from_fn(|i| layer.string[start + i]))
    };
    climb.layers.iter().enumerate().map(node).collect()
}

/// The bytes (000) of a proof with the id and the root.
fn tsc_bytes(climb: &Climb, nodes: &[tsc::Node]) -> Vec<u8> {
    let mut bytes = vec![4];
    bytes.extend(varint(climb.position));
    bytes.extend(climb.id);
    bytes.extend(climb.root());
    bytes.extend(varint(nodes.len() as u64));
    for node in nodes {
        match node {
            tsc::Node::Hash(hash) => {
                bytes.push(0);
                bytes.extend(hash);
            }
            tsc::Node::Copy => bytes.push(1),
        }
    }
    bytes
}

#[cfg(test)]
mod tests {
    use super::*;
    use crate::generate::path::Plan;
    use crate::generate::random::{rounds, Random};
    use crate::generate::tree::Tree;
    use crate::generate::{transaction, tsc::Plan as Proof};
    use crate::hex::{encode, expand};
    use crate::prove::{by_bump, by_tsc};
    use crate::sha256::join;

    type Answer = Result<Vec<u8>, Refusal>;

    fn to_bump(example: &str, room: usize) -> Answer {
        tsc_to_bump(&expand(example), 1, room)
    }

    fn to_tsc(example: &str, room: usize) -> Answer {
        bump_to_tsc(&expand(example), &[0xaa; 32], room)
    }

    /// The hex of a parent.
    fn parent(left: &Hash, right: &Hash) -> String {
        encode(&join(left, right))
    }

    #[test]
    fn examples() {
        let proof = "00 01 [aa] [ab] 01 00 [bb]";
        let bump = expand("01 01 02 00 00 [bb] 01 02 [aa]");
        assert_eq!(to_bump(proof, 70), refuse(22, 0));
        assert_eq!(to_bump(proof, 71), Ok(bump.clone()));
        assert_eq!(to_bump(proof, 999), Ok(bump));
        // An equal hash at an even position stays a hash; the id is then at two offsets.
        let bump = "01 01 02 00 02 [aa] 01 00 [aa]";
        assert_eq!(to_bump("00 00 [aa] [ab] 01 00 [aa]", 71), Ok(expand(bump)));
        let root = parent(&[0xaa; 32], &[0xaa; 32]);
        assert_eq!(to_tsc(bump, 999), Ok(expand(&format!("04 00 [aa] {root} 01 00 [aa]"))));
        assert_eq!(to_tsc(bump, 99), refuse(22, 0));
    }

    /// The reading's refusals, 15, 16, 4 at the node count, then 22; of a BUMP the reading's, 13, 14
    /// or 15, then 22.
    #[test]
    fn order_of_refusals() {
        assert_eq!(to_bump("06 00 [aa] [aa] 00", 0), refuse(7, 0));
        assert_eq!(to_bump("04 00 [aa] [ab] 00 00", 0), refuse(9, 67));
        assert_eq!(to_bump("04 01 [aa] [ab] 00", 0), refuse(6, 1));
        assert_eq!(to_bump("04 00 [aa] [ab] 00", 0), refuse(16, 0));
        assert_eq!(to_bump("04 00 [aa] [aa] 00", 0), refuse(4, 66));
        assert_eq!(to_bump("00 00 [aa] [ab] 00", 999), refuse(4, 66));
        assert_eq!(to_bump("02 00 [aa] 11{36} [ab] 22{12} 00", 0), refuse(16, 0));
        assert_eq!(to_bump("02 00 [aa] 11{36} [aa] 22{12} 00", 0), refuse(4, 114));
        let twin = |layer, sibling| Err(Refusal::of_sibling(15, layer, sibling));
        assert_eq!(to_bump("04 01 [aa] [ab] 01 00 [aa]", 0), twin(0, 0));
        assert_eq!(to_bump("04 03 [aa] [ab] 02 00 [cc] 01", 0), twin(1, 0));
        assert_eq!(to_bump("04 00 [aa] [ab] 01 01", 0), refuse(16, 0));
        assert_eq!(to_bump("00 00 [aa] [ab] 01 01", 0), refuse(22, 0));

        let missing = |layer, sibling| Err(Refusal::of_sibling(14, layer, sibling));
        assert_eq!(to_tsc("00 00", 0), refuse(4, 1));
        assert_eq!(to_tsc("00 01 00 00", 0), refuse(9, 3));
        assert_eq!(to_tsc("00 01 00", 0), refuse(13, 0));
        assert_eq!(to_tsc("00 02 01 02 02 [aa] 00", 0), missing(0, 3));
        assert_eq!(to_tsc("00 02 03 01 01 02 02 [aa] 03 00 [ab] 00", 0), missing(1, 0));
        let own = parent(&[0xaa; 32], &[0xab; 32]);
        let twin_above = format!("00 02 02 02 02 [aa] 03 00 [ab] 01 00 00 {own}");
        assert_eq!(to_tsc(&twin_above, 0), twin(1, 0));
        assert_eq!(to_tsc("00 01 02 00 02 [aa] 01 01", 0), refuse(22, 0));
    }

    /// A transaction in place of the id, and every kind of target.
    #[test]
    fn all_flags() {
        let mut random = Random::of("all_flags");
        let own = transaction::Plan::random(&mut random);
        let mut ids = vec![[7; 32]; 5];
        ids[3] = own.id();
        let tree = Tree::new(ids);
        let mut bump = Plan::of(&tree, &[3]);
        bump.block_height = 1;
        for whole in [false, true] {
            for kind in [0, 2, 4] {
                let mut proof = Proof::of(&tree, 3);
                if whole {
                    proof.body = own.draft();
                    proof.stated = Some(proof.body.bytes.len() as u64);
                }
                proof.aim(kind, &mut random);
                let written = tsc_to_bump(&proof.draft().bytes, 1, 999);
                assert_eq!(written, Ok(bump.bump().bytes));
            }
        }
    }

    /// Copies stay copies both ways, at the lowest three layers and at layers 0, 1 and 3.
    #[test]
    fn copies() {
        let proof = Proof::of(&Tree::random(&mut Random::of("copies"), 9), 8).draft().bytes;
        let bump = tsc_to_bump(&proof, 0, 999).expect("a sound proof");
        assert_eq!(bump_to_tsc(&bump, &std::array::from_fn(|i| proof[2 + i]), 999), Ok(proof));

        let levels = "02 04 02 [aa] 05 01 01 03 01 01 00 00 [cc] 01 01 01";
        let made = to_tsc(&format!("05 04 {levels}"), 999).expect("a sound path");
        assert_eq!(made[..34], expand("04 04 [aa]"));
        assert_eq!(made[66..], expand("04 01 01 00 [cc] 01"));
        assert_eq!(tsc_to_bump(&made, 5, 999), Ok(expand(&format!("05 04 {levels}"))));
    }

    /// A sibling that is worked out becomes a node with its value, even if a copy lies under it.
    #[test]
    fn worked_out_siblings() {
        let own = join(&[0xaa; 32], &[0xab; 32]);
        let values = [
            ("00 00 [0a] 01 00 [0b]", join(&[0x0a; 32], &[0x0b; 32])),
            ("00 00 [0a] 01 01", join(&[0x0a; 32], &[0x0a; 32])),
        ];
        for (below, value) in values {
            let bump = format!("00 02 04 {below} 02 02 [aa] 03 00 [ab] 00");
            let (value, root) = (encode(&value), parent(&value, &own));
            let proof = format!("04 02 [aa] {root} 02 00 [ab] 00 {value}");
            assert_eq!(to_tsc(&bump, 999), Ok(expand(&proof)));
            let single = format!("00 02 02 02 02 [aa] 03 00 [ab] 01 00 00 {value}");
            assert_eq!(tsc_to_bump(&expand(&proof), 0, 999), Ok(expand(&single)));
        }
        // Any flags of a written sibling; another client, and a leaf on the climb's way, are left
        // out.
        let bump = "00 02 03 00 02 [aa] 01 02 [ab] 02 02 [ac] 02 00 00 [07] 01 00 [0c]";
        let root = parent(&own, &[0x0c; 32]);
        let proof = format!("04 00 [aa] {root} 02 00 [ab] 00 [0c]");
        assert_eq!(to_tsc(bump, 999), Ok(expand(&proof)));
    }

    /// The id at two offsets: the climb starts at the least, in whatever order they are written.
    #[test]
    fn least_offset() {
        let root = parent(&[0xaa; 32], &[0xaa; 32]);
        let proof = format!("04 00 [aa] {root} 01 00 [aa]");
        assert_eq!(to_tsc("00 01 02 01 02 [aa] 00 00 [aa]", 999), Ok(expand(&proof)));
    }

    /// TSC to BUMP and back gives the same bytes.
    #[test]
    fn there_and_back() {
        let mut random = Random::of("there_and_back");
        for _ in 0..rounds() {
            let proof = Proof::grown(&mut random);
            let bytes = proof.draft().bytes;
            let id = by_tsc(&bytes).expect("a sound proof").id;
            let bump = tsc_to_bump(&bytes, random.bits() as u32, usize::MAX).expect("a proof");
            assert_eq!(bump_to_tsc(&bump, &id, bytes.len()), Ok(bytes));
        }
    }

    /// BUMP to TSC and back keeps the whole climb, and so root, position and layers.
    #[test]
    fn back_and_there() {
        let mut random = Random::of("back_and_there");
        for _ in 0..rounds() {
            let id = random.hash();
            let plan = Plan::grown(&mut random, id);
            let bump = plan.bump().bytes;
            let climb = by_bump(&bump, &id).expect("a sound path");
            let proof = bump_to_tsc(&bump, &id, usize::MAX).expect("a sound path");
            assert_eq!(by_tsc(&proof), Ok(climb.clone()));
            let single = tsc_to_bump(&proof, 0, usize::MAX).expect("a sound proof");
            assert_eq!(by_bump(&single, &id), Ok(climb));
            let path = bump::read(&single).expect("a well-formed BUMP").path;
            assert_eq!(path.leaves(), path.tree_height() + 1);
        }
    }

    /// The most bytes that each can need: 64 nodes that are hashes, at the last position.
    #[test]
    fn longest() {
        let mut proof = Proof::of(&Tree::new(vec![[0xaa; 32]]), 0);
        proof.index = u64::MAX;
        proof.nodes = vec![(0, [0xbb; 32]); 64];
        proof.aim(0, &mut Random::of("longest"));
        let bump = tsc_to_bump(&proof.draft().bytes, u32::MAX, usize::MAX).expect("a sound proof");
        // Offsets of the siblings take nine bytes at 32 levels, five at 16, three at 9, one at 7.
        assert_eq!(bump.len(), 5 + 1 + 42 + 64 * 34 + 32 * 9 + 16 * 5 + 9 * 3 + 7);
        let back = bump_to_tsc(&bump, &[0xaa; 32], usize::MAX).expect("a sound path");
        assert_eq!(back.len(), 1 + 9 + 2 * 32 + 1 + 64 * 33);
    }
}
